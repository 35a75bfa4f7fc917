# Sourced by bash, after tools/machines.sh: the program of second/ that compares with the core through the door, over this machine's library.

build_compare() { # FOLDER: below it
    PSAMATHYR_LIB=$(library_of "$own_machine") CARGO_TARGET_DIR=$1 \
        cargo build --quiet --offline --release --features door --manifest-path second/Cargo.toml
}

# Sets compare: the program that the gate has made for every part (COMPARE), or else one made now below the folder.
need_compare() { # FOLDER
    compare=${COMPARE:-$1/release/compare}
    [ -n "${COMPARE:-}" ] || { tools/libraries && build_compare "$1"; }
}
