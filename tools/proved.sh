# Sourced by bash, at the top of the repository: some crates in a copy of their files, where `rt ci` proves them and what it made of them
# stays in their out/. What it passed before on this machine it takes from there, so after the gate that takes seconds; and nothing in this
# checkout waits for it or changes.

crates_with() { # NAME..: these crates and all below them, by crates.txt, each after those that it uses
    awk -v wanted="$*" '
        function add(name, words, count, i) {
            if (!(name in uses) || name in found) return
            found[name] = 1
            count = split(uses[name], words, " ")
            for (i = 1; i <= count; i++) add(words[i])
            print name
        }
        { sub(/#.*/, "") }
        split($0, sides, ":") == 2 && split(sides[1], words, " ") > 0 { uses[words[1]] = sides[2] }
        END {
            number = split(wanted, names, " ")
            for (place = 1; place <= number; place++) add(names[place])
        }' crates.txt
}

# Makes the folder a repository of these crates and all below them, as they stand but for their must-fail edits.
copy_crates() { # FOLDER NAME..
    local folder=$1 names name part
    names=$(crates_with "${@:2}") || return 1
    mkdir -p "$folder/.git" "$folder/crates" || return 1
    for name in $names; do
        mkdir "$folder/crates/$name" || return 1
        for part in "crates/$name"/*; do
            case ${part##*/} in out | must-fail) ;; *) cp -R "$part" "$folder/crates/$name/" || return 1 ;; esac
        done
        sed -n "/^$name[ :]/p" crates.txt >>"$folder/crates.txt"
    done
    [ ! -f HANDLES ] || cp HANDLES "$folder/"
}

# Proves a copy; what rt ci says goes to standard output.
prove_copy() { # FOLDER
    (cd "$1" && rt ci 2>&1)
}
