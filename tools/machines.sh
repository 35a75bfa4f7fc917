# Sourced by bash: this machine and the other one of the two that the library is made for. own_machine is x86_64 or aarch64; its programs are
# built by its own gcc and cargo. other_machine is the other: need_other sees to Debian's cross compiler for it, its Rust with that
# machine's standard library, and qemu, and installs what is missing of these with apt-get; it sets CC_OTHER, RUN_OTHER, CARGO_OTHER and
# TARGET_OTHER. library_of has the folder of a machine's library.

own_machine=$(uname -m)
case $own_machine in
x86_64) other_machine=aarch64 other_debian=arm64 other_gcc=gcc-aarch64-linux-gnu ;;
aarch64) other_machine=x86_64 other_debian=amd64 other_gcc=gcc-x86-64-linux-gnu ;;
*) echo "tools/machines.sh: no library for $own_machine" >&2; exit 1 ;;
esac

library_of() { # MACHINE
    echo "$PWD/target/lib/$1-linux"
}

has_other() {
    [ -x /usr/bin/cargo ] && [ -d "/usr/lib/rustlib/$other_machine-unknown-linux-gnu" ] &&
        command -v "$other_machine-linux-gnu-gcc" >/dev/null && command -v "qemu-$other_machine" >/dev/null
}

install_other() {
    echo "installing Debian's $other_gcc, qemu-user, rustc, cargo and libstd-rust-dev:$other_debian"
    dpkg --add-architecture "$other_debian" &&
        apt-get update -qq &&
        DEBIAN_FRONTEND=noninteractive apt-get install -y -qq --no-install-recommends "$other_gcc" "libc6-dev-$other_debian-cross" \
            qemu-user rustc cargo "libstd-rust-dev:$other_debian" >/dev/null
}

need_other() {
    local upper
    has_other || install_other || return 1
    upper=$(echo "$other_machine" | tr '[:lower:]' '[:upper:]')
    CC_OTHER=$other_machine-linux-gnu-gcc
    RUN_OTHER=qemu-$other_machine
    CARGO_OTHER=/usr/bin/cargo
    TARGET_OTHER=--target=$other_machine-unknown-linux-gnu
    export RUSTC=/usr/bin/rustc RUSTDOC=/usr/bin/rustdoc
    export "CARGO_TARGET_${upper}_UNKNOWN_LINUX_GNU_LINKER=$CC_OTHER" "CARGO_TARGET_${upper}_UNKNOWN_LINUX_GNU_RUNNER=$RUN_OTHER"
}
