# Sourced by the scripts beside it. Sets what builds and runs x86-64 programs on this machine:
#   rustc, rust_target   the compiler and its options
#   cc                   the C compiler
#   emulator             what stands in front of a program, empty if nothing has to
# The Debian packages that this takes are installed when they are missing.

rust_target=
emulator=

wants() {
    command -v "$1" >/dev/null || { echo "host: $1 is missing: $2" >&2; exit 1; }
}

# brings PACKAGE..
brings() {
    echo "host: installing from Debian: $*" >&2
    apt-get -qq update
    DEBIAN_FRONTEND=noninteractive apt-get -qq -y --no-install-recommends install "$@" >/dev/null
}

case $(uname -m) in
x86_64)
    rustc=${RUSTC:-rustc}
    cc=${CC:-cc}
    command -v "$rustc" >/dev/null || brings rustc-web || brings rustc || true
    command -v "$cc" >/dev/null || brings gcc libc6-dev || true
    wants "$rustc" "install Rust"
    wants "$cc" "install a C compiler"
    ;;
aarch64)
    rustc=${RUSTC:-/usr/bin/rustc}
    rust_target="--target x86_64-unknown-linux-gnu -C linker=x86_64-linux-gnu-gcc"
    cc=x86_64-linux-gnu-gcc
    # Where the processor says that it moves many bytes in one instruction, the C library lets it, and the emulator moves them one by one.
    emulator="qemu-x86_64 -cpu max,-erms"
    packages="rustc-web libstd-rust-web-dev:amd64 gcc-x86-64-linux-gnu libc6-dev-amd64-cross qemu-user"
    missing=
    for package in $packages; do
        [ "$(dpkg-query -W -f '${db:Status-Status}' "$package" 2>/dev/null)" = installed ] || missing="$missing $package"
    done
    if [ -n "$missing" ]; then
        dpkg --add-architecture amd64
        brings $missing
    fi
    wants "$rustc" "rustc-web did not bring it"
    wants "$cc" "gcc-x86-64-linux-gnu did not bring it"
    wants qemu-x86_64 "qemu-user did not bring it"
    ;;
*)
    echo "host: no way to build and run x86-64 programs on $(uname -m)" >&2
    exit 1
    ;;
esac
