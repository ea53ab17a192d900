#!/bin/sh
# Makes an archive for C, target/staticlib/libNAME.a, of the crate NAME_c: tools/archive.sh [--after-ci] NAME
#   --after-ci   right after `rt ci`, when nothing has changed since: over the libraries that it has proved and left in out/, so that
#                these are not proved a second time. Where the checkout has libraries that other commands built, or where that
#                fails, `rt lib` proves and builds as it does without the option
# What rt says is shown where it fails.
set -eu
cd "$(dirname "$0")/.."
after_ci=no
[ "${1-}" != --after-ci ] || { after_ci=yes; shift; }
[ $# -eq 1 ] || { echo "usage: tools/archive.sh [--after-ci] NAME" >&2; exit 2; }
name=$1 crate=$1_c
made=out/lib$crate.a
said=$(mktemp)
trap 'rm -f "$said"' EXIT

# The crate over the libraries that `rt ci` left, by the compiler that rt calls. Other commands leave a stamp beside a library, and
# those may be of an older text.
over_ci() {
    for stamp in ../*/out/rlib/stamp; do
        [ ! -e "$stamp" ] || return 1
    done
    kit=$(dirname "$(rt doc)")
    set -- --crate-name "$crate" src/lib.rt --extern "std=$kit/rlibs/std.rlib" -L "dependency=$kit/rlibs"
    for below in $(sed -n "s/^$crate staticlib://p" ../../crates.txt); do
        set -- "$@" --extern "$below=$PWD/../$below/out/rlib/$below.rlib"
    done
    for folder in "$PWD"/../*/out/rlib; do
        set -- "$@" -L "dependency=$folder"
    done
    mkdir -p out
    "$kit/bin/rattle" build "$@" --antt-project "$kit/rattle/logic/antt-project.json" --logic-built "$kit/logic_built" --crate-type staticlib \
        --toolchain "$kit/toolchain" --backend llvm -o "$made"
}

(
    cd "crates/$crate"
    rm -f "$made"
    if [ $after_ci = yes ] && over_ci; then exit 0; fi
    rt lib
) >"$said" 2>&1 || { cat "$said" >&2; exit 1; }
mkdir -p target/staticlib
cp "crates/$crate/$made" "target/staticlib/lib$name.a"
echo "made target/staticlib/lib$name.a"
