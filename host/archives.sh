#!/bin/sh
# Makes the archives that bench and stack.sh look at, in target/staticlib:   host/archives.sh
#   libradio.a        check, start and advance, for the radio stack in C
#   libmiddleware.a   why, for the middleware in C
#   libtables.a       the calls on a table, which C does not have (tables.rattle): a crate of its own over copies of the others
set -eu
here=$(cd "$(dirname "$0")" && pwd)
work=$(mktemp -d)
trap 'rm -rf "$work"' EXIT

# quietly COMMAND..: what it prints is shown if it fails.
quietly() {
    "$@" >"$work/log" 2>&1 || { cat "$work/log" >&2; exit 1; }
}

cd "$here/.."
quietly tools/archive.sh radio
quietly tools/archive.sh middleware
# So that the copies take what is built here.
(cd crates/changes && quietly rt lib)
for crate in crates/*/; do
    mkdir -p "$work/$crate"
    for part in src specs proofs; do
        [ ! -d "$crate$part" ] || cp -r "$crate$part" "$work/$crate"
    done
done
mkdir -p "$work/crates/tables_c/src" "$work/tools"
cp host/tables.rattle "$work/crates/tables_c/src/lib.rt"
{
    cat crates.txt
    echo "tables_c staticlib: trade sections bounds table changes"
} >"$work/crates.txt"
cp tools/archive.sh "$work/tools"
quietly "$work/tools/archive.sh" tables
cp "$work/target/staticlib/libtables.a" target/staticlib
