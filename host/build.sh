#!/bin/sh
# Builds the host's programs: host/build.sh [ARCHIVE] [OUT] [TABLES]
#   ARCHIVE   the static library with slot_check, slot_start and slot_advance; libmiddleware.a, with slot_why, stands beside
#             it. Without it (or with -) the programs know the planners plain and keen alone, and the C programs are
#             compiled and not linked
#   OUT       the folder for what is built; target/host if not given
#   TABLES    beside ARCHIVE, the static library with the calls on a table that bench times (archives.sh makes it)
set -eu
here=$(cd "$(dirname "$0")" && pwd)
archive=${1:--}
out=${2:-$here/../target/host}
tables=${3:--}
. "$here/machine.sh"

mkdir -p "$out"
flags="--edition 2021 -O -D warnings $rust_target"
link=
middleware=-
if [ "$archive" = - ]; then
    echo "host: no archive given, so nothing is compared with the proved library"
    tables=-
else
    link="--cfg proved"
    middleware=$(dirname "$archive")/libmiddleware.a
    [ "$tables" = - ] || link="$link --cfg tables"
fi
for file in "$archive" "$middleware" "$tables"; do
    [ "$file" = - ] || [ -f "$file" ] || { echo "host: no such archive: $file" >&2; exit 1; }
done

$rustc $flags $link --crate-type rlib --crate-name slot_host -o "$out/libslot_host.rlib" "$here/src/lib.rs"
for program in cases compare monitor bench requests removal; do
    set -- --extern "slot_host=$out/libslot_host.rlib" -o "$out/$program" "$here/src/bin/$program.rs"
    for file in "$archive" "$middleware" "$tables"; do
        [ "$file" = - ] || set -- -C "link-arg=$file" "$@"
    done
    $rustc $flags "$@"
done

strict="-std=c89 -O2 -Wall -Wextra -Werror -pedantic -I $here/../include"
for program in use_header use_middleware; do
    $cc $strict -c -o "$out/$program.o" "$here/c/$program.c"
done
if [ -n "$link" ]; then
    $cc -o "$out/use_header" "$out/use_header.o" "$archive"
    $cc -o "$out/use_middleware" "$out/use_middleware.o" "$middleware" "$archive"
fi
echo "host: built in $out"
