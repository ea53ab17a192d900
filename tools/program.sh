#!/bin/sh
# Runs a proved program: tools/program.sh NAME [ARGUMENT..]. It is crates/NAME/out/NAME, which `rt ci` leaves there, and tools/build.sh.
set -eu
here=$(cd "$(dirname "$0")/.." && pwd)
[ $# -ge 1 ] || { echo "usage: tools/program.sh NAME [ARGUMENT..]" >&2; exit 2; }
name=$1
shift
program=$here/crates/$name/out/$name
[ -x "$program" ] || { echo "program: there is no $program (tools/build.sh $name makes it)" >&2; exit 1; }
emulator=
[ "$(uname -m)" = x86_64 ] || emulator=qemu-x86_64
exec $emulator "$program" "$@"
