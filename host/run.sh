#!/bin/sh
# Runs a program that build.sh made: host/run.sh PROGRAM [ARGUMENT..]
# OUT names the folder it stands in; target/host if not set.
set -eu
here=$(cd "$(dirname "$0")" && pwd)
. "$here/machine.sh"
program=${OUT:-$here/../target/host}/$1
shift
SLOT_EMULATOR=$emulator SLOT_PROGRAM=$here/../tools/program.sh exec $emulator "$program" "$@"
