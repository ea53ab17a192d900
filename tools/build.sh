#!/bin/sh
# Proves and builds a program, crates/NAME/out/NAME: tools/build.sh NAME. What rt says is shown where that fails.
set -eu
here=$(cd "$(dirname "$0")/.." && pwd)
[ $# -eq 1 ] || { echo "usage: tools/build.sh NAME" >&2; exit 2; }
said=$(mktemp)
trap 'rm -f "$said"' EXIT
cd "$here/crates/$1"
# rt builds a program to run it: on no input, here.
rt run </dev/null >"$said" 2>&1 || { cat "$said" >&2; exit 1; }
