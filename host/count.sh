#!/bin/sh
# The instructions of one call of each row of bench, for `keen` and for the proved library, as a table in Markdown:
#   host/count.sh [OUT]
#   OUT   the folder that build.sh built into; target/host if not given
#   A call's instructions are those of 50 calls less those of none, over 50. On x86-64 callgrind counts them, on Arm a plugin of the emulator
#   (c/count.c).
set -eu
here=$(cd "$(dirname "$0")" && pwd)
out=${1:-$here/../target/host}
. "$here/machine.sh"
work=$(mktemp -d)
trap 'rm -rf "$work"' EXIT
calls=50

if [ -n "$emulator" ]; then
    gcc -shared -fPIC -O2 -Wall -Wextra -Werror -o "$work/count.so" "$here/c/count.c"
    # counted COMMAND..: how many instructions it takes.
    counted() {
        $emulator -plugin "$work/count.so" -d plugin -D "$work/log" "$@" >/dev/null
        cat "$work/log"
    }
else
    command -v valgrind >/dev/null || brings valgrind
    counted() {
        valgrind --tool=callgrind --callgrind-out-file=/dev/null "$@" 2>&1 >/dev/null | sed -n 's/.*Collected : //p'
    }
fi

# of PLANNER BOOK CALL: the instructions of one call.
of() {
    some=$(counted "$out/bench" calls "$2" "$3" "$1" $calls)
    none=$(counted "$out/bench" calls "$2" "$3" "$1" 0)
    echo $(((some - none) / calls))
}

echo "| book | call | keen | proved | keen / proved |"
echo "|---|---|---:|---:|---:|"
tab=$(printf '\t')
$emulator "$out/bench" rows | while IFS=$tab read -r book name call; do
    keen=$(of keen "$book" "$call")
    proved=$(of proved "$book" "$call")
    echo "| $name | $call | $keen | $proved | $(awk "BEGIN { printf \"%.2f\", $keen / $proved }") |"
done
