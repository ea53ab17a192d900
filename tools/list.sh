#!/bin/sh
# Lists a book by the proved program: tools/list.sh BOOK.
set -eu
[ $# -eq 1 ] || { echo "usage: tools/list.sh BOOK" >&2; exit 2; }
exec "$(dirname "$0")/program.sh" slotlist <"$1"
