#!/bin/sh
# The stack that each call takes, read out of its compiled code, as a table in Markdown:   host/stack.sh
#   A call takes its return address, its frame, and the most that a function which it calls takes: the frames of the deepest chain are
#   added up. It looks into the archives that archives.sh makes. Check, start and advance must agree with what bench measures as
#   they run.
set -eu
here=$(cd "$(dirname "$0")" && pwd)
. "$here/machine.sh"
objdump=$($cc -print-prog-name=objdump)
archives=$here/../target/staticlib

# frames ARCHIVE CALL=FUNCTION..: a line for each call.
frames() {
    archive=$1
    shift
    [ -f "$archive" ] || { echo "stack: no such archive: $archive (host/archives.sh makes it)" >&2; exit 1; }
    $objdump -dr --no-show-raw-insn "$archive" | awk -v asked="$*" '
    # Of 64 bits, the highest of them the sign.
    function number(hex,   k, n, digit, negative) {
        negative = length(hex) == 16 && hex ~ /^[89a-f]/
        for (k = 1; k <= length(hex); k++) {
            digit = index("0123456789abcdef", substr(hex, k, 1)) - 1
            n = 16 * n + (negative ? 15 - digit : digit)
        }
        return negative ? -n - 1 : n
    }
    function fails(what) {
        print "stack: " what >"/dev/stderr"
        failed = 1
        exit 1
    }
    function reaches(bytes) { if (bytes > own[name]) own[name] = bytes }
    function moves(bytes) {
        depth += bytes
        reaches(depth)
        if (entering) frame = depth
    }

    # A function begins: nothing lies below its return address yet.
    /^[0-9a-f]+ <.*>:$/ {
        name = substr($2, 2, length($2) - 3)
        depth = frame = own[name] = 0
        entering = 1
        next
    }
    # Whom the instruction just before calls, or goes on to.
    /R_X86_64_/ {
        if (calls) {
            callee = $3
            sub(/[-+]0x[0-9a-f]+$/, "", callee)
            sub(/^\.text\./, "", callee)
            k = ++sites[name]
            to[name, k] = callee
            at[name, k] = from
        }
        calls = 0
        next
    }
    {
        calls = down = 0
        if ($2 == "push") down = 8
        else if ($2 == "pop") down = -8
        else if ($3 ~ /,%rsp$/) {
            if ($2 !~ /^(sub|add)$/ || $3 !~ /^\$0x[0-9a-f]+,/) fails(name " moves the stack by " $2 " " $3)
            down = number(substr($3, 4, length($3) - 8)) * ($2 == "sub" ? 1 : -1)
        }
    }
    # It enters by going down, and touches each page of a large frame. What it pushes later are arguments.
    down <= 0 && frame > 0 && !($2 == "movq" && $3 == "$0x0,(%rsp)") { entering = 0 }
    down != 0 { moves(down) }
    $2 == "call" || $2 == "jmp" { calls = 1; from = depth }
    # What stands behind the end of a way through the function is reached from elsewhere in it.
    $2 == "ret" || $2 == "jmp" { depth = frame }
    # A function that calls nobody may write below its frame.
    match($0, /-0x[0-9a-f]+\(%rsp/) { reaches(depth + number(substr($0, RSTART + 3, RLENGTH - 8))) }

    # What a function takes below its return address; one that is not in the archive (memcpy) nothing.
    function taken(f,   k, sum, most) {
        if (!(f in own)) return 0
        if (f in known) return known[f]
        most = own[f]
        for (k = 1; k <= sites[f]; k++) {
            sum = at[f, k] + 8 + taken(to[f, k])
            if (sum > most) {
                most = sum
                deeper[f] = to[f, k]
            }
        }
        return known[f] = most
    }
    END {
        if (failed) exit 1
        count = split(asked, words, " ")
        for (i = 1; i <= count; i++) {
            split(words[i], pair, "=")
            f = pair[2]
            if (!(f in own)) fails(f " is no function of its own")
            gsub(/_/, " ", pair[1])
            line = "| " pair[1] " | " (8 + taken(f)) " |"
            for (; f in own; f = deeper[f]) line = line " " f " " own[f] ";"
            sub(/;$/, " |", line)
            print line
        }
    }'
}

echo "| stack | bytes | the deepest chain, and the frames |"
echo "|---|---:|---|"
frames "$archives/libradio.a" check=slot_check start=slot_start advance=slot_advance
frames "$archives/libmiddleware.a" why=slot_why
frames "$archives/libtables.a" read=table::table::read write=table::written::write add=changes::change::add \
    remove=changes::change::remove check_of_a_table=table::checked::check_table
