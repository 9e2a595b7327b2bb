#!/bin/sh
# A builder in a shell with awk: it reads the function form that pass 4 begins with, and writes an offer of that pass.
#
#     ./order.sh agreed/main.pass4 offers/node2/main.pass4
#
# It knows docs/FORMATS.md and docs/PASSES.md, and nothing of the farm's code. Of passes 1 to 3 it knows nothing, and writes nothing. It lays the
# nodes out in chains: behind a node stands the one where it goes on, if that stands nowhere yet, so that no jump is needed. Whatever it writes,
# the farm's checks decide.
set -eu
if [ $# -ne 2 ]; then
    echo "usage: order.sh NAME.passK OFFER" >&2
    exit 2
fi
case $1 in
*.pass4) ;;
*) exit 0 ;;
esac
od -An -v -tu1 "$1" | awk '
    # Numbers of bytes, the highest first.
    { for (i = 1; i <= NF; i++) byte[size++] = $i }
    function u8() { return byte[at++] }
    function u16(high) { high = u8(); return 256 * high + u8() }

    # Bytes as printf writes them.
    function one(number) { return sprintf("\\%03o", number) }
    function two(number) { return one(int(number / 256)) one(number % 256) }
    function bytes(from, to, text) { for (text = ""; from < to; from++) text = text one(byte[from]); return text }
    function place(from, is_slot) { from = at; is_slot = u8(); at += is_slot ? 2 : 1; return bytes(from, at) }

    # A line of Linear.
    function put(text) { line[lines++] = text }

    # The moves of a list, as lines of Linear; how many there are.
    function moves(list, n, count, i) {
        count = u8()
        for (i = 0; i < count; i++) { move[list, n, i] = one(2) place(); move[list, n, i] = move[list, n, i] place() }
        return count
    }

    # An instruction but for where it goes on, and how many successors it has.
    function act(n, from, kind, i, count) {
        from = at
        kind = u8()
        successors[n] = kind == 9 ? 0 : kind == 8 ? 2 : 1
        if (kind == 1) at += 5
        else if (kind == 3) at += byte[at] <= 4 ? 3 : 4
        else if (kind == 4 || kind == 5) at += 4
        else if (kind == 6) { at++; for (count = u8(); count > 0; count--) place(); if (u8()) place() }
        else if (kind == 7) { at++; if (u8()) at++ }
        else if (kind == 8) at += byte[at] == 0 ? 2 : 3
        else if (kind == 9) { if (u8()) at++ }
        text[n] = kind == 0 ? "" : bytes(from, at)
    }

    function block(n, i) {
        before[n] = moves(0, n)
        act(n)
        for (i = 0; i < successors[n]; i++) goes[n, i] = u16()
        behind[n] = successors[n] == 1 ? moves(1, n) : 0
    }

    # The last successor, where a node goes on if it does not jump.
    function next_of(n) { return goes[n, successors[n] - 1] }

    function lay_out(n, i) {
        put(one(10) two(n))
        for (i = 0; i < before[n]; i++) put(move[0, n, i])
        if (text[n] != "") put(text[n] (successors[n] == 2 ? two(goes[n, 0]) : ""))
        for (i = 0; i < behind[n]; i++) put(move[1, n, i])
    }

    END {
        at = 1
        for (count = u8(); count > 0; count--) place()
        u16()
        head = bytes(1, at)
        entry = u16()
        nodes = u16()
        for (n = 0; n < nodes; n++) block(n)

        # Chains, the first from the entry, each other one from where the last branch jumps to that is not laid out yet.
        waiting[0] = entry
        for (waits = 1; waits > 0; ) {
            n = waiting[--waits]
            while (!(n in stands)) {
                stands[n]
                order[listed++] = n
                if (successors[n] == 2) waiting[waits++] = goes[n, 0]
                if (successors[n] > 0) n = next_of(n)
            }
        }
        for (i = 0; i < listed; i++) {
            n = order[i]
            lay_out(n)
            if (successors[n] > 0 && (i + 1 == listed || order[i + 1] != next_of(n))) put(one(11) two(next_of(n)))
        }

        # The offer: its form, the input, the output, the certificate.
        print one(4)
        for (i = 0; i < size; i += 64) print bytes(i, i + 64 < size ? i + 64 : size)
        print one(4) head two(int(lines / 65536)) two(lines % 65536)
        for (i = 0; i < lines; i++) print line[i]
        print two(listed)
        for (i = 0; i < listed; i++) print two(order[i])
    }' | while read -r text; do printf "$text"; done >"$2"
