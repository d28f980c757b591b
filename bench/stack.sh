#!/usr/bin/env bash
# stack.sh ARCHIVE: from its object code, the stack that each C entry needs and the functions it wants from outside. Fails if
# tecelume_receive_word or tecelume_receive_many_word needs more than 2048 bytes, tecelume_signatures_word more than 24576, tecelume_judge_word more
# than 8192 or another entry more than 1024, or if anything but memcpy, memset, memmove and memcmp is wanted.
#
# The figure is an upper bound. A function needs its return address, every push and every step down of %rsp that it has, each counted
# once on whatever path, 128 bytes below %rsp if it calls nothing (the red zone), and the most that a function needs which it calls or
# jumps to. A step of unknown size, a call through a pointer and recursion fail. An indirect jump is taken for a switch. What memcpy
# and its like need is the C library's and not counted.
set -euo pipefail

archive=${1:?usage: stack.sh ARCHIVE}
allowed=' memcpy memset memmove memcmp '

work=$(mktemp -d)
trap 'rm -rf "$work"' EXIT

# linked, so that calls from one section to another have their targets
ld -shared -Bsymbolic -o "$work/linked" --whole-archive "$archive"
objdump -d --no-show-raw-insn -j .text "$work/linked" >"$work/code"
nm -u "$work/linked" | awk '{ print $NF }' | sort -u >"$work/wanted"
nm --defined-only -g "$work/linked" | awk '$2 == "T" { print $3 }' | sort -u >"$work/entries"

awk -v entries="$work/entries" '
    function fail(why) { print "stack.sh: " why; failed = 1; exit 1 }

    # the size of a step, and whether it is negative: then it has all 64 bits
    function hex(digits,    i, n) {
        negative = length(digits) == 16
        if (negative)
            digits = substr(digits, 9)
        n = 0
        for (i = 1; i <= length(digits); i++)
            n = n * 16 + index("0123456789abcdef", substr(digits, i, 1)) - 1
        return negative ? 4294967296 - n : n
    }

    # the digits after "0x" in the first operand
    function operand(text) {
        sub(/^[^x]*x/, "", text)
        sub(/[^0-9a-f].*$/, "", text)
        return text
    }

    # the name in <name> or <name+0x12>
    function target(text) {
        sub(/^[^<]*</, "", text)
        sub(/>.*$/, "", text)
        sub(/\+0x[0-9a-f]+$/, "", text)
        return text
    }

    function edge(to) {
        if (to !~ /@plt$/)
            callees[here] = callees[here] " " to
    }

    function need(f,    list, n, i, m, most, next_one) {
        if (f in total)
            return total[f]
        if (!(f in own))
            fail("no code for " f)
        if (f in open)
            fail("recursion through " f)
        open[f] = 1
        most = 0
        next_one = ""
        n = split(callees[f], list, " ")
        for (i = 1; i <= n; i++) {
            m = need(list[i])
            if (m > most) {
                most = m
                next_one = list[i]
            }
        }
        delete open[f]
        path[f] = f (next_one == "" ? "" : " > " path[next_one])
        total[f] = own[f] + (f in calls ? 0 : 128) + most
        return total[f]
    }

    /^[0-9a-f]+ <.*>:$/ {
        here = target($0)
        own[here] = 8
        next
    }
    !/^ *[0-9a-f]+:\t/ { next }
    {
        line = $0
        sub(/^[^\t]*\t/, "", line)
        sub(/^(notrack|bnd) /, "", line)
    }
    line ~ /^push/ { own[here] += 8; next }
    line ~ /^call +\*/ { fail("call through a pointer in " here) }
    line ~ /^call/ { calls[here] = 1; edge(target(line)); next }
    line ~ /^j[a-z]+ +[0-9a-f]+ </ {
        if (target(line) != here)
            edge(target(line))
        next
    }
    line !~ /,%rsp$/ { next }
    line ~ /^sub +\$0x/ {
        n = hex(operand(line))
        if (!negative)
            own[here] += n
        next
    }
    line ~ /^lea +-0x[0-9a-f]+\(%rsp\)/ { own[here] += hex(operand(line)); next }
    line ~ /^(add|and) +\$0x/ {
        n = hex(operand(line))
        if (negative) # a step down, or to an alignment
            own[here] += n
        else if (line ~ /^and/)
            fail("cannot tell the stack of " here ": " line)
        next
    }
    line ~ /^lea +0x[0-9a-f]+\(%rsp\)/ { next } # up
    line ~ /^lea +-?0x[0-9a-f]+\(%rbp\)/ { next } # up, back to what was pushed
    line ~ /^mov +%rbp,/ { next }
    { fail("cannot tell the stack of " here ": " line) }

    END {
        if (failed)
            exit 1
        printf "%-28s %6s   %s\n", "stack", "bytes", "along"
        while ((getline f < entries) > 0) {
            n = need(f)
            printf "%-28s %6d   %s\n", f, n, path[f]
            limit = f ~ /^tecelume_receive(_many)?_word$/ ? 2048 : f == "tecelume_signatures_word" ? 24576 : f == "tecelume_judge_word" ? 8192 : 1024
            if (n > limit)
                fail(f " needs more than " limit " bytes")
        }
    }
' "$work/code"

printf 'wanted from outside: %s\n' "$(paste -sd ' ' "$work/wanted")"
while read -r name; do
    case "$allowed" in
        *" $name "*) ;;
        *) echo "stack.sh: $name is not allowed"; exit 1 ;;
    esac
done <"$work/wanted"
