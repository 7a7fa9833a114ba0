#!/bin/sh
# Times the auditor, and counts what it tests:
#   bench/audit.sh
# First comes the processor time of an audit of the shared tables, of 163 opcodes, and of one of the tables of 4,095 opcodes of two
# controls, each of any of 153 types; of each also the time that making the tables takes, which is a part of it, and what is left for
# the comparison. What one takes is the difference between a run of many and a run of one, shared out; of three runs of each the least
# counts. The program `rows` declares them.
# Then come the instructions of the processor in a run of `ciderlater audit` over the text of the shared tables, and over some that other
# programs wrote. The last line tells how many numbers were tested against a constraint: the calls of one function in a run of
# `rows`, as callgrind counts them. It has an operand that is always of one type, under a control of 4 types, and under one of 4
# and another of 2, where the text names a function of the first control: 5 passes of 544 tests for each, one for each type of a control
# that a constraint reads, beside one of the other, and one for the other, and not 8 for the second.
# The programs are proved and built first where that is still to be done. The status is 1 where a run fails, where an audit of 4,095
# opcodes takes a second, or one of a text 20 million instructions; and 125 where a program couldn't be built or there is no
# valgrind.
set -u

. "$(dirname "$0")/programs.sh"

built ciderlater --version
audit=$program
built rows
rows=$program
if ! command -v valgrind > /dev/null; then
    printf 'no valgrind\n' >&2
    exit 125
fi
folder=$(mktemp -d) || exit 1
trap 'rm -rf "$folder"' EXIT
cd "$top/crates/rows/data" || exit 1

# The milliseconds of one of so many audits, or of as many makings of the tables, of what the lines declare.
per_call() {
    printf '%s\n%s 1\n' "$1" "$2" > "$folder/one"
    printf '%s\n%s %s\n' "$1" "$2" "$3" > "$folder/many"
    one=$(least "$folder/one" "$rows") || return 1
    many=$(least "$folder/many" "$rows") || return 1
    awk -v one="$one" -v many="$many" -v times="$3" 'BEGIN { printf "%.2f\n", 1000 * (many - one) / (times - 1) }'
}

# What an audit of declarations takes, and what of that the tables take. It fails where that is a second.
compare() {
    whole=$(per_call "$1" audited "$3") || return 1
    made=$(per_call "$1" generated "$3") || return 1
    awk -v name="$2" -v whole="$whole" -v made="$made" 'BEGIN {
        printf "%s: %.2f ms an audit, %.2f ms of it the tables, %.2f ms the comparison\n", name, whole, made, whole - made
        exit !(whole < 1000)
    }'
}

# The calls of the test of a number in a file of callgrind, which names a function once, after its number.
tests() {
    awk '/^c?fn=\(/ {
             id = $0; sub(/^c?fn=/, "", id); sub(/\).*/, ")", id)
             if (/operand_passes/) wanted[id] = 1
             if (/^cfn=/) called = id
         }
         /^calls=/ && called in wanted { split($1, n, "="); sum += n[2] }
         END { print sum + 0 }' "$1"
}

# What an audit of the text that the lines write, the other words, takes, after a name. It fails where that is 20 million instructions.
over_text() {
    name=$1
    shift
    printf '%s\n' shared "$@" write > "$folder/lines"
    "$rows" < "$folder/lines" > "$folder/input" || return 1
    count=$(counted "$folder/input" "$audit" audit) || return 1
    printf '%s: %s, %s instructions\n' "$name" "$("$audit" audit < "$folder/input")" "$count"
    [ "$count" -lt 20000000 ]
}

# What a run of the rows over the input does, after a name, with fewer tests than so many.
over_rows() {
    valgrind --tool=callgrind --callgrind-out-file="$folder/calls" "$rows" < "$folder/input" > "$folder/out" 2> "$folder/log" || return 1
    count=$(tests "$folder/calls")
    printf '%s: %s, %s tests of a number\n' "$1" "$(head -n 1 "$folder/out")" "$count"
    [ "$count" -gt 0 ] && [ "$count" -lt "$2" ]
}

# The lines after a comment of the stored rows, up to the next run or comment.
lines() {
    awk -v comment="$1" '$0 == comment { found = 1; next } found && /^(#|run|audited)/ { exit } found' ../stdin
}

processor
status=0
compare shared '163 opcodes' 1001 || status=1
compare "$(lines '# 4,095 instructions of two controls, each of any type, and their own tables.')" '4,095 opcodes of two controls' 101 || status=1
over_text 'the shared text' 'begin tables' || status=1
over_text 'lists of its own' 'begin tables --version 2' 'patch 00.patch' || status=1
over_text 'one type as a type set' "$(lines '# One type as that type set, in the place of each constraint that names it.')" || status=1
over_text 'opcode 69 differs' 'begin tables' 'patch 05.patch' || status=1
over_text 'opcode 92 differs' 'begin tables --version 2' 'patch 10.patch' || status=1
printf 'data five.isa\nbegin tables\nall Concrete(ir::types::I8) => AsTruthy\nrun audit\n' > "$folder/input"
over_rows 'a function of a control for one type' 5441 || status=1
exit $status
