#!/bin/sh
# Counts the instructions of the processor that the texts take to be made and to be read, at two sizes, of which one is about twice
# the other, and those and the time of one run of each command over the shared declarations:
#   bench/texts.sh
# The program `ciderlater` is proved and built first where that is still to be done. Counted is by `valgrind --tool=callgrind`.
#
# The text of tables is that of a file of instructions: a run that writes it, less one of `query` over no input, which makes the same tables
# and writes nothing. The texts of Rust are those of a file of instructions of two values: a run that writes the text, less one of `check`,
# which builds the same and writes a line. Read are the shared text, the
# longest text of instructions of seven inputs that an input has room for, and that of half as many: a run of `recheck` over the text,
# less one over nothing, beside a run of `cat` over it, less one over nothing. Of a command are told the instructions of a run over no
# input, which declares and builds too, and for `query`, `tables` and `recheck` makes the tables, and the processor time of a run, of
# twenty.
#
# The status is 1 where a run fails, and 125 where a program couldn't be built.
set -u

. "$(dirname "$0")/programs.sh"

built ciderlater --version
folder=$(mktemp -d) || exit 1
trap 'rm -rf "$folder"' EXIT
processor

# The instructions of the text of the tables of so many instructions.
text_of() {
    instructions_of "$1" > "$folder/file"
    made=$(counted /dev/null "$program" -d "$folder/file" query) || return 1
    written=$(counted /dev/null "$program" -d "$folder/file" tables) || return 1
    printf '%.0f\n' "$((written - made))"
}

few=2047
many=4095
small=$(text_of $few) || exit 1
large=$(text_of $many) || exit 1
printf 'tables %s: %s instructions\ntables %s: %s instructions\n' "$few" "$small" "$many" "$large"
awk -v few="$few" -v many="$many" -v small="$small" -v large="$large" \
    'BEGIN { printf "tables: %.2f times the size, %.2f times the instructions\n", many / few, large / small }'

# A file of so many instructions of two values.
declared() {
    awk -v count="$1" 'BEGIN {
        print "/// An integer.\ntype N: ints 8..64\nformat Two: value, value"
        for (k = 0; k < count; k++) print "/// An instruction.\ninst i" k ": Two(x: N, y: N) -> a: N"
    }'
}

for text in instructions builder; do
    grown=
    for count in $few $many; do
        declared "$count" > "$folder/file"
        none=$(counted /dev/null "$program" -d "$folder/file" check) || exit 1
        all=$(counted /dev/null "$program" -d "$folder/file" $text) || exit 1
        bytes=$("$program" -d "$folder/file" $text | wc -c)
        printf '%s %s: %s bytes, %s instructions\n' $text "$count" "$bytes" "$((all - none))"
        grown="$grown $((all - none))"
    done
    printf '%s\n' "$grown" | awk -v text=$text -v few="$few" -v many="$many" \
        '{ printf "%s: %.2f times the size, %.2f times the instructions\n", text, many / few, $2 / $1 }'
done

# The text of the tables of so many instructions of seven inputs and one output.
text_of_tables() {
    instructions_of "$1" > "$folder/file"
    "$program" -d "$folder/file" tables
}

# What it takes to read a text of the tables, and what `cat` takes, which copies the same bytes: for all of it, and a byte.
read_again() {
    bytes=$(wc -c < "$2")
    taken=$(($(counted "$2" "$program" recheck) - $(counted /dev/null "$program" recheck)))
    copied=$(($(counted "$2" cat) - $(counted /dev/null cat)))
    awk -v what="$1" -v says="$("$program" recheck < "$2")" -v bytes="$bytes" -v taken="$taken" -v copied="$copied" 'BEGIN {
        printf "reading %s, %s: %d bytes, %.0f instructions, %.2f a byte; cat: %.0f, %.2f a byte\n", what, says, bytes, taken, taken / bytes, copied, copied / bytes
    }'
}

"$program" tables < /dev/null > "$folder/shared"
read_again 'the shared text' "$folder/shared"
most=2200
text_of_tables $most > "$folder/most"
while [ "$(wc -c < "$folder/most")" -gt 1048576 ]; do
    most=$((most - 1))
    text_of_tables $most > "$folder/most"
done
text_of_tables $((most / 2)) > "$folder/half"
read_again "$((most / 2)) instructions" "$folder/half"
read_again "$most instructions" "$folder/most"

# The processor seconds of twenty runs of a command over no input.
seconds() {
    sh -c 'n=0; while [ $n -lt 20 ]; do "$1" "$2" < /dev/null > /dev/null || exit 1; n=$((n + 1)); done; times' sh \
        "$program" "$1" |
        awk 'NR == 2 { gsub(/m/, " "); gsub(/s/, ""); print $1 * 60 + $2 + $3 * 60 + $4 }'
}

for command in query recheck types tables settings instructions builder; do
    written=$(counted /dev/null "$program" $command) || exit 1
    taken=$(seconds $command) || exit 1
    awk -v command=$command -v all="$written" -v taken="$taken" \
        'BEGIN { printf "%s: %.0f instructions, %.1f ms\n", command, all, taken * 50 }'
done
