#!/bin/sh
# Counts the instructions of the processor that `generate` takes for declarations which are made to be dear, at two sizes each,
# which are 1023 and 2047 instructions where the words say no others:
#   bench/worst.sh [SMALL LARGE]
# Lists of 14 constraints that share nothing (`apart`); such lists with ten constraints in front that all have (`fronts`); and lists
# of 13 constraints that ask for the control, and one of a set that no other list has (`free`). They stand in a file, which `ciderlater`
# reads. It is proved and built first where that is still to be done. Counted is by `valgrind --tool=callgrind`: `query` over no input,
# which reads, declares and makes the tables, less `check`, which makes none. The processor seconds are those of the former, the least of
# three. Of thousands of instructions that takes minutes. bench/hostile.sh has names that collide, and formats. The status is 1 where a
# run fails, and 125 where the program couldn't be built.
set -u

. "$(dirname "$0")/programs.sh"

few=${1:-1023}
many=${2:-2047}

built ciderlater --version
folder=$(mktemp -d) || exit 1
trap 'rm -rf "$folder"' EXIT

# A file of so many instructions of a kind, a line each, after what they stand on.
declared() {
    awk -v kind="$1" -v count="$2" '
    # The digit with this number of k, from the last, in this base.
    function digit(k, base, number) { return int(k / base ^ number) % base }
    # A range of powers of two, each of which begins and ends at one of so many.
    function range(low, high, k, base, at) { return low * 2 ^ digit(k, base, at + 1) ".." high * 2 ^ digit(k, base, at) }
    function types(k) {
        return "lanes " range(1, 16, k, 4, 2) ", dynamic " range(2, 32, k, 4, 0) \
            ", ints " range(8, 64, k, 2, 8) ", floats " range(16, 64, k, 2, 10)
    }
    # The type of an operand of an instruction, of 14, whose outputs come first: so many in front are `m`, and the others the four digits
    # of k again and again. Or all are of one variable but the last.
    function type(k, fronts, place) {
        if (kind == "free") return place < 13 ? "X" : "F" k
        return place < fronts ? "m" : "d" digit(k, 8, place % 4)
    }
    # The operands from a place on, of which there are seven.
    function operands(k, fronts, from,    place, words) {
        for (place = from; place < from + 7; place++) words = words (place == from ? "" : ", ") "o" place ": " type(k, fronts, place)
        return words
    }
    BEGIN {
        print "format Seven: value, value, value, value, value, value, value\ntype X: " types(0) "\ntype m = f128"
        split("i8 i16 i32 i64 i128 f16 f32 f64", names, " ")
        for (k = 1; k <= 8; k++) print "type d" k - 1 " = " names[k]
        fronts = kind == "fronts" ? 10 : 1
        for (k = 0; k < count; k++) {
            if (kind == "free") print "type F" k ": " types(k)
            print "inst i" k ": Seven(" operands(k, fronts, 7) ") -> " operands(k, fronts, 0)
        }
    }'
}

# The instructions and the seconds of the tables of so many instructions of a kind.
generated() {
    declared "$1" "$2" > "$folder/file" || return 1
    "$program" -d "$folder/file" check > "$folder/counts" || return 1
    less=$(counted /dev/null "$program" -d "$folder/file" check) || return 1
    all=$(counted /dev/null "$program" -d "$folder/file" query) || return 1
    taken=$(least /dev/null "$program" -d "$folder/file" query) || return 1
    printf '%.0f %s\n' "$((all - less))" "$taken"
}

processor
for kind in apart fronts free; do
    small=$(generated "$kind" "$few") || exit 1
    large=$(generated "$kind" "$many") || exit 1
    printf '%s %s: %s instructions, %s s\n' "$kind" "$few" "${small% *}" "${small#* }" "$kind" "$many" "${large% *}" "${large#* }"
    awk -v kind="$kind" -v few="$few" -v many="$many" -v small="${small% *}" -v large="${large% *}" \
        'BEGIN { printf "%s: %.2f times the size, %.2f times the instructions\n", kind, many / few, large / small }'
done
