#!/bin/sh
# Measures what tables cost, over files of declarations of two sizes, of which one is twice the other or about so: of instructions, of the
# settings and presets of a group, and of the inputs of one instruction, which is refused:
#   bench/generate.sh
# Of each file it prints the bytes, the processor seconds of `ciderlater -d FILE tables`, the least of three runs, and the instructions of
# the processor, by `valgrind --tool=callgrind`. They have three parts: to read the file, declare and check, as `types` does; to make the
# tables, which `query` over no input does besides; and to write their text. For each pair it prints the ratio of the two.
# The program is proved and built first where that is still to be done. The status is 1 where a run fails, and 125 where the program
# couldn't be built or there is no valgrind.
set -u

. "$(dirname "$0")/programs.sh"

built ciderlater --version
if ! command -v valgrind > /dev/null; then
    printf 'no valgrind\n' >&2
    exit 125
fi
folder=$(mktemp -d) || exit 1
trap 'rm -rf "$folder"' EXIT

# What the files below name things by: the short name of a number, which is no word of the language and no type.
names='function short(n,  word) {
    word = substr("bcdghjklmnpqrstvwxz", n % 19 + 1, 1)
    for (n = int(n / 19); ; n = int(n / 30)) { word = word substr("0123456789bcdfghjklmnpqrstvwxz", n % 30 + 1, 1); if (n < 30) return word }
}'

# A group of so many settings and presets: eight booleans, a number, and presets of two booleans each.
settings_of() {
    awk -v count="$1" "$names"'BEGIN {
        print "group g"
        split("b c d f g h j k", name, " ")
        for (k = 1; k <= 8; k++) print "bool " name[k] " = false"
        print "num l = 0"
        for (k = 9; k < count; k++) printf "preset %s(%s,%s)%s", short(k), name[k % 7 + 1], name[k % 7 + 2], k % 10 ? "" : "\n"
    }'
}

# An instruction with inputs of so many variables. It has a fault: its format has no inputs (FormatMismatch); the last variable stands at
# one input more, so that none controls (NoControl); or there are too many, and the first controls (TooManyOperands).
inputs_of() {
    awk -v count="$2" -v fault="$1" "$names"'BEGIN {
        for (k = 0; k < count; k++) print "type " short(k) ":ints all"
        many = count + (fault == "NoControl")
        printf "format W:%s", fault == "FormatMismatch" ? "none" : "value"
        if (fault != "FormatMismatch") for (k = 1; k < many; k++) printf ",value"
        printf "\ninst i:W("
        for (k = 0; k < many; k++) printf "%sx:%s", k ? "," : "", short(k < count ? k : count - 1)
        print ")"
    }'
}

# The processor seconds of a run that ends with this status, over the file, the least of three.
seconds() {
    for _ in 1 2 3; do
        used=$("$program" -d "$2" tables < /dev/null > /dev/null 2>&1; [ $? -eq "$1" ] && times) || return 1
        printf '%s\n' "$used" | awk 'NR == 2 { for (i = 1; i <= 2; i++) { split($i, t, /[ms]/); s += 60 * t[1] + t[2] } printf "%.3f\n", s }'
    done | sort -n | awk 'NR == 1 { best = $1 } END { if (NR != 3) exit 1; print best }'
}

# What the tables of a file cost, in runs that end with the status, after a name. It leaves the instructions in `all`.
measured() {
    taken=$(seconds "$1" "$folder/file") || return 1
    all=$(counted /dev/null "$program" -d "$folder/file" tables) || return 1
    # A refused file shows the fault that its name says.
    [ "$1" -eq 0 ] || "$program" -d "$folder/file" tables 2>&1 < /dev/null | grep -q ": ${2%% *} " || return 1
    printf '%s: %d bytes, %.3f s, %.0f instructions' "$2" "$(wc -c < "$folder/file")" "$taken" "$all"
    if [ "$1" -eq 0 ]; then
        checked=$(counted /dev/null "$program" -d "$folder/file" types) || return 1
        made=$(counted /dev/null "$program" -d "$folder/file" query) || return 1
        printf ': %.0f to read, declare and check, %.0f the tables, %.0f their text' "$checked" "$((made - checked))" "$((all - made))"
    fi
    printf '\n'
}

# Measures files of two sizes, which the words make with a size after them, in runs that end with the status.
compare() {
    status=$1 what=$2 few=$3 many=$4
    shift 4
    "$@" "$few" > "$folder/file"
    measured "$status" "$what $few" || return 1
    less=$all
    "$@" "$many" > "$folder/file"
    measured "$status" "$what $many" || return 1
    awk -v what="$what" -v few="$few" -v many="$many" -v less="$less" -v all="$all" \
        'BEGIN { printf "%s: %.2f times the size, %.2f times the instructions\n", what, many / few, all / less }'
}

processor
compare 0 instructions 2047 4095 instructions_of || exit 1
compare 0 settings 32767 65535 settings_of || exit 1
for fault in FormatMismatch NoControl TooManyOperands; do
    compare 1 $fault 15000 30000 inputs_of $fault || exit 1
done
