#!/bin/sh
# Times the program over an input of almost 1 MiB of queries, and counts the instructions of the processor at two sizes:
#   bench/query.sh
# The queries are those of bench/queries.txt, again and again: one that is accepted for each of the 163 instructions, one for each
# of the 27 settings, and 21 that aren't answered so, of which a third each is refused, unknown and bad. The program
# `ciderlater` is proved and built first where that is still to be done. A time is the processor time of a run, the least of
# five. Instructions are counted by `valgrind --tool=callgrind`, and left out where there is no valgrind. The status is 1 where a run
# fails, and 125 where the program couldn't be built.
set -u

. "$(dirname "$0")/programs.sh"

queries=$top/bench/queries.txt
built ciderlater --version
folder=$(mktemp -d) || exit 1
trap 'rm -rf "$folder"' EXIT

# The queries so many times.
repeated() {
    awk -v times="$1" '{ line[NR] = $0 } END { for (t = 0; t < times; t++) for (k = 1; k <= NR; k++) print line[k] }' "$queries"
}

# The seconds of processor time that a run over an input takes, of 50 runs: the shell counts in hundredths.
seconds() {
    used=$(for _ in $(seq 50); do "$program" query < "$1" > /dev/null || exit 1; done && times) || return 1
    printf '%s\n' "$used" | awk 'NR == 2 { for (i = 1; i <= 2; i++) { split($i, t, /[ms]/); s += 60 * t[1] + t[2] } printf "%.5f\n", s / 50 }'
}

# The least of five.
least() {
    for _ in 1 2 3 4 5; do
        seconds "$1" || return 1
    done | sort -n | awk 'NR == 1 { best = $1 } END { if (NR != 5) exit 1; print best }'
}

# 1 MiB is the longest input: as often as it takes all lines.
bytes=$(wc -c < "$queries")
most=$((1048576 / bytes))
: > "$folder/none"
repeated $((most / 2)) > "$folder/half"
repeated "$most" > "$folder/whole"
half=$(wc -l < "$folder/half")
whole=$(wc -l < "$folder/whole")

start=$(least "$folder/none") || exit 1
half_time=$(least "$folder/half") || exit 1
whole_time=$(least "$folder/whole") || exit 1
awk -v start="$start" -v half="$half" -v whole="$whole" -v a="$half_time" -v b="$whole_time" 'BEGIN {
    printf "no line: %.1f ms\n", 1000 * start
    printf "%d lines: %.1f ms\n", half, 1000 * a
    printf "%d lines: %.1f ms\n", whole, 1000 * b
    if (b > start) printf "%.0f queries a second, without the start\n", whole / (b - start)
}'

command -v valgrind > /dev/null || exit 0
start=$(counted "$folder/none" "$program" query) || exit 1
half_count=$(counted "$folder/half" "$program" query) || exit 1
whole_count=$(counted "$folder/whole" "$program" query) || exit 1
awk -v start="$start" -v half="$half" -v whole="$whole" -v a="$half_count" -v b="$whole_count" 'BEGIN {
    printf "no line: %.0f instructions\n", start
    printf "%d lines: %.0f instructions, %.0f a line\n", half, a - start, (a - start) / half
    printf "%d lines: %.0f instructions, %.0f a line\n", whole, b - start, (b - start) / whole
    printf "%.3f times the lines, %.3f times the instructions\n", whole / half, (b - start) / (a - start)
}'
