#!/bin/sh
# Counts the instructions of the processor that the checker of lists takes for a line, at three sizes, beside those that as many
# queries take:
#   bench/verify.sh
# The lines are the queries of bench/queries.txt that are accepted, one for each of the 163 instructions, again and again: `accept`
# asks by types, and `line` names values, which are parameters of these types, and defines new ones. The third size is the longest
# list that an input has room for. The last part has 50,000 parameters whose numbers are 1 apart, which stand in a list, and as many
# whose numbers are 32 apart, which stand in an ordered map. The program `ciderlater` is proved and built first where that is
# still to be done.
# Instructions are counted by `valgrind --tool=callgrind`. The status is 1 where a run fails, or where a line of the longest list takes
# twice the instructions of a query or more, and 125 where the program couldn't be built or there is no valgrind.
set -u

. "$(dirname "$0")/programs.sh"

built ciderlater --version
if ! command -v valgrind > /dev/null; then
    printf 'no valgrind\n' >&2
    exit 125
fi
folder=$(mktemp -d) || exit 1
trap 'rm -rf "$folder"' EXIT

# The queries that are accepted.
"$program" query < "$top/bench/queries.txt" > "$folder/answers" || exit 1
paste -d' ' "$folder/answers" "$top/bench/queries.txt" | sed -n 's/^accept accept /accept /p' > "$folder/accepted"

# So many queries, or as many lines as there are.
queries() {
    awk -v times="$1" '{ line[NR - 1] = $0 } END { for (k = 0; k < times; k++) print line[k % NR] }' "$folder/accepted"
}

# A parameter for each type of a value, and so many lines after them, or as many as the input has room for.
list() {
    awk -v times="$1" '
        { name[NR - 1] = $2; control[NR - 1] = $3; results[NR - 1] = $4; values[NR - 1] = $5 }
        $5 != "-" { n = split($5, t, ","); for (i = 1; i <= n; i++) if (!(t[i] in value)) { value[t[i]] = next_value++; type[value[t[i]]] = t[i] } }
        END {
            for (v = 0; v < next_value; v++) { param = "param v" v " " type[v]; bytes += length(param) + 1; print param }
            for (k = 0; k < times; k++) {
                r = "-"; v = "-"; q = k % NR; number = next_value
                if (results[q] != "-") { r = ""; n = split(results[q], t, ","); for (i = 1; i <= n; i++) r = r (i > 1 ? "," : "") "v" next_value++ ":" t[i] }
                if (values[q] != "-") { v = ""; n = split(values[q], t, ","); for (i = 1; i <= n; i++) v = v (i > 1 ? "," : "") "v" value[t[i]] }
                line = "line " name[q] " " control[q] " " r " " v
                bytes += length(line) + 1
                if (bytes > 1048576) break
                print line
            }
        }' "$folder/accepted"
}

# So many parameters, whose numbers are so far apart.
parameters() {
    awk -v times="$1" -v step="$2" 'BEGIN { for (k = 0; k < times; k++) printf "param v%d i8\n", k * step }'
}

: > "$folder/none"
list 0 > "$folder/parameters"
query_start=$(counted "$folder/none" "$program" query) || exit 1
verify_start=$(counted "$folder/parameters" "$program" verify) || exit 1

# The instructions of a line at a size, and of a query.
compared() {
    list "$1" > "$folder/list"
    [ "$("$program" verify < "$folder/list")" = ok ] || return 1
    lines=$(($(wc -l < "$folder/list") - $(wc -l < "$folder/parameters")))
    queries "$lines" > "$folder/queries"
    line_count=$(counted "$folder/list" "$program" verify) || return 1
    query_count=$(counted "$folder/queries" "$program" query) || return 1
    awk -v lines="$lines" -v a="$((line_count - verify_start))" -v b="$((query_count - query_start))" 'BEGIN {
        printf "%d lines: %.0f instructions a line, %.0f a query, %.2f times as many\n", lines, a / lines, b / lines, a / b
        exit !(a < 2 * b)
    }'
}

compared 1000
compared 10000
compared 1000000
status=$?

empty=$(counted "$folder/none" "$program" verify) || exit 1
for step in 1 32; do
    parameters 50000 "$step" > "$folder/list"
    count=$(counted "$folder/list" "$program" verify) || exit 1
    awk -v step="$step" -v a="$((count - empty))" 'BEGIN { printf "50000 parameters, %d apart: %.0f instructions a line\n", step, a / 50000 }'
done
exit "$status"
