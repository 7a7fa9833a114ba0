#!/bin/sh
# Counts the instructions of the processor that the writer of lists takes for a line, in both directions, at two sizes:
#   bench/asm.sh
# The lines are those of bench/verify.sh: the queries of bench/queries.txt that are accepted, one for each of the 163 instructions,
# again and again, after parameters of all types that they use. `short` leaves their types out, and `explicit` writes what came of
# it back. The program `ciderlater` is proved and built first where that is still to be done. Instructions
# are counted by `valgrind --tool=callgrind`. The status is 1 where a run fails or doesn't give the list back, or where a line of the
# greater list takes a quarter more instructions than one of the smaller, and 125 where the program couldn't be built or there is no
# valgrind.
set -u

. "$(dirname "$0")/programs.sh"

built ciderlater --version
if ! command -v valgrind > /dev/null; then
    printf 'no valgrind\n' >&2
    exit 125
fi
folder=$(mktemp -d) || exit 1
trap 'rm -rf "$folder"' EXIT

# The queries that are accepted.
"$program" query < "$top/bench/queries.txt" > "$folder/answers" || exit 1
paste -d' ' "$folder/answers" "$top/bench/queries.txt" | sed -n 's/^accept accept /accept /p' > "$folder/accepted"

# A parameter for each type of a value, and so many lines after them.
list() {
    awk -v times="$1" '
        { name[NR - 1] = $2; control[NR - 1] = $3; results[NR - 1] = $4; values[NR - 1] = $5 }
        $5 != "-" { n = split($5, t, ","); for (i = 1; i <= n; i++) if (!(t[i] in value)) { value[t[i]] = next_value++; type[value[t[i]]] = t[i] } }
        END {
            for (v = 0; v < next_value; v++) print "param v" v " " type[v]
            for (k = 0; k < times; k++) {
                r = "-"; v = "-"; q = k % NR
                if (results[q] != "-") { r = ""; n = split(results[q], t, ","); for (i = 1; i <= n; i++) r = r (i > 1 ? "," : "") "v" next_value++ ":" t[i] }
                if (values[q] != "-") { v = ""; n = split(values[q], t, ","); for (i = 1; i <= n; i++) v = v (i > 1 ? "," : "") "v" value[t[i]] }
                print "line " name[q] " " control[q] " " r " " v
            }
        }' "$folder/accepted"
}

list 0 > "$folder/parameters"
"$program" asm short < "$folder/parameters" > "$folder/short" || exit 1
short_start=$(counted "$folder/parameters" "$program" asm short) || exit 1
explicit_start=$(counted "$folder/short" "$program" asm explicit) || exit 1

# The instructions of a line at a size, both ways.
measured() {
    list "$1" > "$folder/list"
    "$program" asm short < "$folder/list" > "$folder/short" || return 1
    "$program" asm explicit < "$folder/short" | cmp -s - "$folder/list" || return 1
    short=$((($(counted "$folder/list" "$program" asm short) - short_start) / $1))
    explicit=$((($(counted "$folder/short" "$program" asm explicit) - explicit_start) / $1))
    printf '%d lines: %d instructions a line by short, %d by explicit\n' "$1" "$short" "$explicit"
}

measured 1000 || exit 1
few_short=$short
few_explicit=$explicit
measured 10000 || exit 1
[ $((short * 4)) -lt $((few_short * 5)) ] && [ $((explicit * 4)) -lt $((few_explicit * 5)) ]
