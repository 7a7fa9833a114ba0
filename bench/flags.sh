#!/bin/sh
# Counts the instructions of the processor that the service of settings takes for a line, at two sizes, for each kind of line:
#   bench/flags.sh
# The lines of a kind are those below, again and again, and the last kind is all of them in turn. The second size has ten times the
# lines of the first. The program `ciderlater` is proved and built first where that is still to be done. Instructions are counted by
# `valgrind --tool=callgrind`. The status is 1 where a run fails, or where a line of the second size takes a tenth more instructions
# than one of the first, and 125 where the program couldn't be built or there is no valgrind.
set -u

. "$(dirname "$0")/programs.sh"

built ciderlater --version
if ! command -v valgrind > /dev/null; then
    printf 'no valgrind\n' >&2
    exit 125
fi
folder=$(mktemp -d) || exit 1
trap 'rm -rf "$folder"' EXIT

# The lines, by their kind.
kinds() {
    printf '%s\n' \
        'get: get opt_level' \
        'get: get is_pic' \
        'get: get probestack_size_log2' \
        'set: set opt_level speed' \
        'set: set is_pic true' \
        'set: set probestack_size_log2 14' \
        'enable: enable is_pic' \
        'unknown: get nope' \
        'bad: set opt_level' \
        'toml: toml'
}

# So many lines of a kind, or of all kinds.
lines() {
    kinds | awk -v kind="$1" -v times="$2" '
        { name = $1; sub(/:$/, "", name) }
        kind == "all" || name == kind { sub(/^[a-z]*: /, ""); line[n++] = $0 }
        END { for (k = 0; k < times; k++) print line[k % n] }'
}

: > "$folder/none"
start=$(counted "$folder/none" "$program" flags) || exit 1

# The instructions of a line of a kind at a size.
of_a_line() {
    lines "$1" "$2" > "$folder/lines"
    count=$(counted "$folder/lines" "$program" flags) || return 1
    awk -v lines="$2" -v count="$((count - start))" 'BEGIN { printf "%.0f\n", count / lines }'
}

status=0
for kind in get set enable unknown bad toml all; do
    few=$(of_a_line "$kind" 1000) || exit 1
    many=$(of_a_line "$kind" 10000) || exit 1
    printf '%s: %d instructions a line of 1000, %d a line of 10000\n' "$kind" "$few" "$many"
    [ $((many * 10)) -le $((few * 11)) ] || status=1
done
exit "$status"
