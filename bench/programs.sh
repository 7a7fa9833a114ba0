# What the scripts of this folder share. A script reads it in first:
#   . "$(dirname "$0")/programs.sh"
# PROGRAMS may name a folder of programs that are built already, each under the name of its crate. Where it names none, a program is
# proved and built first where that is still to be done.

top=$(cd "$(dirname "$0")/.." && pwd) || exit 125

# Sets `program` to the program of a crate, which runs with the words after it. Where it can't be built, the script ends with 125.
built() {
    crate=$1
    shift
    if [ -n "${PROGRAMS:-}" ]; then
        program=$PROGRAMS/$crate
        if [ ! -x "$program" ]; then
            printf '%s: no such program\n' "$program" >&2
            exit 125
        fi
        return
    fi
    program=$top/crates/$crate/out/$crate
    if ! log=$(cd "$top/crates/$crate" && rt run -- "$@" 2>&1 < /dev/null); then
        printf '%s\n' "$log" >&2
        exit 125
    fi
}

# The instructions of the processor in a run over the input, the first word, of the program and its words, which are the others.
counted() {
    input=$1
    shift
    valgrind --tool=callgrind --callgrind-out-file=/dev/null "$@" < "$input" 2>&1 > /dev/null |
        awk '/Collected/ { print $NF; found = 1 } END { exit !found }'
}

# The processor seconds of a run over the input of the program and its words, the least of three.
least() {
    input=$1
    shift
    for _ in 1 2 3; do
        used=$("$@" < "$input" > /dev/null && times) || return 1
        printf '%s\n' "$used" | awk 'NR == 2 { for (i = 1; i <= 2; i++) { split($i, t, /[ms]/); s += 60 * t[1] + t[2] } printf "%.2f\n", s }'
    done | sort -n | awk 'NR == 1 { best = $1 } END { if (NR != 3) exit 1; print best }'
}

# A file of declarations of so many instructions, each of seven inputs and one output, all of one variable.
instructions_of() {
    awk -v count="$1" 'BEGIN {
        print "type I: ints all\nformat S: value, value, value, value, value, value, value"
        for (k = 0; k < count; k++) print "inst i" k ": S(a: I, b: I, c: I, d: I, e: I, f: I, g: I) -> h: I"
    }'
}

# The processor that all was measured on.
processor() {
    lscpu | sed -n 's/^Model name: *//p'
}
