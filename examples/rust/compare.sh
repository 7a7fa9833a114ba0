#!/bin/sh
# Tests the crates of rust/ and examples/machine, compiles the texts that the program writes, and holds the answers of the compiled
# tables against the program's, line by line:
#   examples/rust/compare.sh                  the finished program, as `./run` leaves it
#   examples/rust/compare.sh PROGRAM          another one
#   TEXTS=FOLDER examples/rust/compare.sh     compiles the texts of a folder, one file a text, and asks the finished program
# Its last line says how many lines were compared. The status is 0 where all are answered alike; 1 where something doesn't compile
# or shows a warning, a test fails or a line differs; 2 where there is no program or no cargo.
set -eu
LC_ALL=C
export LC_ALL

# As many lines at least are compared, and at most so many are asked at once: an input has at most 1,048,576 bytes.
least=10000
at_once=10000

fail() {
    printf 'compare.sh: %s\n' "$2" >&2
    exit "$1"
}

# The lines of stored runs and of the examples that ask something, whatever they are answered with there.
stored_lines() {
    cat "$top"/crates/rows/data/toy.in "$top"/examples/*.txt
    {
        sed -n 's/^> //p' "$top"/crates/rows/stdin
        awk '{ gsub(/\\r|\\n/, "\n"); print }' "$top"/crates/rows/stdin
    } | grep -E '^(accept|infer|setting) '
}

# Lines about each opcode and each setting of the text of tables: every opcode under each type as its control and under none, with
# operands of that type and of types that are near it, and then with results of one of some types and values of another.
made_lines() {
    awk '
    function name(l, n, dynamic) {
        return lane[l] (n ? "x" 2 ^ n : "") (dynamic ? "xN" : "")
    }
    function list(type, count, last,    i, text) {
        for (i = 1; i <= count; i++) text = text (i > 1 ? "," : "") (i == count ? last : type)
        return count ? text : "-"
    }
    # Lines of opcode o under control t, where one operand or several are of type u.
    function near(o, t, u) {
        print "accept", opcode[o], t, list(u, results[o], u), list(t, values[o], t)
        print "accept", opcode[o], t, list(t, results[o], t), list(u, values[o], u)
        print "accept", opcode[o], t, list(t, results[o], t), list(t, values[o], u)
    }
    function ask(o, l, n, dynamic,    t) {
        t = name(l, n, dynamic)
        print "infer", opcode[o], t
        print "accept", opcode[o], "-", list(t, results[o], t), list(t, values[o], t)
        print "accept", opcode[o], t, list(t, results[o], t), list(t, values[o], t)
        if (n != 0 && n != 2 && n != 8) return
        near(o, t, "i8")
        near(o, t, lane[l])
        if (l > 5) near(o, t, name(l - 4, n, dynamic))
        if (l != 1 && l != 6) near(o, t, name(l - 1, n, dynamic))
        if (l != 5 && l != 9) near(o, t, name(l + 1, n, dynamic))
        if (l != 1 && l != 6 && n < 8) near(o, t, name(l - 1, n + 1, dynamic))
        if (l != 5 && l != 9 && n > dynamic) near(o, t, name(l + 1, n - 1, dynamic))
        if (n > 0) near(o, t, name(l, n, !dynamic))
    }
    /^    InstructionFormat::/ { opcode[++opcodes] = $NF }
    / fixed_results=/ {
        o++
        split($0, part, "fixed_results="); results[o] = part[2] + 0
        split($0, part, "fixed_values="); values[o] = part[2] + 0
    }
    /^        name: "/ { split($0, part, "\""); print "setting", part[2]; print "setting", part[2] "s" }
    END {
        split("i8 i16 i32 i64 i128 f16 f32 f64 f128", lane, " ")
        types = split("i32 i64 f32 f64 i8x16 i16x8 i32x4 i64x2 f32x4 f64x2", some, " ")
        for (o = 1; o <= opcodes; o++) {
            print "infer", opcode[o], "-"
            print "infer", opcode[o], "i32/i32"
            print "infer", opcode[o] "_", "i32"
            for (r = 1; r <= types; r++)
                for (v = 1; v <= types; v++) {
                    operands = list(some[r], results[o], some[r]) " " list(some[v], values[o], some[v])
                    print "accept", opcode[o], "-", operands
                    print "accept", opcode[o], some[r], operands
                    print "accept", opcode[o], some[v], operands
                }
            for (l = 1; l <= 9; l++)
                for (n = 0; n <= 8; n++) {
                    ask(o, l, n, 0)
                    if (n > 0) ask(o, l, n, 1)
                }
        }
    }'
}

# Lines for `flags` about each setting of the text of tables: it gets each value of an enum, numbers and words, and is enabled.
made_flag_lines() {
    awk '
    /^static ENUMERATORS/ { inside = 1; next }
    /^\];/ { inside = 0 }
    inside { gsub(/[ ",]/, ""); value[++values] = $0 }
    /^        name: "/ { split($0, part, "\""); name[++names] = part[2] }
    END {
        others = split("true false 0 1 12 255 256 01 +1 -1 1.0 True on none_such", other, " ")
        name[++names] = "none_such"
        print "toml"
        for (n = 1; n <= names; n++) {
            print "get", name[n]
            for (v = 1; v <= values; v++) { print "set", name[n], value[v]; print "get", name[n] }
            for (v = 1; v <= others; v++) { print "set", name[n], other[v]; print "get", name[n] }
            print "toml"
            print "enable", name[n]
            print "toml"
            print "set", name[n], "false"
        }
    }'
}

# The first block of Rust of a document that has this line, as it is printed.
printed() {
    awk -v line="$2" '
    /^```/ { if (open && found) exit; open = !open; text = ""; found = 0; next }
    open { text = text $0 "\n"; if ($0 == line) found = 1 }
    END { printf "%s", text }' "$1"
}

# Runs the tests of the crate in this folder, with warnings denied: FOLDER WORDS.
tests() {
    folder=$1
    shift
    (cd "$top/$folder" && cargo test --quiet --offline --locked "$@") >"$work/tests" 2>&1 || {
        cat "$work/tests" >&2
        fail 1 "a test of $folder fails"
    }
}

# Each line that the two answer differently, with both answers.
differences() {
    awk -v program="$work/program" -v tables="$work/tables" '{
        getline told < program
        getline found < tables
        if (told != found) printf "%s\n    the program: %s\n    the tables:  %s\n", $0, told, found
    }' "$work/lines"
}

[ $# -le 1 ] || fail 2 "one word at most, the path of the program"
top=$(cd "$(dirname "$0")/../.." && pwd)
program=${1:-$top/out/ciderlater}
if ! [ -f "$program" ] || ! [ -x "$program" ]; then
    fail 2 "there is no program $program: ./run makes the one of this repository, or name another"
fi
program=$(cd "$(dirname "$program")" && pwd)/$(basename "$program")
command -v cargo >/dev/null || fail 2 "there is no cargo on the path"
work=$(mktemp -d)
trap 'rm -rf "$work"' EXIT
trap 'exit 1' HUP INT TERM

# A folder that is new each time holds no text of another program.
CARGO_TARGET_DIR=$work/target
CIDERLATER_PROGRAM=$program
RUSTFLAGS=-Dwarnings
export CARGO_TARGET_DIR CIDERLATER_PROGRAM RUSTFLAGS
unset CIDERLATER_TEXTS
tests rust/runtime
tests rust/runtime --no-default-features
tests rust/build

# The package that DECLARING prints is examples/machine, but for the path of the file, and shows what is printed there.
(cd "$top/examples/machine" && cargo run --quiet --offline --locked) >"$work/machine" || fail 1 "examples/machine doesn't run"
printed "$top/docs/DECLARING.md" 'use ir::{Opcode, Type, types};' | cmp -s - "$top/examples/machine/src/main.rs" ||
    fail 1 "DECLARING prints another main.rs than that of examples/machine"
printed "$top/docs/DECLARING.md" '$ cargo run --quiet' | sed 1d | cmp -s - "$work/machine" ||
    fail 1 "examples/machine doesn't show what DECLARING prints"

# The texts come from the program, which build.rs calls, or from the folder.
if [ -n "${TEXTS:-}" ]; then
    CIDERLATER_TEXTS=$(cd "$TEXTS" && pwd) || fail 2 "there is no folder $TEXTS"
    export CIDERLATER_TEXTS
    cp "$CIDERLATER_TEXTS/tables" "$work/text" || fail 2 "there is no text of tables in $TEXTS"
else
    "$program" tables >"$work/text" || fail 1 "the program doesn't write the tables"
fi
(cd "$top/examples/rust" && cargo build --quiet --offline --locked) || fail 1 "the texts don't compile"
tests examples/rust

# The settings are set and told as the program does.
made_flag_lines <"$work/text" >"$work/flag_lines"
"$program" flags <"$work/flag_lines" >"$work/flags" || fail 1 "the program doesn't answer"
"$CARGO_TARGET_DIR"/debug/compiled_texts flags <"$work/flag_lines" | cmp -s - "$work/flags" || fail 1 "settings are answered otherwise"

# Each line once, and none that is empty.
{ stored_lines && made_lines <"$work/text"; } | tr -d '\r' | awk '$0 != "" && !seen[$0]++' >"$work/lines"
split -a 4 -l "$at_once" "$work/lines" "$work/part."
for part in "$work"/part.*; do
    "$program" query <"$part" >>"$work/program" || fail 1 "the program doesn't answer"
    "$CARGO_TARGET_DIR"/debug/compiled_texts <"$part" >>"$work/tables" || fail 1 "the compiled tables don't answer"
done

lines=$(($(wc -l <"$work/lines")))
if ! cmp -s "$work/program" "$work/tables"; then
    differences >"$work/differences"
    head -n 30 "$work/differences" >&2
    fail 1 "$(($(wc -l <"$work/differences") / 3)) of $lines lines differ"
fi
[ "$lines" -eq "$(wc -l <"$work/program")" ] || fail 1 "there isn't one answer to each line"
[ "$lines" -ge "$least" ] || fail 1 "there are only $lines lines"
settings=$(($(wc -l <"$work/flag_lines")))
accepted=$(grep -c '^accept$' "$work/program")
echo "$lines lines compared, and $settings on settings: the compiled tables answer each as the program does ($accepted accepted)"
