#!/bin/sh
# Holds what ./run answers without a program against the program's own answers: help, the version, and words that are no command.
#   bench/words.sh PROGRAM
# PROGRAM is a finished ciderlater. `./test` runs this. The status is 1 where an answer differs, which is named.
top=$(cd "$(dirname "$0")/.." && pwd) || exit 1
program=${1:?usage: bench/words.sh PROGRAM}
room=$(mktemp -d) || exit 1
trap 'rm -rf "$room"' EXIT
mkdir "$room/bin" "$room/none"
# Without the toolchain ./run can build nothing, so that each answer is its own.
for tool in cat dirname env grep paste printf pwd sed sh uniq; do
    path=$(command -v "$tool") || exit 1
    case $path in
    /*) ln -s "$path" "$room/bin/$tool" ;;
    esac
done
count=0
while read -r words; do
    # The words of a line are words of the program.
    # shellcheck disable=SC2086
    "$program" $words > "$room/program" 2>&1 < /dev/null
    echo "status $?" >> "$room/program"
    # shellcheck disable=SC2086
    PATH=$room/bin CIDERLATER_OUT=$room/none "$top/run" $words > "$room/run" 2>&1 < /dev/null
    echo "status $?" >> "$room/run"
    if ! cmp -s "$room/program" "$room/run"; then
        printf 'words.sh: ./run %s answers otherwise than the program:\n' "$words" >&2
        diff "$room/program" "$room/run" >&2
        exit 1
    fi
    count=$((count + 1))
done << 'WORDS'

--help
help
-h tables
--version
-V
qurey
tables.txt
asm-short short
-d
--declarations
-d machine.isa
-d machine.isa qurey
-d=machine.isa
-d=machine.isa qurey
--declarations= qurey
-- tables
WORDS
echo "$count answers of ./run without a program are the program's"
