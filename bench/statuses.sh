#!/bin/sh
# Holds the statuses of ciderlater and of the programs of the top calls against what docs/COMMANDS.md says of them, and what a program of
# a top call writes against what ciderlater writes:
#   bench/statuses.sh FOLDER
# FOLDER has the programs by their names: `./test` runs this over out/. The status is 1 where one differs, which is named.
top=$(cd "$(dirname "$0")/.." && pwd) || exit 1
folder=$(cd "${1:?usage: bench/statuses.sh FOLDER}" && pwd) || exit 1
room=$(mktemp -d) || exit 1
trap 'rm -rf "$room"' EXIT
cd "$room" || exit 1
cp "$top/examples/first.txt" "$top/examples/list.txt" "$top/examples/twelve.isa" . || exit 1
: > empty
mkdir folder.isa || exit 1
cp twelve.isa ./-d && cp twelve.isa ./--rust || exit 1
printf 'type Int: ints 8..64\n/' > wrong.isa
sed 's/v4:i64/v4:i32/' list.txt > wrong.txt
head -c 1048577 /dev/zero | tr '\0' '\n' > long.txt
printf 'set opt_level speed\nget opt_level\n' > flags.txt
count=0

differs() {
    printf 'statuses.sh: %s\n' "$1" >&2
    exit 1
}

# Runs a program with its words, over an input and to an output, which are the first two words, and leaves its status.
ran() {
    input=$1
    output=$2
    shift 2
    "$@" < "$input" > "$output" 2> said
    status=$?
    count=$((count + 1))
}

# Each line is STATUS INPUT OUTPUT PROGRAM WORDS. The input `.`, a folder, can't be read. What a program of a top call answers, ciderlater
# has to answer to the same words after that name.
while read -r wanted from to name words; do
    case $to in
    /*) [ -c "$to" ] || continue ;;
    esac
    # The words of a line are words of the program.
    # shellcheck disable=SC2086
    ran "$from" "$to" "$folder/$name" $words
    [ "$status" = "$wanted" ] || differs "$name $words < $from > $to ended with $status, and not with $wanted"
    [ "$status" = 0 ] || [ -s said ] || differs "$name $words < $from > $to ended with $status, and said nothing on standard error"
    [ "$status" != 0 ] || [ ! -s said ] || differs "$name $words < $from > $to said on standard error: $(cat said)"
    case $name:$to in
    ciderlater:* | *:/*) continue ;;
    query:*) ;;
    *) words="$name $words" ;;
    esac
    # shellcheck disable=SC2086
    ran "$from" its "$folder/ciderlater" $words
    [ "$status" = "$wanted" ] || differs "ciderlater $words < $from ended with $status, and not with $wanted, as $name did"
    cmp -s "$to" its || differs "ciderlater $words < $from writes otherwise than $name"
done << 'RUNS'
0 first.txt out query query
0 empty out query tables
2 empty out query
2 empty out query qurey
2 empty out query synth 01
3 . out query query
4 first.txt /dev/full query query
6 long.txt out query query
0 list.txt out verify
7 wrong.txt out verify
2 list.txt out verify list.txt
3 . out verify
4 list.txt /dev/full verify
6 long.txt out verify
0 list.txt out asm short
7 wrong.txt out asm short
7 list.txt out asm explicit
2 list.txt out asm
3 . out asm short
4 list.txt /dev/full asm short
6 long.txt out asm explicit
0 flags.txt out flags
2 flags.txt out flags toml
3 . out flags
4 flags.txt /dev/full flags
6 long.txt out flags
0 empty out audit
0 list.txt out audit
2 empty out audit tables
3 . out audit
4 empty /dev/full audit
6 long.txt out audit
1 empty out ciderlater check wrong.isa
1 empty out ciderlater -d wrong.isa tables
6 empty out ciderlater check long.txt
7 empty out ciderlater -d twelve.isa tables --version 1
0 first.txt out ciderlater explain
0 first.txt out ciderlater -d twelve.isa explain
2 first.txt out ciderlater explain --why
3 . out ciderlater explain
4 first.txt /dev/full ciderlater explain
6 long.txt out ciderlater explain
0 list.txt out ciderlater verify --why
7 wrong.txt out ciderlater verify --why
2 list.txt out ciderlater verify --why list.txt
0 list.txt out ciderlater asm short --why
7 wrong.txt out ciderlater asm short --why
7 list.txt out ciderlater asm explicit --why
2 list.txt out ciderlater asm --why
8 empty out ciderlater check none.isa
8 empty out ciderlater -d none.isa tables
8 empty out ciderlater -d folder.isa tables
0 empty out ciderlater -d=twelve.isa tables
0 empty out ciderlater --declarations=twelve.isa check
8 empty out ciderlater -d=none.isa tables
0 twelve.isa out ciderlater check -
0 twelve.isa out ciderlater check --rust -
0 twelve.isa out ciderlater -d - check
1 wrong.isa out ciderlater check -- -
6 long.txt out ciderlater check -
8 . out ciderlater check -
0 empty out ciderlater check -- -d
0 empty out ciderlater check --rust -- --rust
2 empty out ciderlater check --
2 empty out ciderlater check -- -d twelve.isa
RUNS
# Runs a program with its words where standard input is closed, and holds its status against the first word.
closed() {
    wanted=$1
    shift
    "$folder/ciderlater" "$@" <&- > out 2> said
    status=$?
    count=$((count + 1))
    [ "$status" = "$wanted" ] || differs "ciderlater $* with standard input closed ended with $status, and not with $wanted"
}

# The file of declarations doesn't stand in for standard input.
closed 3 verify
closed 3 -d twelve.isa verify
closed 3 -d twelve.isa query
closed 1 -d wrong.isa verify
closed 8 -d none.isa verify
closed 0 -d twelve.isa tables
closed 0 check twelve.isa
closed 8 check -
# Each line is FILE and what standard error says of it.
while read -r file why; do
    ran empty out "$folder/ciderlater" check "$file"
    [ "$(cat said)" = "ciderlater: $file $why" ] || differs "ciderlater check $file said on standard error: $(cat said)"
done << 'FILES'
none.isa is missing
folder.isa is a folder
long.txt is longer than 1048576 bytes
FILES
# A path with a control character is shown with escapes.
name=$(printf 'line\033[1m\nfeed.isa')
ran empty out "$folder/ciderlater" check "$name"
[ "$(cat said)" = 'ciderlater: "line\x1b[1m\nfeed.isa" is missing' ] || differs "a path that is missing is told as $(cat said)"
cp wrong.isa "$name" || exit 1
ran empty out "$folder/ciderlater" check "$name"
case $(cat said) in
'"line\x1b[1m\nfeed.isa":2: '*) ;;
*) differs "a path that is refused is told as $(cat said)" ;;
esac
ran wrong.isa out "$folder/ciderlater" check -
case $(cat said) in
'<stdin>:2: '*) ;;
*) differs "what is wrong with standard input is told as $(cat said)" ;;
esac
echo "$count runs of ciderlater and of the programs of top calls ended with the statuses that docs/COMMANDS.md has"
