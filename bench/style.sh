#!/bin/sh
# Lists lines with words that make a reader stop, as FILE:LINE: TEXT:
#   bench/style.sh               in the documents, but for what stands there as code
#   bench/style.sh --comments    in the comments of crates/
# CONTRIBUTING.md has the words, with what to write. The status is 1 if there is such a line, and 2 if there is another word.
set -u

cd "$(dirname "$0")/.." || exit 2

# Extended regular expressions, in small letters. No letter stands on either side.
words='behind|want of|(is|are|was|were) none|(isn.t|aren.t) there|shows? (a|no|any|its|the|this|such a|the first) faults?'
words="$words|(this )?project.s own|so (many|much)|(one|once|two|[0-9]+) at most|at most[.;:)]|tells? (its|their|no) bytes|held against|none has it"

# The lines of documents without their code: fences, lines that begin with four blanks outside of a list, what stands in backticks.
documents() {
    awk '
        FNR == 1 { fence = list = 0 }
        /^```/ { fence = !fence; next }
        fence { next }
        /^[-*0-9]/ { list = 1 }
        /^$/ { list = 0 }
        /^    / && !list { next }
        { text = $0; gsub(/``[^`]*`[^`]*`[^`]*``/, "", text); gsub(/`[^`]*`/, "", text); print FILENAME ":" FNR ": " text "\t" $0 }
    ' README.md CONTRIBUTING.md docs/*.md examples/README.md editors/README.md
}

# The comments of code, from two slashes on, and of definitions and proofs, from two hyphens on, in lines that have such words.
comments() {
    find crates -name out -prune -o \( -name '*.rt' -o -name '*.antt' \) -type f -exec grep -niE "$words" /dev/null {} + | awk '
        {
            file = $0; sub(/:.*/, "", file)
            place = $0; sub(/^[^:]*:/, "", place); sub(/:.*/, "", place)
            text = substr($0, length(file) + length(place) + 3)
            if (match(text, file ~ /\.rt$/ ? "(^| )//" : "(^| )--")) print file ":" place ": " substr(text, RSTART) "\t" text
        }
    '
}

case ${1-} in
'') lines=documents ;;
--comments) lines=comments ;;
*)
    printf 'style: the only word is --comments\n' >&2
    exit 2
    ;;
esac
# A line is FILE:LINE: what is looked at, a tab, and the whole line.
$lines | awk -F '\t' -v words="(^|[^a-z])($words)([^a-z]|\$)" '
    {
        place = $1; sub(/: .*/, ": ", place)
        text = tolower(substr($1, length(place) + 1))
        gsub(/there (is|are) none/, "", text); gsub(/none of/, "", text)
        if (text ~ words) { print place $2; bad = 1 }
    }
    END { exit bad }
'
