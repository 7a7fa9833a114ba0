#!/bin/sh
# Tries the files for Vim and VS Code on all examples and on the places of try/places.txt: editors/try.sh [FILE.isa ..]
# Without a Vim that knows colours it says so, and tries only the files for VS Code, for which it needs no VS Code. VIM_PROGRAM may name
# another Vim. It prints how many places, words and messages were as expected. The status is 1 if one wasn't.
vim=${VIM_PROGRAM:-vim}
here=$(cd "$(dirname "$0")" && pwd) || exit
if ! command -v "$vim" > /dev/null; then
    echo "try: no vim here, so its files aren't tried" >&2
    vim=
elif ! "$vim" --version | grep -q '+syntax'; then
    echo "try: this vim knows no colours, so its files aren't tried (Debian's package vim does)" >&2
    vim=
fi
PYTHONDONTWRITEBYTECODE=yes exec python3 "$here/try/places.py" "$vim" "$@"
