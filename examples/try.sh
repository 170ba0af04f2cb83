#!/bin/sh
# Runs a model before any proof, with the Rattle kit: sh examples/try.sh bar
# A model is a folder here, or any folder by its path, with a file `words` that has the words of its command line; the
# words name files in that folder.
set -eu
here=$(cd "$(dirname "$0")" && pwd)
models=$(for words in "$here"/*/words; do basename "$(dirname "$words")"; done | tr '\n' ' ')
if [ $# -ne 1 ]; then
    echo "usage: sh examples/try.sh MODEL, a folder's path or one of: $models" >&2
    exit 2
fi
model=$here/$1
[ -d "$model" ] || model=$1
if [ ! -f "$model/words" ]; then
    echo "try.sh: there is no file $model/words; the models here are: $models" >&2
    exit 2
fi
model=$(cd "$model" && pwd)
words=$(cat "$model/words")
set --
for file in "$model"/*.sim "$model"/*.csv; do
    set -- "$@" --data "$(basename "$file")=$file"
done
cd "$here/../crates/simit"
# The words of a command hold no blanks.
# shellcheck disable=SC2086
exec rt try "$@" -- $words
