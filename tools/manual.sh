#!/bin/sh
# Writes the manual pages and the completions into a folder. Those of citymerge are what the program `manual`
# prints, which the gate holds to the commands: a line `==> NAME` begins each file. Those of citymerge-many are made of
# its help.
# Use: tools/manual.sh FOLDER
set -eu
cd "$(dirname "$0")/.."
mkdir -p "$1"
python3 tools/many_manual.py >"$1/many"
cat crates/manual/stdout "$1/many" |
    awk -v folder="$1" '/^==> / { file = folder "/" substr($0, 5); printf "" >file; next } { print >file }'
rm "$1/many"
