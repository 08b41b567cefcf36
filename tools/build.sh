#!/bin/sh
# Proves the program, builds it, runs it once on its stored input, and leaves it at build/citymerge.
# Words are passed on to rt, as --jobs 1; with none it gets the jobs that tools/lanes.sh prints, and a build from nothing
# on several processors goes side by side (tools/build_beside.sh).
set -u
cd "$(dirname "$0")/.."
tools/need.sh rt || exit 1
mkdir -p build
log=build/build.log
: >"$log"
began=$(date +%s)
first=no

tools/how_long.sh build
if [ $# -eq 0 ]; then
    set -- --jobs "$(tools/lanes.sh)"
    if [ "$2" -gt 1 ] && ! ls -d crates/*/out >/dev/null 2>&1; then
        first=yes
        echo "From nothing: what stands beside the longest chain of crates is proved beside it, in build/beside."
        tools/at_work.sh 'proving' tools/build_beside.sh "$2" || echo "What is not proved so is proved here now." >&2
    fi
fi
tools/at_work.sh 'proving and building' sh -c '
    cd crates/citymerge && exec rt run "$@" -- filter <stdin >../../build/first_output 2>>../../build/build.log
' rt "$@"
status=$?
if [ "$status" -ne 0 ] || ! cmp build/first_output crates/citymerge/stdout; then
    tools/shown.sh "$log" >&2
    echo "Not built (status $status); rt's whole answer is in $log" >&2
    exit 1
fi
rm build/first_output
# a new file, so that a program that is running stays as it is
cp crates/citymerge/out/citymerge build/citymerge.new
mv build/citymerge.new build/citymerge
cp examples/many_tiles.py build/citymerge-many
minutes=$((($(date +%s) - began + 30) / 60))
[ "$first" = no ] || printf 'first build minutes\t%s\n' "$minutes" >build/first_build.tsv
echo "Built in $minutes minutes: build/citymerge"
