#!/bin/sh
# Refuses each growth of memory that the public calls make, in turn, by the tests `growths` of crates/city_cut_tests and
# crates/tile_merge_tests and, of the program's own calls, of crates/command_runs_tests. Each run must end well.
# With --built the tests that a gate left are run as they stand.
set -u
cd "$(dirname "$0")/.." || exit 1
tools/need.sh rt cc python3 || exit 1
mkdir -p build || exit 1
for crate in city_cut_tests tile_merge_tests command_runs_tests; do
    [ "${1-}" != --built ] || break
    if ! (cd "crates/$crate" && rt test) >"build/$crate.tests.txt" 2>&1; then
        tail -n 20 "build/$crate.tests.txt"
        exit 1
    fi
done
exec tools/torture/growths.py
