#!/bin/sh
# Proves from nothing the crates that the program stands on: build_beside.sh JOBS. The longest chain of them is proved here
# with so many jobs. While rt is at work on a crate, no other rt works on those below it; so what stands beside the chain is
# proved with one job in a second checkout, build/beside, which is given what was proved here, while the chain goes on, and
# gives back what it proved.
set -u
cd "$(dirname "$0")/.." || exit 1
jobs=$1
beside=build/beside
rm -rf "$beside"
mkdir -p "$beside/crates"
cp HANDLES "$beside/"
: >"$beside/crates.txt"
trap 'rm -rf "$beside"' EXIT

# Proves a crate, and what is not proved yet of those below it: prove CHECKOUT CRATE JOBS LOG
prove() {
    (cd "$1/crates/$2" && rt lib --jobs "$3") >>"$4" 2>&1 && return
    tools/shown.sh "$4" >&2
    echo "$2 is not proved; rt's whole answer is in $4" >&2
    return 1
}

# Proves a crate in the second checkout, which is given it, and those below it that it has not yet, and takes it over:
# prove_beside CRATE BELOW..
prove_beside() {
    proved=$1
    shift
    for crate in "$@" "$proved"; do
        grep "^$crate:" crates.txt >>"$beside/crates.txt" && cp -R "crates/$crate" "$beside/crates/" || return 1
    done
    prove "$beside" "$proved" 1 build/beside.log || return 1
    cp -R "$beside/crates/$proved/out" "crates/$proved/" && return
    rm -rf "crates/$proved/out"
    return 1
}

: >build/beside.log
prove . byte_streams "$jobs" build/build.log || exit 1
prove_beside tile_handoff byte_streams &
other=$!
prove . city_feature "$jobs" build/build.log
here=$?
wait "$other" && [ "$here" -eq 0 ] || exit 1
prove . city_families "$jobs" build/build.log || exit 1
{
    prove_beside command_line city_json city_grid city_feature && prove_beside cut_by_value city_families
} &
other=$!
prove . cut_on_text "$jobs" build/build.log
here=$?
wait "$other" && [ "$here" -eq 0 ] || exit 1
prove . tile_stream "$jobs" build/build.log || exit 1
prove_beside document_stream cut_on_text city_cut tile_stream &
other=$!
prove . tile_merge "$jobs" build/build.log
here=$?
wait "$other" && [ "$here" -eq 0 ] || exit 1
