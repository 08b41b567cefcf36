#!/bin/sh
# Says how long it takes: how_long.sh build|gate. Nearly all of it is proofs, so on fewer processors it takes longer.
cd "$(dirname "$0")/.." || exit 1
here="here are $(nproc) processors"

# A value of tools/gate.tsv, which has what was measured from nothing.
stored() {
    awk -F '\t' -v name="$1" '$1 == name { print $2 }' tools/gate.tsv
}

case $1 in
build)
    kept=$(find crates -mindepth 2 -maxdepth 2 -name out | wc -l)
    echo "Proving and building citymerge, from nothing $(stored 'first build minutes') minutes on $(stored processors) processors; $here, and $kept crates keep proofs."
    ;;
gate)
    echo "The gate, from nothing $(stored 'clock minutes') minutes on $(stored processors) processors; $here. Where the kit keeps what an earlier run proved, it says so below."
    ;;
esac
