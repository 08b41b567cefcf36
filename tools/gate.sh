#!/bin/sh
# All that has to hold. The documents come first, then the gate: every proof from nothing, the edits that must fail, the
# tests; beside it what must not compile. The program that the gate built is then tried at its edges; beside that it is
# installed, packed, given many tiles and the documents' commands, and held against its model. Ends in what the gate took,
# beside what tools/gate.tsv says that it took from nothing, and in the gate's own last line.
set -u
cd "$(dirname "$0")/.."
tools/need.sh rt python3 cc || exit 1
began=$(date +%s)
python3 tools/docs_test.py || exit 1
mkdir -p build

# Waits for a command that runs in the background and writes to this file of build/, prints what it wrote, and fails
# where it failed.
ended_well() {
    wait "$1"
    status=$?
    cat "build/$2"
    return "$status"
}

python3 tools/must_not_compile.py >build/compile_test.log 2>&1 &
compiling=$!

tools/how_long.sh gate
# left to itself, rt finds no room for the longest checks beside smaller ones until these have ended
RT_JOBS=${RT_JOBS:-$(tools/lanes.sh)} tools/at_work.sh 'the gate' python3 tools/times.py run build/gate.tsv build/gate.log rt ci
gate=$?
ended_well "$compiling" compile_test.log || exit 1
[ "$gate" -eq 0 ] || exit 1
cp crates/citymerge/out/citymerge build/citymerge.new
mv build/citymerge.new build/citymerge
cp examples/many_tiles.py build/citymerge-many

python3 tools/torture/torture.py --short build/citymerge >build/torture.log 2>&1 &
torturing=$!
tools/growths.sh --built >build/growths.log 2>&1 &
growing=$!
{ tools/install_test.sh && tools/dist_test.sh; } >build/packing.log 2>&1 &
packing=$!
{ python3 tools/many_tiles_test.py build/citymerge && python3 tools/commands_test.py build/citymerge; } >build/commands.log 2>&1 &
commanding=$!
tools/program_test.sh build/citymerge || exit 1
ended_well "$packing" packing.log || exit 1
ended_well "$commanding" commands.log || exit 1
ended_well "$torturing" torture.log || exit 1
ended_well "$growing" growths.log || exit 1
echo
echo "All of it took $((($(date +%s) - began) / 60)) minutes; of these rt ci, in brackets as tools/gate.tsv has it:"
python3 tools/times.py tell build/gate.tsv tools/gate.tsv
tail -n 1 build/gate.log
