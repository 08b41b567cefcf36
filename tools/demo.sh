#!/bin/sh
# Runs the program on the bundled tiles and the bundled document, and shows what goes in, what is chosen and what comes out.
set -u
cd "$(dirname "$0")/.."
program=build/citymerge

# how each line begins
show() {
    tr -d '\r' <"$1" | cut -c 1-100 | sed 's/^/   | /'
}

for tile in west east; do
    input=examples/$tile.city.jsonl
    output=build/$tile.city.jsonl
    echo
    echo "\$ $program filter < $input > $output"
    "$program" filter <"$input" >"$output" || exit 1
    echo "in:  $(wc -c <"$input") bytes, $(wc -l <"$input") lines, which begin"
    show "$input"
    echo "out: $(wc -c <"$output") bytes, $(wc -l <"$output") lines, which begin"
    show "$output"
done

echo
echo 'Attributes, as they came in and as they went out:'
for file in examples/west.city.jsonl build/west.city.jsonl; do
    grep -o '"attributes": *{[^}]*}' "$file" | sed 's/^/   | /'
done

# what is chosen of a tile, by the ids of the features
choose() {
    tile=$1
    shift
    echo
    echo "\$ $program filter $* < examples/$tile.city.jsonl"
    "$program" filter "$@" <"examples/$tile.city.jsonl" >build/chosen.city.jsonl || exit 1
    echo "the header and $(($(wc -l <build/chosen.city.jsonl) - 1)) of $(($(wc -l <"build/$tile.city.jsonl") - 1)) features:"
    tail -n +2 build/chosen.city.jsonl | sed 's/^.*"id":"\([^"]*\)".*$/   | \1/'
}

choose east --cotype=Bridge
choose west --bbox=10000,0,20000,20000
choose west --bbox=10000,0,20000,20000 --exclude

both=build/west_and_east.city.jsonl
echo
echo "\$ $program merge --in-turn examples/west.city.jsonl examples/east.city.jsonl > $both"
"$program" merge --in-turn examples/west.city.jsonl examples/east.city.jsonl >"$both" || exit 1
echo 'the header, and one feature of each tile in turn; of each its id and its first vertex:'
tail -n +2 "$both" | sed 's/^.*"id":"\([^"]*\)".*"vertices":\[\(\[[^]]*\]\).*$/   | \1 \2/'
echo 'the first vertices of east as they came in:'
tr -d '\r' <examples/east.city.jsonl | grep Feature | grep -o '"vertices" *: *\[ *\[[^]]*\]' | sed 's/^/   | /'

town=build/town.city.jsonl
echo
echo "\$ $program cat < examples/town.city.json > $town"
"$program" cat <examples/town.city.json >"$town" || exit 1
echo "in:  $(wc -c <examples/town.city.json) bytes, one document, with the objects"
grep -o '^    "[^"]*": {' examples/town.city.json | tr -d '":{ ' | sed 's/^/   | /'
echo "out: $(wc -c <"$town") bytes, the header, and the ids of the features:"
tail -n +2 "$town" | sed 's/^.*"id":"\([^"]*\)".*$/   | \1/'
echo
echo "\$ $program merge examples/west.city.jsonl $town"
echo "$("$program" merge examples/west.city.jsonl "$town" | wc -l) lines: the header, and the features of both; of each its id and its first vertex:"
"$program" merge examples/west.city.jsonl "$town" | tail -n +2 | sed 's/^.*"id":"\([^"]*\)".*"vertices":\[\(\[[^]]*\]\).*$/   | \1 \2/'

# a tile that does not fit the first
misfit() {
    echo
    echo "\$ $program merge examples/west.city.jsonl examples/$1.city.jsonl"
    "$program" merge examples/west.city.jsonl "examples/$1.city.jsonl"
    echo "status $?; nothing was written"
}

misfit off_grid
misfit other_reference_system

echo
echo "\$ $program filter < examples/repeated_name.city.jsonl > build/repeated_name.city.jsonl"
"$program" filter <examples/repeated_name.city.jsonl >build/repeated_name.city.jsonl
echo "status $?; the $(wc -l <build/repeated_name.city.jsonl) lines before the faulty one were written"
