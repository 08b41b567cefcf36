#!/bin/sh
# What the built program must do at its edges, which the gate's stored run does not show: the words, the
# statuses, the fault lines, a closed output, long inputs, and the bundled tiles.
# Use: tools/program_test.sh PROGRAM
set -u
cd "$(dirname "$0")/.."
program=$1
. tools/expect.sh

# runs the program with these words on the file `in`; what comes: the status, the output, the errors
answer() {
    timeout 60 "$program" "$@" <"$room/in" >"$room/out" 2>"$room/errors"
    printf '%s|%s|%s' "$?" "$(cat "$room/out")" "$(cat "$room/errors")"
}

# the same, of a long text its first line
first_lines() {
    timeout 60 "$program" "$@" <"$room/in" >"$room/out" 2>"$room/errors"
    printf '%s|%s|%s' "$?" "$(head -n 1 "$room/out")" "$(head -n 1 "$room/errors")"
}

header='{"type":"CityJSON","version":"2.0","transform":{"scale":[0.001,0.001,0.001],"translate":[0,0,0]},"CityObjects":{},"vertices":[]}'

# a feature of this name and type with these vertices
feature() {
    printf '{"type":"CityJSONFeature","id":"%s","CityObjects":{"%s":{"type":"%s"}},"vertices":[%s]}' "$1" "$1" "$2" "$3"
}

a=$(feature a Building '')
p=$(feature p Building '[0,0,0],[10,10,0]')
q=$(feature q Bridge '[10,20,0]')

# the words
printf '%s\n%s\n%s\n' "$header" "$p" "$q" >"$room/in"
whole=$(cat "$room/in")
expect 'no words' "2||error: 'citymerge' requires a subcommand but one was not provided" "$(first_lines)"
expect 'another command' "2||error: unrecognized subcommand 'collect'" "$(first_lines collect)"
expect 'a path' "2||error: unexpected argument 'a.city.jsonl' found" "$(first_lines filter a.city.jsonl)"
expect 'a box of three numbers' '2||citymerge: bad --bbox' "$(answer filter --bbox=1,2,3)"
expect 'a box from right to left' '2||citymerge: bad --bbox' "$(answer filter --bbox=5,0,1,1)"
expect 'a type with no name' '2||citymerge: bad --cotype' "$(answer filter --cotype=A,,B)"
expect 'an option 10,000 times' "2||error: the argument '--exclude' cannot be used multiple times" "$(first_lines filter $(yes -- --exclude | head -n 10000))"
expect 'a word that is not UTF-8' '2||citymerge: a word is not UTF-8' "$(answer filter "$(printf '\377')")"
expect 'the version' '0|citymerge 0.1.0|' "$(answer --version)"
expect 'help' '0|Merge, filter and make CityJSONSeq streams of city models.|' "$(first_lines --help)"
expect 'help by its word' '0|Merge, filter and make CityJSONSeq streams of city models.|' "$(first_lines help)"
expect 'help of filter' '0|Choose features from a stream on standard input.|' "$(first_lines help filter)"
expect 'help of merge' '0|Join the streams of several files into one.|' "$(first_lines help merge)"
expect 'help of cat' '0|Cut a CityJSON document on standard input into a stream.|' "$(first_lines help cat)"
expect 'a path of cat' "2||error: unexpected argument 'a.city.json' found" "$(first_lines cat a.city.json)"
expect 'an option of cat' "2||error: unexpected argument '--exclude' found" "$(first_lines cat --exclude)"
expect 'help of nothing' "2||error: unrecognized subcommand 'nope'" "$(first_lines help nope)"
for word in --help --version; do
    timeout 60 "$program" "$word" <"$room/in" >/dev/full 2>"$room/errors"
    expect "$word, which cannot be written" '0|' "$?|$(cat "$room/errors")"
done
timeout 60 "$program" collect <"$room/in" >"$room/out" 2>/dev/full
expect 'usage that cannot be written' 2 "$?"

# ends a run that has not ended by itself after 20 s
end_late() {
    for turn in $(seq 200); do
        grep -qs '^State:.[^ZX]' "/proc/$1/status" || return 0
        sleep 0.1
    done
    kill "$1"
}

# the processor time that a process has taken, in ticks of a hundredth of a second
ticks() {
    awk '{ print $14 + $15 }' "/proc/$1/stat"
}

# whether a process takes less than half of the processor's time in one of three seconds: a machine that was halted may
# charge one of them
is_quiet() {
    for turn in 1 2 3; do
        before=$(ticks "$1")
        sleep 1
        [ $(($(ticks "$1") - before)) -ge 50 ] || return 0
    done
    return 1
}

mkfifo "$room/live" "$room/passed_on"

# runs a command on the tile that is written to 3; what comes of it is read from 4
begin_live() {
    if [ "$1" = filter ]; then
        "$program" filter <"$room/live" >"$room/passed_on" 2>"$room/errors" &
    else
        "$program" $1 "$room/live" >"$room/passed_on" 2>"$room/errors" &
    fi
    runs=$!
    exec 3<>"$room/live"
    exec 4<"$room/passed_on"
}

# ends the tile: nothing more comes, and the run ends well
end_live() {
    exec 3>&-
    expect "the rest of $1" '' "$(timeout 20 cat <&4)"
    exec 4<&-
    end_late $runs
    wait $runs
    expect "the status of $1" 0 $?
}

# A live tile: what has come of it is passed on while it gives nothing, and waiting takes no processor.
for command in filter merge 'merge --in-turn'; do
    begin_live "$command"
    printf '%s\n%s\n' "$header" "$p" >&3
    expect "$command of a live tile" "$(printf '%s\n%s' "$header" "$p")" "$(timeout 20 head -n 2 <&4)"
    is_quiet $runs
    expect "$command of a live tile, while it waits" 0 $?
    printf '%s\n' "$q" >&3
    expect "what comes later in $command of a live tile" "$q" "$(timeout 20 head -n 1 <&4)"
    sleep 1
    end_live "$command of a live tile"
done

# sends lines to a command, and bytes behind them: what comes of the lines, and then of the feature `q`, before the tile ends
live_before() {
    what="$1 of a live tile with '$2' behind $3 lines"
    begin_live "$1"
    printf '%s\n'"$2" "$4" >&3
    expect "$what" "$5" "$(timeout 20 head -n "$3" <&4)"
    printf '%s\n' "${q#"$6"}" >&3
    expect "what comes later in $what" "$q" "$(timeout 20 head -n 1 <&4)"
    end_live "$what"
}

# What has come is passed on behind blank lines, lines of white space, and the front of a line.
d=$(feature d Building '')
document="${header%\"CityObjects\"*}"'"CityObjects":{"d":{"type":"Building"}},"vertices":[]}'
front=${q%Bridge*}
for command in filter merge 'merge --in-turn'; do
    for behind in '\n' ' \n' '\r\n\t\n\n' '\n \t'; do
        live_before "$command" "$behind" 2 "$(printf '%s\n%s' "$header" "$p")" "$(printf '%s\n%s' "$header" "$p")" ''
    done
    live_before "$command" "\\n$front" 2 "$(printf '%s\n%s' "$header" "$p")" "$(printf '%s\n%s' "$header" "$p")" "$front"
    live_before "$command" '\n' 1 "$header" "$header" ''
    live_before "$command" '\n' 2 "$document" "$(printf '%s\n%s' "$header" "$d")" ''
done

# what is chosen
expect 'filter' "0|$whole|" "$(answer filter)"
expect 'by a type' "0|$(printf '%s\n%s' "$header" "$q")|" "$(answer filter --cotype=Road,Bridge)"
expect 'by a box' "0|$(printf '%s\n%s' "$header" "$p")|" "$(answer filter --bbox=-5,0,10,10)"
expect 'by a box, excluded' "0|$(printf '%s\n%s' "$header" "$q")|" "$(answer filter --exclude --bbox=-5,0,10,10)"
expect 'by both' "0|$header|" "$(answer filter --cotype=Building --bbox=11,11,12,12)"

u=$(feature u Ä '')
printf '%s\n%s\n%s\n' "$header" "$a" "$u" >"$room/in"
expect 'by a type that is not ASCII' "0|$(printf '%s\n%s' "$header" "$u")|" "$(answer filter --cotype=Ä,B)"
expect 'all but a type that is not ASCII' "0|$(printf '%s\n%s' "$header" "$a")|" "$(answer filter --exclude --cotype=Ä,B)"
expect 'by a box, without vertices' "0|$header|" "$(answer filter --bbox=-5,0,10,10)"
expect 'by a box, without vertices, excluded' "0|$(cat "$room/in")|" "$(answer filter --exclude --bbox=-5,0,10,10)"

# the streams
printf '' >"$room/in"
expect 'no bytes' '1||citymerge: tile 1: the stream has no header line' "$(answer filter)"
printf '\n \t\r\n' >"$room/in"
expect 'blank lines' '1||citymerge: tile 1: the stream has no header line' "$(answer filter)"
printf '\n%s\r\n \t\r\n%s\r\n{' "$header" "$a" >"$room/in"
expect 'a line cut short' "1|$(printf '%s\n%s' "$header" "$a")|citymerge: tile 1 line 5: the line is not a JSON text" "$(answer filter)"
printf '\n%s\r\n \t\r\n%s\r\n%s' "$header" "$a" "$q" >"$room/in"
expect 'blank lines among others' "0|$(printf '%s\n' "$header" "$a" "$q")|" "$(answer filter)"
printf '\377\n1' >"$room/in"
expect 'a first line that is not UTF-8' '1||citymerge: tile 1 line 1: the line is not UTF-8' "$(answer filter)"
printf '%s\n"\377"\n' "$header" >"$room/in"
expect 'not UTF-8' "1|$header|citymerge: tile 1 line 2: the line is not UTF-8" "$(answer filter)"
printf '{"a":1,"\\u0061":2}' >"$room/in"
expect 'a name twice' '1||citymerge: tile 1 line 1: a name is repeated in an object' "$(answer filter)"
head -c 129 /dev/zero | tr '\0' '[' >"$room/in"
expect 'nested too deeply' '1||citymerge: tile 1 line 1: the JSON text is nested too deeply' "$(answer filter)"
printf '[1]\n' >"$room/in"
expect 'no header' '1||citymerge: tile 1 line 1: the object is not a CityJSON object' "$(answer filter)"

# a stream of the header, this line and a feature
refused_line() {
    printf '%s\n' "$header" "$1" "$a" >"$room/in"
    expect "the line $1" "1|$header|citymerge: tile 1 line 2: $2" "$(answer filter)"
}
refused_line "$header" 'the line is not a CityJSONFeature'
refused_line '[1,]' 'the line is not a JSON text'
refused_line '{"a":1,"a":2}' 'a name is repeated in an object'
refused_line "$(printf '[%.0s' $(seq 129))" 'the JSON text is nested too deeply'
for vertex in 0.5,0,0 1.0,0,0 1e2,0,0; do
    refused_line "$(feature a Building "[$vertex]")" 'a vertex number is not written as a whole number'
done
refused_line "$(feature a Building '[1,2]')" 'a vertex is not three numbers'
refused_line "$(feature a Building '["1",2,3]')" 'a vertex is not three numbers'
refused_line "$(feature a Building '[9007199254740992,0,0]')" 'a vertex number is out of range'

# a large stream that is compact comes out as it went in
stays() {
    timeout 60 "$program" filter <"$room/in" >"$room/out" 2>"$room/errors"
    expect "$1" '0||same' "$?|$(cat "$room/errors")|$(cmp "$room/in" "$room/out" && echo same)"
}

# the stream of the header and a feature with a member that holds the text of standard input
holding() {
    printf '%s\n{"type":"CityJSONFeature","id":"a","CityObjects":{},"vertices":[],"holds":' "$header"
    cat
    printf '}\n'
}
{ printf '"'; head -c 3000000 /dev/zero | tr '\0' a; printf '"'; } | holding >"$room/in"
stays 'a string of 3 MB'
head -c 1000000 /dev/zero | tr '\0' 7 | holding >"$room/in"
stays 'a number of 1,000,000 digits'
{ printf '['; yes '1,' | tr -d '\n' | head -c 1000000; printf '1]'; } | holding >"$room/in"
stays 'an array of 500,001 items'
{ printf '%s\n' "$header"; yes "$p" | head -n 100000; } >"$room/in"
stays '100,000 features'
head -n 3 "$room/in" >"$room/three"
{ cat "$room/in"; printf '{}\n'; } >"$room/long"
mv "$room/long" "$room/in"
timeout 60 "$program" filter <"$room/in" >"$room/out" 2>"$room/errors"
expect 'a fault at the end' '1|citymerge: tile 1 line 100002: the line is not a CityJSONFeature' "$?|$(cat "$room/errors")"
expect 'all that is before it' 100001 "$(wc -l <"$room/out")"
timeout 60 "$program" filter --cotype=Road <"$room/in" >"$room/out" 2>"$room/errors"
expect 'a fault after features that are not chosen' "1|$header" "$?|$(cat "$room/out")"

# a line without end
tr '\0' ' ' </dev/zero | timeout 60 "$program" filter >"$room/out" 2>"$room/errors"
expect 'a line without end' 'citymerge: tile 1 line 1: the line is too long' "$(cat "$room/errors")"

# memory for a long line, also where types are asked for and the feature has none, or where it is at fault, and not for its
# value; then not even for the line
{ printf '['; yes '1,' | tr -d '\n' | head -c 60000000; printf '1]'; } | holding >"$room/in"
for most in '250000|0|same' '60000|1|'; do
    (ulimit -v "${most%%|*}"; exec timeout 60 "$program" filter <"$room/in" >"$room/out" 2>"$room/errors")
    expect "a long line in ${most%%|*} KB" "${most#*|}" "$?|$(cmp -s "$room/in" "$room/out" && echo same)"
done
expect 'no memory for a line' "$header|citymerge: tile 1 line 2: there is not enough memory" "$(cat "$room/out")|$(cat "$room/errors")"
(ulimit -v 250000; exec timeout 60 "$program" filter --exclude --cotype=Road <"$room/in" >"$room/out" 2>"$room/errors")
expect 'a long line with no type in 250000 KB' '0|same' "$?|$(cmp -s "$room/in" "$room/out" && echo same)"
{ printf '['; yes '1, ' | tr -d '\n' | head -c 60000000; printf '1]'; } | holding >"$room/in"
tr -d ' ' <"$room/in" >"$room/wanted"
(ulimit -v 250000; exec timeout 60 "$program" filter <"$room/in" >"$room/out" 2>"$room/errors")
expect 'a long line with blanks in 250000 KB' '0|same' "$?|$(cmp -s "$room/wanted" "$room/out" && echo same)"
{ printf '%s\n{"type":"CityJSONFeature","id":"a","CityObjects":{},"vertices":[[0.5,0,0]],"holds":[' "$header"; yes '1,' | tr -d '\n' | head -c 60000000; printf '1]}\n'; } >"$room/in"
expect 'a long line at fault in 250000 KB' "1|$header|citymerge: tile 1 line 2: a vertex number is not written as a whole number" "$(ulimit -v 250000; answer filter)"

# a directory can be opened, and cannot be read
timeout 60 "$program" filter <"$room" >"$room/out" 2>"$room/errors"
expect 'a read that fails' '1|citymerge: tile 1 line 1: the tile could not be read' "$?|$(cat "$room/errors")"

# a full device takes no byte
cp "$room/three" "$room/in"
timeout 60 "$program" filter <"$room/in" >/dev/full 2>"$room/errors"
expect 'a full device' '1|citymerge: the output could not be written' "$?|$(cat "$room/errors")"
{ cat "$room/three"; printf '{}\n'; } >"$room/in"
timeout 60 "$program" filter <"$room/in" >/dev/full 2>"$room/errors"
expect 'a full device and a fault' '1|citymerge: the output could not be written' "$?|$(cat "$room/errors")"
printf '{}\n' >"$room/in"
timeout 60 "$program" filter <"$room/in" >/dev/full 2>"$room/errors"
expect 'a full device and no header' '1|citymerge: tile 1 line 1: the object is not a CityJSON object' "$?|$(cat "$room/errors")"

# the reader of the pipe is gone before anything is written, and more comes than a pipe holds
{ printf '%s\n' "$header"; yes "$p" | head -n 20000; } >"$room/in"
{
    { sleep 1; timeout 60 "$program" filter <"$room/in" 2>"$room/errors"; echo $? >"$room/status"; } | :
}
expect 'a closed pipe' '1|citymerge: the output could not be written' "$(cat "$room/status")|$(cat "$room/errors")"

# the same where all that is written fits into the buffer, so that only the flush at the end fails
mkfifo "$room/gone"
for words in "filter" "merge $room/three $room/three" "merge --in-turn $room/three $room/three" "cat"; do
    given="$room/three"
    [ "$words" != cat ] || given=examples/town.city.json
    (exec 3<>"$room/gone" 4>"$room/gone" 3<&-; timeout 60 "$program" $words <"$given" >&4 2>"$room/errors")
    expect "a few lines of ${words%% /*} to a closed pipe" '1|citymerge: the output could not be written' "$?|$(cat "$room/errors")"
done

# the fault line cannot be written either
printf '{' >"$room/in"
for command in filter cat; do
    timeout 60 "$program" $command <"$room/in" >"$room/out" 2>/dev/full
    expect "nowhere to write the fault line of $command" '1|0' "$?|$(wc -c <"$room/out")"
done

for tile in west east; do
    timeout 60 "$program" filter <"examples/$tile.city.jsonl" >"$room/once" 2>"$room/errors"
    expect "$tile" '0|' "$?|$(cat "$room/errors")"
    timeout 60 "$program" filter <"$room/once" >"$room/twice"
    expect "$tile, written once more" same "$(cmp "$room/once" "$room/twice" && echo same)"
    expect "$tile, its expected output" same "$(cmp "$room/once" "examples/$tile.expected.city.jsonl" && echo same)"
done
timeout 60 "$program" filter --cotype=Bridge <examples/east.city.jsonl | tail -n +2 >"$room/out"
grep '"id":"brug-7"' examples/east.expected.city.jsonl >"$room/wanted"
expect 'the bridge of east' same "$(cmp "$room/out" "$room/wanted" && echo same)"

# the tiles of a merge: files of these names, each with the lines that follow
tile() {
    name=$1
    shift
    printf '%s\n' "$@" >"$room/$name"
}

# merges files of the folder, with these words
merged() {
    (cd "$room" && timeout 60 "$program" merge "$@" >out 2>errors)
    printf '%s|%s|%s' "$?" "$(cat "$room/out")" "$(cat "$room/errors")"
}

# the same, where the features stand as they come: those after the header, sorted
mixed() {
    (cd "$room" && timeout 60 "$program" merge "$@" >out 2>errors)
    printf '%s|%s|%s' "$?" "$(head -n 1 "$room/out"; tail -n +2 "$room/out" | LC_ALL=C sort)" "$(cat "$room/errors")"
}

# the header with another translation in x, or with a member more
moved_to() {
    printf '%s' "$header" | sed "s/\"translate\":\[0,/\"translate\":[$1,/"
}
header_with() {
    printf '%s,%s}' "${header%\}}" "$1"
}

case $program in
/*) ;;
*) program=$PWD/$program ;;
esac
one=$(feature a Building '[1,2,3]')
two=$(feature b Building '[10,20,30]')
far=$(feature b Building '[1510,20,30]')
tile a "$header" "$one"
tile b "$(moved_to 1.5)" "$two"
tile -b "$(moved_to 1.5)" "$two"
tile - "$header" "$one" "$one"
below=$(feature a Building '[0,2,3]')
tile bare "$header"
tile below "$(moved_to -0.001)" "$one"
expect 'a merge in turn' "0|$(printf '%s\n%s\n%s' "$header" "$one" "$far")|" "$(merged --in-turn a b)"
expect 'a merge in turn from the least' "0|$(printf '%s\n%s\n%s' "$header" "$far" "$one")|" "$(merged --in-turn --least b a)"
for turns in '' --in-turn; do
    expect "a merge $turns" "0|$(printf '%s\n%s\n%s' "$header" "$one" "$far")|" "$(mixed $turns a b)"
    expect "a merge of a box $turns" "0|$(printf '%s\n%s' "$header" "$far")|" "$(merged a $turns b --bbox=1510,0,1510,100)"
    expect "a tile below the first $turns" "0|$(printf '%s\n' "$header" "$below")|" "$(merged $turns bare below)"
    expect "a tile below the first, from the least $turns" "0|$(printf '%s\n' "$(moved_to -0.001)" "$one")|" "$(merged $turns --least bare below)"
    expect "the least of a tile of no features $turns" "0|$(printf '%s\n' "$header" "$far" "$far")|" "$(merged $turns --least b bare b)"
    expect "a tile of no features $turns" "0|$header|" "$(merged $turns bare)"
    expect "a box on the least grid $turns" "0|$(printf '%s\n%s' "$header" "$far")|" "$(merged $turns --least --bbox=1510,0,1510,100 b a)"
    expect "a merge from the least $turns" "0|$(printf '%s\n%s\n%s' "$header" "$one" "$far")|" "$(mixed $turns --least b a)"
done
expect 'a merge of what is excluded' "0|$(printf '%s\n%s' "$header" "$one")|" "$(merged --exclude --bbox=1510,0,1510,100 a b)"
expect 'a merge of a type' "0|$header|" "$(merged --cotype=Bridge a b)"
expect 'one tile' "0|$(printf '%s\n%s' "$header" "$one")|" "$(merged a)"
expect 'one tile twice' "0|$(printf '%s\n%s\n%s' "$header" "$one" "$one")|" "$(merged a a)"
expect 'a dash is a name' "0|$(printf '%s\n%s\n%s' "$header" "$one" "$one")|" "$(merged -)"
expect 'a name with a dash' "0|$(printf '%s\n%s\n%s' "$header" "$one" "$far")|" "$(mixed a -- -b)"
tile c "$header" "$one" "$one" "$one"
tile d "$header" "$two"
tile e "$header" "$q" "$p"
for turns in '' --in-turn; do
    expect "a merge of all but a type $turns" "0|$(printf '%s\n' "$header" "$one" "$p")|" "$(mixed $turns --exclude --cotype=Bridge,Road a e)"
done
expect 'three tiles' "0|$(printf '%s\n' "$header" "$one" "$two" "$q" "$one" "$p" "$one")|" "$(merged --in-turn c d e)"
tile mixed "$header" "$one" "$two" "$one" "$two"
tile lower "$(moved_to -0.001)" "$one" "$one" "$one"
expect 'three tiles that are moved' "0|$(printf '%s\n' "$header" "$one" "$far" "$below" "$two" "$below" "$one" "$below" "$two")|" "$(merged --in-turn mixed b lower)"
expect 'three tiles with threads' "0|$(printf '%s\n' "$header" "$one" "$one" "$one" "$two" "$p" "$q")|" "$(mixed c d e)"
expect 'each in its own order' "$(printf '%s\n' "$q" "$p")" "$(grep -e '"id":"[pq]"' "$room/out")"
tile f "$header" "$two" '{"type":"CityJSONFeature","id":"b2'
expect 'a tile that is cut short' "1|$(printf '%s\n' "$header" "$one" "$two" "$one")|citymerge: tile 2 line 3: the line is not a JSON text" "$(merged --in-turn - f)"
expect 'the same in the other order' "1|$(printf '%s\n' "$header" "$two" "$one" "$one")|citymerge: tile 1 line 3: the line is not a JSON text" "$(merged --in-turn f -)"
expect 'a tile that is cut short, with threads' "1|$(printf '%s\n' "$header" "$one" "$one" "$two")|citymerge: tile 2 line 3: the line is not a JSON text" "$(mixed - f)"
expect 'the same in the other order, with threads' "1|$(printf '%s\n' "$header" "$one" "$one" "$two")|citymerge: tile 1 line 3: the line is not a JSON text" "$(mixed f -)"
tile g "$header" "$two" "$header"
tile h "$header" "$one" '[]'
for turns in '' --in-turn; do
    expect "two tiles at fault $turns" "1|$(printf '%s\n' "$header" "$one" "$one" "$two")|citymerge: tile 2 line 3: the line is not a CityJSONFeature" "$(mixed $turns a g h)"
done

# the words of a merge
expect 'no tile' '2||error: the following required arguments were not provided:' "$(first_lines merge)"
expect 'options and no tile' '2||error: the following required arguments were not provided:' "$(first_lines merge --in-turn --least)"
expect 'a bad box of a merge' '2||citymerge: bad --bbox' "$(merged --bbox=1,2,3 no-such-file)"
expect 'a bad type of a merge' '2||citymerge: bad --cotype' "$(merged --bbox=1,2,3 no-such-file --cotype=A,,B)"
expect 'an option that looks like a tile' "2||error: unexpected argument '-b' found" "$(first_lines merge a -b)"

# tiles that are not merged
expect 'a file that is not there' '1||citymerge: tile 2: the tile could not be read' "$(merged a no-such-file no-such-file)"
expect 'a name that is empty' '1||citymerge: tile 1: the tile could not be read' "$(merged '' a)"
expect 'a name that is empty after others' '1||citymerge: tile 3: the tile could not be read' "$(merged a b '')"
mkdir "$room/folder"
expect 'a folder' '1||citymerge: tile 2 line 1: the tile could not be read' "$(merged a folder)"
expect '65 files that are not there' '1||citymerge: there are more than 64 tiles' "$(merged $(seq 65))"
expect '64 tiles' "0|65" "$(merged $(yes a | head -n 64) >"$room/64"; printf '%s|%s' "$(cut -c 1 "$room/64" | head -n 1)" "$(wc -l <"$room/out")")"
tile empty
printf '' >"$room/empty"
expect 'a tile of no bytes' '1||citymerge: tile 3: the stream has no header line' "$(merged a b empty)"
tile blank "$(printf '\t')"
tile broken '{'
expect 'a tile of a blank line, before lines at fault' '1||citymerge: tile 3: the stream has no header line' "$(merged a f blank broken)"
misfit() {
    tile misfit "$2"
    expect "$1" "1||citymerge: tile 2 line 1: $3" "$(merged a misfit)"
}
misfit 'off the grid' "$(moved_to 0.0005)" 'the translation is off the grid'
misfit 'another scale' "$(printf '%s' "$header" | sed 's/0\.001/0.01/g')" 'the scale differs from tile 1'
misfit 'another version' "$(printf '%s' "$header" | sed 's/2\.0/1.1/')" 'the version is not 2.0'
misfit 'no transform' '{"type":"CityJSON","version":"2.0","CityObjects":{},"vertices":[]}' 'the transform is missing or malformed'
misfit 'a scale of zero' "$(printf '%s' "$header" | sed 's/0\.001/0/g')" 'a scale is not above zero'
misfit 'templates' "$(header_with '"geometry-templates":{"templates":[],"vertices-templates":[]}')" 'geometry templates differ between tiles'
misfit 'a reference system' "$(header_with '"metadata":{"referenceSystem":"https://www.opengis.net/def/crs/EPSG/0/7415"}')" 'the reference system differs from tile 1'
tile fine "$(printf '%s' "$header" | sed 's/0\.001/0.000001/g')"
tile far "$(moved_to 100000000000 | sed 's/0\.001/0.000001/g')"
expect 'too far' '1||citymerge: tile 2 line 1: the shift is out of range' "$(merged fine far)"
tile misfit '' "$(moved_to -0.0005)" "$one"
for turns in '' --in-turn; do
    expect "off the grid after a blank line $turns" '1||citymerge: tile 2 line 2: the translation is off the grid' "$(merged $turns a misfit)"
    expect "off the least grid $turns" '1||citymerge: tile 1 line 1: the translation is off the grid' "$(merged $turns --least a misfit)"
done
tile extended "$(header_with '"extensions":{"A":{"version":"1"}}')"
tile others "$(header_with '"extensions":{"B":{},"A":{"version":"1"}}')"
tile clashing "$(header_with '"extensions":{"B":{},"A":{"version":"2"}}')"
expect 'extensions' "0|$(header_with '"extensions":{"A":{"version":"1"},"B":{}}')|" "$(merged extended others)"
expect 'extensions after a tile of none' "0|$(header_with '"extensions":{"A":{"version":"1"},"B":{}}')|" "$(merged bare extended others)"
expect 'extensions that clash' '1||citymerge: tile 2 line 1: an extension differs between tiles' "$(merged extended clashing)"
tile bounded "$(header_with '"metadata":{"geographicalExtent":[0,0,0,1,1,1],"title":"t"}')"
expect 'the extent of a tile' "0|$(header_with '"metadata":{"title":"t"}')|" "$(merged bounded)"
cp "$room/bounded" "$room/in"
expect 'the extent stays in a filter' "0|$(cat "$room/in")|" "$(answer filter)"

# a large merge, and outputs that are closed
{ printf '%s\n' "$header"; yes "$one" | head -n 50000; } >"$room/many"
{ printf '%s\n' "$(moved_to 1.5)"; yes "$two" | head -n 30000; } >"$room/others"
{ printf '%s\n' "$header"; yes "$one
$far" | head -n 60000; yes "$one" | head -n 20000; } >"$room/wanted"
timeout 60 "$program" merge "$room/many" "$room/others" >"$room/out" 2>"$room/errors"
expect 'a merge of 80,000 features with threads' '0||same' "$?|$(cat "$room/errors")|$(tail -n +2 "$room/out" | LC_ALL=C sort >"$room/sorted"; tail -n +2 "$room/wanted" | LC_ALL=C sort | cmp - "$room/sorted" && echo same)"
timeout 60 "$program" merge --in-turn "$room/many" "$room/others" >"$room/out" 2>"$room/errors"
expect 'a merge of 80,000 features' '0||same' "$?|$(cat "$room/errors")|$(cmp "$room/wanted" "$room/out" && echo same)"
{ timeout 20 "$program" merge "$room/many" "$room/others"; echo $? >"$room/status"; } | { sleep 1; tail -n +2; } | LC_ALL=C sort >"$room/out"
expect 'a merge whose output waits' '0|same' "$(cat "$room/status")|$(cmp "$room/sorted" "$room/out" && echo same)"
timeout 60 "$program" merge "$room/a" "$room/b" >/dev/full 2>"$room/errors"
expect 'a merge to a full device' '1|citymerge: the output could not be written' "$?|$(cat "$room/errors")"
{
    { sleep 1; timeout 60 "$program" merge "$room/many" "$room/others" 2>"$room/errors"; echo $? >"$room/status"; } | :
}
expect 'a merge to a closed pipe' '1|citymerge: the output could not be written' "$(cat "$room/status")|$(cat "$room/errors")"

# Tiles that do not end by themselves end soon after the output is gone, also where nothing is chosen of one of them.
mkfifo "$room/endless" "$room/unchosen"
{ printf '%s\n' "$header"; yes "$one"; } >"$room/endless" 2>"$room/ignored" &
{ printf '%s\n' "$header"; yes "$a"; } >"$room/unchosen" 2>"$room/ignored" &
{
    { timeout 20 "$program" merge --bbox=0,0,9000,9000 "$room/endless" "$room/unchosen" 2>"$room/errors"; echo $? >"$room/status"; } | head -n 2 >"$room/out"
}
expect 'a merge of endless tiles to a closed pipe' '1|citymerge: the output could not be written|2' "$(cat "$room/status")|$(cat "$room/errors")|$(wc -l <"$room/out")"

# A tile that does not end by itself ends at its fault.
for command in filter merge 'merge --in-turn'; do
    { printf '%s\n{\n' "$header"; yes "$one"; } >"$room/endless" 2>"$room/ignored" &
    gives=$!
    if [ "$command" = filter ]; then
        timeout 20 "$program" filter <"$room/endless" >"$room/out" 2>"$room/errors"
    else
        timeout 20 "$program" $command "$room/endless" >"$room/out" 2>"$room/errors"
    fi
    expect "$command of an endless tile with a fault" "1|$header|citymerge: tile 1 line 2: the line is not a JSON text" "$?|$(cat "$room/out")|$(cat "$room/errors")"
    end_late $gives
    wait $gives
done
timeout 60 "$program" merge "$room/many" no-such-file >"$room/out" 2>/dev/full
expect 'a file that is not there, and nowhere to say it' '1|0' "$?|$(wc -c <"$room/out")"

# a thread's stack of 1 GB: there is room for none, for one, for both; tiles that take turns need none
mkfifo "$room/slow"

# merges what comes of `slow` and this file, in so much memory; opens `slow` at last, so that nobody waits for a reader
beside() {
    if [ "$2" != unlimited ]; then
        ulimit -s 1000000
        ulimit -v "$2"
    fi
    timeout 60 "$program" merge "$room/slow" "$1" >"$room/out" 2>"$room/errors"
    echo "$?|$([ -e "$room/last" ] && echo waited)" >"$room/status"
    : <>"$room/slow"
}
if (ulimit -s 1000000) 2>/dev/null; then
    for most in '500000|1||citymerge: tile 1: a thread could not be started' '1500000|1||citymerge: tile 2: a thread could not be started' "4000000|0|$(printf '%s\n%s\n%s' "$header" "$one" "$far")|"; do
        expect "threads in ${most%%|*} KB" "${most#*|}" "$(ulimit -s 1000000; ulimit -v "${most%%|*}"; mixed a b)"
    done
    # while the choice is copied for tile 2, the ring of tile 1 mostly fills: who stops has to empty it
    types="--cotype=Building,$(seq -f 'A%g' -s , 18000)"
    for _ in $(seq 8); do
        expect 'no thread beside one whose ring is full' '1||citymerge: tile 2: a thread could not be started' "$(ulimit -s 1000000; ulimit -v 1500000; merged "$types" many b)"
    done
    # a tile before it that does not end by itself is asked to
    { printf '%s\n' "$header"; yes "$one"; } >"$room/endless" 2>"$room/ignored" &
    gives=$!
    expect 'no thread beside an endless tile' '1||citymerge: tile 2: a thread could not be started' "$(ulimit -s 1000000; ulimit -v 1500000; merged endless b)"
    end_late $gives
    wait $gives
    expect 'no thread, in turn' "0|$(printf '%s\n%s\n%s' "$header" "$one" "$far")|" "$(ulimit -s 1000000; ulimit -v 500000; merged --in-turn a b)"
    beside "$room/b" 1500000 &
    (
        printf '%s\n' "$header"
        sleep 1
        # before the line at which the thread may end, so that the merge does not end between the two
        : >"$room/last"
        printf '%s\n' "$one"
    ) >"$room/slow"
    wait $!
    expect 'the thread that runs is waited for' '1|waited|citymerge: tile 2: a thread could not be started' "$(cat "$room/status")|$(cat "$room/errors")"
else
    echo 'Not run: threads that cannot be started, since stacks of 1 GB are not allowed'
fi

# the first tile gives its feature when something of the second was written
rm -f "$room/last"
beside "$room/others" unlimited &
(
    printf '%s\n' "$header"
    for _ in $(seq 300); do
        [ -s "$room/out" ] && break
        sleep 0.1
    done
    wc -l <"$room/out" >"$room/early"
    printf '%s\n' "$one"
    : >"$room/last"
) >"$room/slow"
wait $!
expect 'tiles beside one another' '0|waited||30002|some' "$(cat "$room/status")|$(cat "$room/errors")|$(wc -l <"$room/out")|$([ "$(cat "$room/early")" -gt 0 ] && echo some)"

# the bundled tiles
both=examples/west_and_east.expected.city.jsonl
west=examples/west.expected.city.jsonl
timeout 60 "$program" merge examples/west.city.jsonl examples/east.city.jsonl >"$room/out" 2>"$room/errors"
expect 'west and east with threads' "0||$(head -n 1 "$both")" "$?|$(cat "$room/errors")|$(head -n 1 "$room/out")"
expect 'west in its order' "$(tail -n +2 "$west")" "$(tail -n +2 "$room/out" | grep -Fxf "$west")"
expect 'east in its order' "$(tail -n +2 "$both" | grep -vFxf "$west")" "$(tail -n +2 "$room/out" | grep -vFxf "$west")"
timeout 60 "$program" merge --in-turn examples/west.city.jsonl examples/east.city.jsonl >"$room/out" 2>"$room/errors"
expect 'west and east' '0||same' "$?|$(cat "$room/errors")|$(cmp "$room/out" "$both" && echo same)"
timeout 60 "$program" filter <"$room/out" >"$room/twice"
expect 'west and east, written once more' same "$(cmp "$room/out" "$room/twice" && echo same)"
for refused in 'off_grid|the translation is off the grid' 'other_reference_system|the reference system differs from tile 1'; do
    timeout 60 "$program" merge examples/west.city.jsonl "examples/${refused%%|*}.city.jsonl" >"$room/out" 2>"$room/errors"
    expect "west and ${refused%%|*}" "1||citymerge: tile 2 line 1: ${refused#*|}" "$?|$(cat "$room/out")|$(cat "$room/errors")"
done

# a document that is cut
document='{"type":"CityJSON","version":"2.0","transform":{"scale":[0.001,0.001,0.001],"translate":[0,0,0]},"CityObjects":{"b":{"type":"Building","children":["p1","p2"]},"p1":{"type":"BuildingPart","parents":["b"],"geometry":[{"type":"MultiPoint","lod":"1","boundaries":[3,1]}]},"p2":{"type":"BuildingPart","parents":["b"],"geometry":[{"type":"MultiPoint","lod":"1","boundaries":[1,0]}]}},"vertices":[[0,0,0],[1,1,1],[2,2,2],[3,3,3]]}'
cut='{"type":"CityJSONFeature","id":"b","CityObjects":{"b":{"type":"Building","children":["p1","p2"]},"p1":{"type":"BuildingPart","parents":["b"],"geometry":[{"type":"MultiPoint","lod":"1","boundaries":[0,1]}]},"p2":{"type":"BuildingPart","parents":["b"],"geometry":[{"type":"MultiPoint","lod":"1","boundaries":[1,2]}]}},"vertices":[[3,3,3],[1,1,1],[0,0,0]]}'
stream=$(printf '%s\n%s' "$header" "$cut")

# the document with a text of it changed, and what comes of it
changed() {
    printf '%s' "$document" | sed "s/$1/$2/" >"$room/in"
    answer cat
}
expect 'a document' "0|$stream|" "$(changed nothing nothing)"
expect 'a document over lines' "0|$stream|" "$(changed ',' ',\n')"
expect 'a document of no objects' "0|$header|" "$(printf '%s\n' "$header" >"$room/in"; answer cat)"
expect 'a missing child' '1||citymerge: tile 1: a child is missing' "$(changed '"p1","p2"' '"p1","p3"')"
expect 'an object in no feature' '1||citymerge: tile 1: a city object belongs to no feature' "$(changed '"p1","p2"' '"p1"')"
expect 'an index past the vertices' '1||citymerge: tile 1: a boundary index is wrong' "$(changed '3,1' '4,1')"
expect 'an index that is a text' '1||citymerge: tile 1: a boundary index is wrong' "$(changed '3,1' '"3",1')"
expect 'children that are a text' '1||citymerge: tile 1: the object is not a CityJSON object' "$(changed '\["p1","p2"\]' '"p1"')"
expect 'another version of a document' '1||citymerge: tile 1: the version is not 2.0' "$(changed '2\.0' '1.1')"
expect 'a vertex of two numbers' '1||citymerge: tile 1: a vertex is not three numbers' "$(changed '2,2,2' '2,2')"
expect 'a document cut short' '1||citymerge: tile 1: the line is not a JSON text' "$(changed ']]}' ']]')"
expect 'a document twice' '1||citymerge: tile 1: the line is not a JSON text' "$(printf '%s\n%s\n' "$document" "$document" >"$room/in"; answer cat)"
expect 'a stream for a document' '1||citymerge: tile 1: the line is not a JSON text' "$(printf '%s\n' "$stream" >"$room/in"; answer cat)"
expect 'a feature for a document' '1||citymerge: tile 1: the object is not a CityJSON object' "$(printf '%s\n' "$cut" >"$room/in"; answer cat)"
expect 'a blank document' '1||citymerge: tile 1: the stream has no header line' "$(printf ' \n' >"$room/in"; answer cat)"
expect 'no document' '1||citymerge: tile 1: the stream has no header line' "$(printf '' >"$room/in"; answer cat)"
timeout 60 "$program" cat <"$room" >"$room/out" 2>"$room/errors"
expect 'a document that cannot be read' '1||citymerge: tile 1: the tile could not be read' "$?|$(cat "$room/out")|$(cat "$room/errors")"
printf '%s\n' "$document" >"$room/in"
timeout 60 "$program" cat <"$room/in" >/dev/full 2>"$room/errors"
expect 'a document to a full device' '1|citymerge: the output could not be written' "$?|$(cat "$room/errors")"
timeout 60 "$program" cat <"$room/in" | cat >"$room/out"
printf '%s\n' "$stream" >"$room/wanted"
expect 'a document to a pipe' same "$(cmp "$room/out" "$room/wanted" && echo same)"

# the document as the first line of the file `begun`, a text of it changed, and these lines after it
begun() {
    old=$1
    new=$2
    shift 2
    { printf '%s\n' "$document" | sed "s/$old/$new/"; [ $# -eq 0 ] || printf '%s\n' "$@"; } >"$room/begun"
}

# filters such a stream of the document and one line, with these words
filtered() {
    begun "$1" "$2" "$3"
    shift 3
    cp "$room/begun" "$room/in"
    answer filter "$@"
}
expect 'a document before a line' "0|$(printf '%s\n' "$header" "$cut" "$one")|" "$(filtered nothing nothing "$one")"
expect 'a document before its own feature' "0|$(printf '%s\n' "$header" "$cut" "$cut")|" "$(filtered nothing nothing "$cut")"
expect 'a document by a type' "0|$(printf '%s\n' "$header" "$q")|" "$(filtered nothing nothing "$q" --cotype=Bridge)"
expect 'a document by a box' "0|$(printf '%s\n' "$header" "$cut")|" "$(filtered nothing nothing "$one" --bbox=3,3,9,9)"
expect 'a document that is first and at fault' '1||citymerge: tile 1 line 1: a child is missing' "$(filtered '"p1","p2"' '"p1","p3"' "$one")"
expect 'a document over lines in a stream' '1||citymerge: tile 1 line 1: the line is not a JSON text' "$(filtered ',' ',\n' "$one")"
expect 'a fault after a document' "1|$(printf '%s\n' "$header" "$cut")|citymerge: tile 1 line 2: the line is not a CityJSONFeature" "$(filtered nothing nothing "$header")"
printf '%s\n%s\n%s\n' "$header" "$one" "$document" >"$room/in"
expect 'a document among the features' "1|$(printf '%s\n' "$header" "$one")|citymerge: tile 1 line 3: the line is not a CityJSONFeature" "$(answer filter)"
printf '%s\n%s\n' "$header" "$one" | sed '1s/"vertices":\[\]/"vertices":[[0,0,0]]/' >"$room/in"
expect 'a header with a vertex' "0|$(printf '%s\n' "$header" "$one")|" "$(answer filter)"
moved_cut() {
    printf '%s' "$cut" | sed "s/\[\[3,3,3\],\[1,1,1\],\[0,0,0\]\]/$1/"
}
begun '"translate":\[0,0,0\]' '"translate":[1.5,0,0]' "$two"
mv "$room/begun" "$room/g"
begun '"translate":\[0,0,0\]\(.*\)\[0,0,0\]' '"translate":[0.001,0,0]\1[9007199254740991,0,0]' "$two" '{'
mv "$room/begun" "$room/h"
begun '"translate":\[0,0,0\]\(.*\)\[2,2,2\]' '"translate":[0.001,0,0]\1[9007199254740991,0,0]'
mv "$room/begun" "$room/i"
begun '3,1' '4,1' "$two"
mv "$room/begun" "$room/j"
for turns in '' --in-turn; do
    expect "a document as a tile $turns" "0|$(printf '%s\n' "$header" "$one" "$(moved_cut '[[1503,3,3],[1501,1,1],[1500,0,0]]')" "$far")|" "$(mixed $turns a g)"
    expect "a document that leaves the range $turns" "1|$(printf '%s\n' "$header" "$one")|citymerge: tile 2 line 1: a vertex number is out of range" "$(merged $turns a h)"
    expect "a vertex that is not used leaves the range $turns" "0|$(printf '%s\n' "$header" "$one" "$(moved_cut '[[4,3,3],[2,1,1],[1,0,0]]')")|" "$(mixed $turns a i)"
    expect "a tile that is a document at fault $turns" '1||citymerge: tile 2 line 1: a boundary index is wrong' "$(merged $turns a j d)"
done
expect 'a document in its turns' "0|$(printf '%s\n' "$header" "$cut" "$one" "$two" "$one" "$one")|" "$(begun nothing nothing "$two"; merged --in-turn begun c)"
tr -d '\r\n' <examples/town.city.json >"$room/town"
timeout 60 "$program" filter <"$room/town" >"$room/out" 2>"$room/errors"
expect 'town on one line' '0||same' "$?|$(cat "$room/errors")|$(cmp "$room/out" examples/town.expected.city.jsonl && echo same)"

# 2^28 bytes are read, and one more is too many
padded() {
    { printf '%s' "$document"; head -c $(($1 - ${#document})) /dev/zero | tr '\0' ' '; } | timeout 60 "$program" cat >"$room/out" 2>"$room/errors"
    printf '%s|%s|%s' "$?" "$(cat "$room/out")" "$(cat "$room/errors")"
}
expect 'a document of 2^28 bytes' "0|$stream|" "$(padded 268435456)"
expect 'a document of 2^28 bytes and one' '1||citymerge: tile 1: the line is too long' "$(padded 268435457)"
tr '\0' ' ' </dev/zero | timeout 60 "$program" cat >"$room/out" 2>"$room/errors"
expect 'a document without end' '|citymerge: tile 1: the line is too long' "$(cat "$room/out")|$(cat "$room/errors")"
head -c 60000000 /dev/zero | tr '\0' '[' >"$room/in"
expect 'no memory for a document' '1||citymerge: tile 1: there is not enough memory' "$(ulimit -v 40000; answer cat)"

# the bundled document, and what takes its stream
timeout 60 "$program" cat <examples/town.city.json >"$room/out" 2>"$room/errors"
expect 'town' '0||same' "$?|$(cat "$room/errors")|$(cmp "$room/out" examples/town.expected.city.jsonl && echo same)"
timeout 60 "$program" filter <"$room/out" >"$room/twice"
expect 'town, filtered' same "$(cmp "$room/out" "$room/twice" && echo same)"
timeout 60 "$program" merge --in-turn examples/west.city.jsonl "$room/out" >"$room/both" 2>"$room/errors"
expect 'west and town' "0||$(($(wc -l <examples/west.expected.city.jsonl) + 3))" "$?|$(cat "$room/errors")|$(wc -l <"$room/both")"
timeout 60 "$program" merge --in-turn "$room/out" >"$room/twice" 2>"$room/errors"
expect 'town, merged alone' same "$(cmp "$room/out" "$room/twice" && echo same)"

# What is large, so that nothing gives up by size: each input and what is wanted of it are made of the same numbers.

# runs the program with these words on the file `in`, and holds its output against the file `wanted`
comes_out() {
    what=$1
    shift
    timeout 60 "$program" "$@" <"$room/in" >"$room/out" 2>"$room/errors"
    expect "$what" '0||same' "$?|$(cat "$room/errors")|$(cmp "$room/wanted" "$room/out" && echo same)"
}

# the same of a filter of the file `in` and of both merges of it
comes_of_each() {
    comes_out "$1, filtered" filter
    comes_out "$1, merged" merge "$room/in"
    comes_out "$1, merged in turn" merge --in-turn "$room/in"
}

# items from standard input, a line each, with commas between them and no newline
listed() {
    paste -s -d , - | tr -d '\n'
}

printf '%s\n' "$header" >"$room/first"
empty='{"type":"CityJSONFeature","id":"a","CityObjects":{},"vertices":[]}'
{ printf '%s\n' "$header"; yes "$empty" | head -n 1100000; } >"$room/in"
cp "$room/in" "$room/wanted"
comes_of_each '1,100,000 features'

# a header with extensions of the numbers from $1 to $2
extended() {
    printf '%s,"extensions":{' "${header%\}}"
    seq "$1" "$2" | sed 's/.*/"E&":{"version":"&"}/' | listed
    printf '}}\n'
}
extended 1 20000 >"$room/in"
cp "$room/in" "$room/wanted"
comes_of_each '20,000 extensions'
extended 1 10000 >"$room/some"
extended 5001 20000 >"$room/more"
for turns in '' --in-turn; do
    comes_out "20,000 extensions of two tiles $turns" merge $turns "$room/some" "$room/more"
done

# Names that have one hash in a map of the standard library are told apart about as fast as others: each of these compared
# with all before it would take far more than ten seconds of a processor.
{
    printf '%s,"extensions":{' "${header%\}}"
    seq -f %08.0f 100000 | sed 's/.*/"of_one_hash_296eG$EoGp5v&_is_of_one_hash_":{}/' | listed
    printf '}}\n'
} >"$room/in"
for turns in '' --in-turn; do
    (ulimit -t 10; exec timeout 60 "$program" merge $turns "$room/in" >"$room/out" 2>"$room/errors")
    expect "100,000 extensions of one hash $turns" '0||same' "$?|$(cat "$room/errors")|$(cmp "$room/in" "$room/out" && echo same)"
done

# a word of 108,898 bytes, where the system takes 131,071, and many words
{ printf '%s\n' "$header"; seq 19999 20002 | sed 's/.*/{"type":"CityJSONFeature","id":"&","CityObjects":{"&":{"type":"&"}},"vertices":[]}/'; } >"$room/in"
head -n 3 "$room/in" >"$room/wanted"
comes_out '20,000 types' filter "--cotype=$(seq -s , 20000)"
comes_out '20,000 types of a merge' merge "--cotype=$(seq -s , 20000)" "$room/in"
expect '20,000 words' '1||citymerge: there are more than 64 tiles' "$(merged $(seq 20000))"
expect '20,000 words of no command' "2||error: unexpected argument '1' found" "$(first_lines cat $(seq 20000))"

# features of one object each, by number: in a document with a vertex each, and as they are cut
{
    printf '%s' "${header%%\"CityObjects\"*}"
    printf '"CityObjects":{'
    seq 100000 | sed 's/.*/"&":{"type":"Building","geometry":[{"type":"MultiPoint","lod":"1","boundaries":[&]}]}/' | listed
    printf '},"vertices":['
    seq 0 100000 | sed 's/.*/[&,2,3]/' | listed
    printf ']}\n'
} >"$room/in"
{
    printf '%s\n' "$header"
    seq 100000 | sed 's/.*/{"type":"CityJSONFeature","id":"&","CityObjects":{"&":{"type":"Building","geometry":[{"type":"MultiPoint","lod":"1","boundaries":[0]}]}},"vertices":[[&,2,3]]}/'
} >"$room/wanted"
comes_out 'a document of 100,000 features' cat
comes_out 'a first line of 100,000 features, filtered' filter
comes_out 'a first line of 100,000 features, merged' merge "$room/in"

# one object whose 100,000 parts come one after another, and one of which all are children
{
    printf '%s' "${header%%\"CityObjects\"*}"
    printf '"CityObjects":{'
    {
        printf '"0":{"type":"Building","children":["1"]}\n'
        seq 99999 | awk '{ printf "\"%d\":{\"type\":\"BuildingPart\",\"parents\":[\"%d\"],\"children\":[\"%d\"]}\n", $1, $1 - 1, $1 + 1 }'
        printf '"100000":{"type":"BuildingPart","parents":["99999"]}\n'
        printf '"b":{"type":"Building","children":['
        seq 200000 299999 | sed 's/.*/"&"/' | listed
        printf ']}\n'
        seq 200000 299999 | sed 's/.*/"&":{"type":"BuildingPart","parents":["b"]}/'
    } >"$room/objects"
    listed <"$room/objects"
    printf '},"vertices":[]}\n'
} >"$room/in"
{
    printf '%s\n{"type":"CityJSONFeature","id":"0","CityObjects":{' "$header"
    head -n 100001 "$room/objects" | listed
    printf '},"vertices":[]}\n{"type":"CityJSONFeature","id":"b","CityObjects":{'
    tail -n 100001 "$room/objects" | listed
    printf '},"vertices":[]}\n'
} >"$room/wanted"
comes_out 'families of 100,001 objects' cat
comes_out 'families of 100,001 objects on a first line' filter
cp "$room/wanted" "$room/in"
comes_of_each 'features of 100,001 objects'

# a feature with so many vertices
vertices_to() {
    printf '{"type":"CityJSONFeature","id":"a","CityObjects":{"a":{"type":"Road"}},"vertices":['
    seq "$1" "$2" | sed 's/.*/[&,2,-3]/' | listed
    printf ']}\n'
}
{ printf '%s\n' "$header"; vertices_to 1 2000001; } >"$room/in"
cp "$room/in" "$room/wanted"
comes_of_each 'a feature of 2,000,001 vertices'
{ moved_to 1.5; echo; vertices_to 1 1000001; } >"$room/moved"
{ printf '%s\n' "$header"; vertices_to 1501 1001501; } >"$room/wanted"
for turns in '' --in-turn; do
    comes_out "a feature of 1,000,001 vertices that are moved $turns" merge $turns "$room/first" "$room/moved"
done

# a number that is written otherwise than it is printed, among many: the feature is read as a value
vertices_to 1 100000 | sed 's/\[1,2,-3\]/[-0,2,-3]/' >"$room/uncommon"
{ printf '%s\n' "$header"; cat "$room/uncommon"; } >"$room/in"
{ printf '%s\n' "$header"; vertices_to 1 100000 | sed 's/\[1,2,-3\]/[0,2,-3]/'; } >"$room/wanted"
comes_of_each '100,000 vertices by their value'
{ moved_to 1.5; echo; cat "$room/uncommon"; } >"$room/moved"
{ printf '%s\n' "$header"; vertices_to 1501 101500 | sed 's/\[1501,2,-3\]/[1500,2,-3]/'; } >"$room/wanted"
comes_out '100,000 vertices by their value that are moved' merge "$room/first" "$room/moved"

# a document whose one feature has so many vertices, in the other order
{
    printf '%s' "${header%%\"CityObjects\"*}"
    printf '"CityObjects":{"a":{"type":"Road","geometry":[{"type":"MultiPoint","lod":"1","boundaries":['
    seq 199999 -1 0 | listed
    printf ']}]}},"vertices":['
    seq 0 199999 | sed 's/.*/[&,2,3]/' | listed
    printf ']}\n'
} >"$room/in"
{
    printf '%s\n{"type":"CityJSONFeature","id":"a","CityObjects":{"a":{"type":"Road","geometry":[{"type":"MultiPoint","lod":"1","boundaries":[' "$header"
    seq 0 199999 | listed
    printf ']}]}},"vertices":['
    seq 199999 -1 0 | sed 's/.*/[&,2,3]/' | listed
    printf ']}\n'
} >"$room/wanted"
comes_out 'a document with a feature of 200,000 vertices' cat
comes_of_each 'a first line with a feature of 200,000 vertices'

# a document of 1 MB, whose appearance stands in each of its features: lines of 68 MB in all
appearance=$(printf '"appearance":{"materials":[{"name":"%s"}]}' "$(head -c 6400 /dev/zero | tr '\0' m)")
{
    printf '%s' "${header%%\"CityObjects\"*}"
    printf '"CityObjects":{'
    seq 10500 | sed 's/.*/"&":{"type":"Road"}/' | listed
    printf '},"vertices":[],%s}\n' "$appearance"
} >"$room/in"
{
    printf '%s\n' "$header"
    seq 10500 | sed 's/.*/{"type":"CityJSONFeature","id":"&","CityObjects":{"&":{"type":"Road"}},"vertices":[],'"$appearance"'}/'
} >"$room/wanted"
comes_out 'a document whose lines have 68 MB' cat
comes_of_each 'a first line whose features have 68 MB'

# Memory is asked for by the lines, and not many times over: three lines of 20 MB come through the pipe `long_tile`, and
# once they are written, or after a second, the run says how much it has asked for at most, in KB. A thread alone takes
# some 140 MB of addresses.
mkfifo "$room/long_tile"
asked_for() {
    "$program" "$@" <"$room/long_tile" >"$room/out" 2>"$room/errors" &
    runs=$!
    {
        cat "$room/in"
        for _ in $(seq 10); do
            [ "$(wc -c <"$room/out")" -ge "$(wc -c <"$room/wanted")" ] && break
            sleep 0.1
        done
        awk '/^VmPeak/ { print $2 }' "/proc/$runs/status" >"$room/peak"
    } >"$room/long_tile"
    end_late $runs
    wait $runs
    printf '%s|%s|%s' "$?" "$(cmp "$room/wanted" "$room/out" && echo same)" "$([ "$(cat "$room/peak")" -lt 500000 ] && echo little)"
}
for _ in 1 2 3; do
    printf '{"type":"CityJSONFeature","id":"a","CityObjects":{},"vertices":[[1,2,3]],"holds":"'
    head -c 20000000 /dev/zero | tr '\0' a
    printf '"}\n'
done >"$room/long"
for moved in 0 1.5; do
    { moved_to $moved; echo; cat "$room/long"; } >"$room/in"
    cp "$room/in" "$room/wanted"
    [ $moved = 0 ] && expect 'the memory of a filter' '0|same|little' "$(asked_for filter)"
    { printf '%s\n' "$header"; cat "$room/long"; } >"$room/wanted"
    [ $moved = 0 ] || sed -i 's/\[\[1,2,3\]\]/[[1501,2,3]]/' "$room/wanted"
    for turns in '' --in-turn; do
        expect "the memory of a merge of a tile moved by $moved $turns" '0|same|little' "$(asked_for merge $turns "$room/first" "$room/long_tile")"
    done
done

# A tile in turn keeps little room of its longest line: each of twelve has one of 10 MB, or of 300,000 members, moved and
# not compact, and a short one.
for kind in text members; do
    {
        moved_to 1.5
        printf '\n{"type":"CityJSONFeature","id":"a","CityObjects":{},"vertices":[[1,2,3]], '
        case $kind in
        text) printf '"holds":"'; head -c 10000000 /dev/zero | tr '\0' a; printf '"' ;;
        members) seq 300000 | sed 's/.*/"n&":0/' | listed ;;
        esac
        printf '}\n%s\n' "$empty"
    } >"$room/long"
    (ulimit -v 130000; exec timeout 60 "$program" merge --in-turn "$room/first" $(yes "$room/long" | head -n 12) >"$room/out" 2>"$room/errors")
    expect "twelve tiles with a long line of $kind in 130000 KB" '0||25' "$?|$(cat "$room/errors")|$(wc -l <"$room/out")"
done

# While the output is quiet, a merge reads as many texts as it holds and no more: of a file of lines of 100 KB, this
# far, a second after it has read so many at least. Of its output nobody takes a byte; a pipe and a buffer hold 128 KB.
read_of() {
    least=$1
    shift
    "$program" merge "$@" "$room/in" >"$room/stalled" 2>"$room/errors" &
    runs=$!
    exec 4<"$room/stalled"
    for _ in $(seq 40); do
        sleep 0.5
        [ "$(lines_read)" -lt "$least" ] || break
    done
    sleep 1
    now=$(lines_read)
    exec 4<&-
    end_late $runs
    wait $runs
    printf '%s' "$now"
}

# how many lines of the file `in` the run has read
lines_read() {
    for tile in /proc/$runs/fd/*; do
        [ "$tile" -ef "$room/in" ] && awk '/^pos/ { print int($2 / 100000) }' "/proc/$runs/fdinfo/${tile##*/}" && return
    done
    echo 0
}
mkfifo "$room/stalled"
{
    printf '%s\n{"type":"CityJSONFeature","id":"a","CityObjects":{},"vertices":[],"holds":"' "$header"
    head -c 99900 /dev/zero | tr '\0' a
    printf '"}\n'
} >"$room/one"
{ cat "$room/one"; for _ in $(seq 150); do tail -n 1 "$room/one"; done; } >"$room/in"
ahead=$(read_of 64)
expect "what is read ahead with threads, $ahead lines" 'enough and not too much' "$([ "$ahead" -ge 64 ] && [ "$ahead" -le 69 ] && echo 'enough and not too much')"
ahead=$(read_of 1 --in-turn)
expect "what is read ahead in turn, $ahead lines" 'enough and not too much' "$([ "$ahead" -ge 1 ] && [ "$ahead" -le 9 ] && echo 'enough and not too much')"

# Memory that ends before the run begins: while the words are gathered, or where the output gets its buffer. Which of
# them it is depends on the length of a word. A limit so low that the program is not loaded shows nothing.
printf '%s\n' "$header" >"$room/in"
printf 'citymerge: there is not enough memory\n' >"$room/of_no_line"
printf 'citymerge: tile 1 line 1: there is not enough memory\n' >"$room/of_a_line"
for length in 24000 32000 56000; do
    word=$(head -c $length /dev/zero | tr '\0' A)
    told=
    seen=
    for most in $(seq 2000 16 6000); do
        (ulimit -v "$most"; exec "$program" filter --exclude "--cotype=$word" <"$room/in" >"$room/out" 2>"$room/errors") 2>"$room/ignored"
        case $? in
        0) cmp -s "$room/in" "$room/out" && [ ! -s "$room/errors" ] || seen="$seen done wrongly in $most KB" ;;
        1) if cmp -s "$room/errors" "$room/of_no_line" && [ ! -s "$room/out" ]; then
            told=told
        else
            cmp -s "$room/errors" "$room/of_a_line" && [ ! -s "$room/out" ] || seen="$seen refused wrongly in $most KB"
        fi ;;
        esac
    done
    expect "memory that ends with a word of $length letters" told "$told$seen"
done

# Memory that ends while the threads of a merge are started, each with a stack of 8 MB and a choice of 12,000 types of its
# own: the merge is done, or refused before a byte is written, or a tile ends at a line for which there is no room.
for _ in $(seq 8); do printf '%s ' "$room/short"; done >"$room/eight"
{ printf '%s\n' "$header"; printf '%s\n' "$a"; } >"$room/short"
{ printf '%s\n' "$header"; yes "$a" | head -n 8; } >"$room/wanted"
word="Building,$(seq -f 'A%g' -s , 12000)"
started() {
    (ulimit -s 8192; ulimit -v "$1"; exec timeout 20 "$program" merge "--cotype=$word" $(cat "$room/eight") >"$room/out" 2>"$room/errors") 2>"$room/ignored"
    case "$?|$(cat "$room/errors")" in
    '0|') cmp -s "$room/wanted" "$room/out" && echo done || echo "done wrongly in $1 KB" ;;
    '1|citymerge: there is not enough memory') [ -s "$room/out" ] && echo "written in $1 KB" || echo memory ;;
    '1|citymerge: tile '[1-8]': a thread could not be started') [ -s "$room/out" ] && echo "written in $1 KB" || echo thread ;;
    '1|citymerge: tile '[1-8]' line '[12]': there is not enough memory') echo line ;;
    *) echo "ended wrongly in $1 KB" ;;
    esac
}
seen=$(for most in $(seq 4000 500 90000); do started "$most"; done | sort -u | grep -v '^line$' | tr '\n' ' ')
expect 'memory that ends while threads are started' 'done memory thread ' "$seen"

# The deepest values in a stack of 128 KiB, which each thread of a merge has, too: lines that are written as they are, a
# line that is refused, a document that is cut.
nested="$(printf '[%.0s' $(seq 124))$(printf ']%.0s' $(seq 124))"
deep="{\"type\":\"CityJSONFeature\",\"id\":\"d\",\"CityObjects\":{\"d\":{\"type\":\"Building\",\"attributes\":{\"n\":$nested}}},\"vertices\":[[1,2,3]]}"
{ printf '%s\n' "$header"; printf '%s\n' "$deep"; } >"$room/deep"
{ printf '%s\n' "$header"; printf '%s\n' "$deep" | sed 's/3\]\]}$/3.0]]}/'; } >"$room/deep_refused"
printf '%s\n' "$header" | sed 's/"CityObjects":{}/"CityObjects":{"d":{"type":"Building","attributes":{"n":'"$nested"'}}}/' >"$room/deep_document"
printf '%s\n%s\n' "$header" "$deep" | sed 's/\[\[1,2,3\]\]/[]/' >"$room/deep_cut"
in_small_stack() {
    (ulimit -s 128; exec env -i "$program" "$@") >"$room/out" 2>"$room/errors"
    echo "$?|$(cat "$room/errors")"
}
expect 'the deepest line in a small stack' '0|' "$(in_small_stack filter <"$room/deep")$(cmp "$room/deep" "$room/out")"
expect 'the deepest refused line in a small stack' '1|citymerge: tile 1 line 2: a vertex number is not written as a whole number' "$(in_small_stack filter <"$room/deep_refused")"
for command in cat filter; do
    expect "the deepest document of $command in a small stack" '0|' "$(in_small_stack $command <"$room/deep_document")$(cmp "$room/deep_cut" "$room/out")"
done
for order in '' --in-turn; do
    expect "a merge $order of the deepest lines in small stacks" '1|citymerge: tile 2 line 2: a vertex number is not written as a whole number' "$(in_small_stack merge $order "$room/deep" "$room/deep_refused")$(cmp "$room/deep" "$room/out")"
done

# An appearance that each of 200 features bears is held once, whoever cuts the document: its stream has 200 MB.
{
    printf '%s' "$header" | sed 's/"CityObjects".*//'
    printf '"CityObjects":{"b0":{"type":"Building"}'
    for number in $(seq 199); do printf ',"b%s":{"type":"Building"}' "$number"; done
    printf '},"vertices":[[0,0,0]],"appearance":{"textures":["'
    head -c 1000000 /dev/zero | tr '\0' a
    printf '"]}}\n'
} >"$room/textured"
in_little_memory() {
    (ulimit -v 150000; exec timeout 60 "$program" "$@") 2>"$room/errors" |
        awk '{ ends += substr($0, length($0) - 5) == "aa\"]}}" && length($0) > 1000000 } END { printf "%d features of %d lines", ends, NR }'
    cat "$room/errors"
}
for command in cat filter; do
    expect "$command, 200 features with a large appearance" '200 features of 201 lines' "$(in_little_memory $command <"$room/textured")"
done
for order in '' --in-turn; do
    expect "merge $order, 200 features with a large appearance" '200 features of 201 lines' "$(in_little_memory merge $order "$room/textured")"
done

# Features that share objects are made one at a time: those of a chain of 2,000 objects, each the child of the one before,
# have some 70 MB.
{
    printf '%s"CityObjects":{' "${header%%\"CityObjects\"*}"
    seq 1999 | awk '{ printf "\"%d\":{\"type\":\"Road\",\"children\":[\"%d\"]},", $1, $1 + 1 }'
    printf '"2000":{"type":"Road"}},"vertices":[[0,0,0]]}\n'
} >"$room/chained"
# Those of 4,000 objects that all name the same 200 long vertices have some 50 MB.
{
    printf '%s"CityObjects":{' "${header%%\"CityObjects\"*}"
    boundaries=$(seq -s , 0 199)
    seq 4000 | sed 's/.*/"&":{"type":"Road","geometry":[{"type":"MultiPoint","lod":"1","boundaries":['"$boundaries"']}]}/' | listed
    printf '},"vertices":['
    seq -f %03.0f 200 | sed 's/.*/[900000000000&,900000000000&,900000000000&]/' | listed
    printf ']}\n'
} >"$room/long_vertices"
made() {
    (ulimit -v 30000; exec timeout 60 "$program" "$@") 2>"$room/errors" |
        awk '{ objects += gsub(/"type":"Road"/, "") } END { printf "%d objects in %d lines", objects, NR }'
    cat "$room/errors"
}
while read -r shape wanted; do
    expect "cat, features of a document: $shape" "$wanted" "$(made cat <"$room/$shape")"
    expect "filter, features of a document: $shape" "$wanted" "$(made filter <"$room/$shape")"
    expect "merge in turn, features of a document: $shape" "$wanted" "$(made merge --in-turn "$room/$shape")"
done <<END
chained 2001000 objects in 2001 lines
long_vertices 4000 objects in 4001 lines
END

counted 'The program at its edges'
