#!/bin/sh
# Prints how many checks, or jobs of one check, go side by side: one a processor, with 4 GB of memory for each. Most take 1
# to 3 GB; `make test` tells the largest. Left to itself, rt reckons with more.
room=$(($(awk '/^MemAvailable/ { print $2 }' /proc/meminfo) / 4000000))
lanes=$(nproc)
[ "$lanes" -le "$room" ] || lanes=$room
[ "$lanes" -ge 1 ] || lanes=1
echo "$lanes"
