#!/bin/sh
# Runs a command, and says every half minute that it is still at work.
# Use: tools/at_work.sh WHAT COMMAND [WORD..]
what=$1
shift

tell() {
    minutes=0
    while :; do
        sleep 30 >/dev/null 2>&1
        echo "   .. still at work: $what ($minutes min 30 s)" >&2
        minutes=$((minutes + 1))
        sleep 30 >/dev/null 2>&1
        echo "   .. still at work: $what ($minutes min)" >&2
    done
}

tell &
teller=$!
trap 'kill "$teller" 2>/dev/null' EXIT
trap 'exit 130' INT
trap 'exit 143' TERM

"$@"
