# Read in by the scripts that try the built program: what is wanted is held against what there is, and counted.
# A folder `room` of their own is theirs until they end.
room=$(mktemp -d)
trap 'rm -rf "$room"' EXIT
passed=0
failed=0

# what is wanted, and what there is
expect() {
    if [ "$2" = "$3" ]; then
        passed=$((passed + 1))
    else
        failed=$((failed + 1))
        printf 'FAILED: %s\n  wanted: %s\n  got:    %s\n' "$1" "$2" "$3"
    fi
}

# the count, under this name, and the status that it gives
counted() {
    echo "$1: $passed right, $failed wrong"
    [ "$failed" -eq 0 ]
}
