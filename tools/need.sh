#!/bin/sh
# Says which of the named commands are missing, and where each comes from. Status 1 if any is.
missing=0
for name in "$@"; do
    command -v "$name" >/dev/null 2>&1 && continue
    missing=1
    case $name in
    rt) echo "missing: rt, the command of the Rattle kit; put the kit's folder bin on PATH" >&2 ;;
    cc) echo "missing: cc; on Debian: apt-get install gcc libc6-dev" >&2 ;;
    *) echo "missing: $name; on Debian: apt-get install $name" >&2 ;;
    esac
done
exit $missing
