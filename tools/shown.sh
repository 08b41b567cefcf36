#!/bin/sh
# Prints the end of what rt said into a log, without its lines on what went well: shown.sh LOG
grep -vE ': proved|^statements|^logic |^checked|^by-macro' "$1" | tail -n 40
