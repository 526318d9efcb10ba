#!/usr/bin/env bash
# What the programs do where standard output takes nothing: a full device, or none at all. Each ends, with one line on standard error. Run after rt ci, which
# builds them.
set -uo pipefail
cd "$(dirname "$0")/.." || exit 2
message='cannot write: standard output'
failed=0

# checked PROGRAM HOW SAID: what it said on standard error.
checked() {
    if [ "$3" != "$message" ]; then
        echo "$1, $2: standard error has '$3' for '$message'"
        failed=1
    fi
}

for program in jsxtape jsxseries replay; do
    folder=crates/$program/data
    [ -d "$folder" ] || folder=crates/$program
    bin=$PWD/crates/$program/out/$program input=$PWD/crates/$program/stdin
    [ -f "$input" ] || input=/dev/null
    checked "$program" 'a full device' "$(cd "$folder" && timeout 60 "$bin" < "$input" 2>&1 > /dev/full)"
    checked "$program" 'no output' "$(cd "$folder" && timeout 60 "$bin" < "$input" 2>&1 >&-)"
done
exit "$failed"
