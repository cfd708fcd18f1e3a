#!/bin/sh
# program.sh NAME: builds the program NAME of crates/ if it is not there or older than a source, and prints where it is.
set -e
[ -n "$1" ] || { echo "usage: program.sh NAME" >&2; exit 2; }
root=$(CDPATH= cd -- "$(dirname "$0")/.." && pwd)
program=$root/target/bin/$1
if [ ! -x "$program" ] || [ -n "$(find "$root/crates" "$root/crates.txt" -newer "$program")" ]; then
    mkdir -p "$root/target/bin"
    (cd "$root/crates/$1" && rt run </dev/null >"$root/target/$1.log" 2>&1) || { cat "$root/target/$1.log" >&2; exit 1; }
    cp "$root/crates/$1/out/$1" "$program"
fi
echo "$program"
