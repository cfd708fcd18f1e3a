#!/bin/sh
# check.sh FILE: builds the C program if it is not there or older than a source, and says whether the file is a book that is accepted.
set -e
root=$(dirname "$0")/..
program=$root/target/check_book
if [ ! -x "$program" ] || [ -n "$(find "$root/crates" "$root/crates.txt" "$root/examples" -newer "$program")" ]; then
    "$root/examples/build.sh"
fi
exec "$program" "$@"
