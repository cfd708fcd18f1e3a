#!/bin/sh
# play.sh FILE: plays the book in the file with the program `rounds`, which is built first where that is needed.
set -e
[ -r "$1" ] || { echo "usage: play.sh FILE" >&2; exit 2; }
program=$("$(dirname "$0")/program.sh" rounds)
exec "$program" <"$1"
