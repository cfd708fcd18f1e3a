#!/bin/sh
# static_library.sh NAME: proves the static library NAME of crates/ and writes target/staticlib/libNAME.a.
set -e
[ -n "$1" ] || { echo "usage: static_library.sh NAME" >&2; exit 2; }
root=$(CDPATH= cd -- "$(dirname "$0")/.." && pwd)
mkdir -p "$root/target/staticlib"
(cd "$root/crates/$1" && rt lib) >"$root/target/staticlib.log" 2>&1 || { cat "$root/target/staticlib.log"; exit 1; }
cp "$root/crates/$1/out/lib$1.a" "$root/target/staticlib/"
