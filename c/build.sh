#!/bin/sh
# Builds target/c: the proved library as libzulqenat.a and libzulqenat.so with its header, and the program zulqenat over it.
set -e
cd "$(dirname "$0")/.."
mkdir -p target/c
tools/static_library.sh zulqenat
cp target/staticlib/libzulqenat.a c/zulqenat.h target/c/
cc -shared -o target/c/libzulqenat.so -Wl,--whole-archive target/c/libzulqenat.a -Wl,--no-whole-archive
cc -std=c11 -pedantic -O2 -Wall -Wextra -Werror -Ic -o target/c/zulqenat c/program/*.c target/c/libzulqenat.a
