#!/bin/sh
# Builds target/check_book from the proved static library.
set -e
cd "$(dirname "$0")/.."
mkdir -p target
tools/static_library.sh book_c
cc -std=c11 -O2 -Wall -Wextra -Werror -o target/check_book examples/check_book.c target/staticlib/libbook_c.a
