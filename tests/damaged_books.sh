#!/bin/sh
# The C calls on every vector, against what its line expects, and on some thousand damaged books, all under valgrind:
# no error, and every call returns. First: examples/build.sh
set -e
cd "$(dirname "$0")/.."
cc -std=c11 -g -O1 -Wall -Wextra -Werror -o target/damaged_books tests/damaged_books.c target/staticlib/libbook_c.a
valgrind --quiet --error-exitcode=1 --leak-check=full target/damaged_books <crates/book_vectors/stdin
echo "no error"
