#!/bin/sh
# The C calls of c/zulqenat.h, as a static and as a shared library: on the vectors' plays and on damaged books and games, under valgrind and
# under the sanitizers; what the libraries export; the program that the header shows; and the header by itself. First: c/build.sh
set -e
cd "$(dirname "$0")/.."
archive=target/c/libzulqenat.a
shared=target/c/libzulqenat.so
built=target/c_calls
strict="-pedantic -Wall -Wextra -Werror -Ic"
parts="tests/c_acts.c tests/c_form.c tests/c_bytes.c tests/c_right.c"
mkdir -p $built

# NAME FLAG..: compiles both drivers with these flags and libraries
compile() {
    name=$1
    shift
    for driver in vectors damaged; do
        cc -std=c11 $strict -o "$built/${name}_$driver" "tests/c_$driver.c" $parts "$@"
    done
}

# NAME DRIVER COMMAND..: runs the command, whose last line is printed, and all of them where it fails
logged() {
    log="$built/$1_$2.log"
    echo "$1, $2:"
    shift 2
    "$@" >"$log" 2>&1 || { cat "$log"; exit 1; }
    tail -n 1 "$log"
}

# NAME SHARE PREFIX..: runs both drivers with words in front, the one on damaged books on every SHARE-th line
run() {
    name=$1
    share=$2
    shift 2
    logged "$name" vectors "$@" "$built/${name}_vectors" tests/plays.in tests/plays.out tests/papers.in tests/papers.out
    logged "$name" damaged "$@" "$built/${name}_damaged" "$share" <crates/book_vectors/stdin
}

compile sanitized -g -O1 -fsanitize=address,undefined -fno-sanitize-recover=all $archive
run sanitized 1
cat $built/sanitized_vectors.log $built/sanitized_damaged.log
compile shared -O2 $shared
run shared 1 env LD_LIBRARY_PATH=target/c
compile valgrind -g -O1 $archive
run valgrind 6 valgrind --quiet --error-exitcode=1 --leak-check=full

# WORD..: the library that nm is asked about with these words exports the calls of the header and nothing else
exports() {
    found=$(nm "$@" | awk 'NF == 3 { print $3 }' | sort -u)
    [ "$found" = "$calls" ] || { printf 'nm %s tells of other names than the header:\n%s\n' "$*" "$found"; exit 1; }
}

calls=$(grep -o 'zulqenat_[a-z_]*(' c/zulqenat.h | tr -d '(' | sort -u)
[ -n "$calls" ] || { echo "no calls in the header"; exit 1; }
exports -g --defined-only $archive
exports -D --defined-only $shared

# PROGRAM: the program that the header shows prints what T3's book comes to
shown() {
    found=$("$1" <examples/t3.book)
    [ "$found" = "round 1: 2 passes, 0 marks
round 2: 2 passes, 1 marks
round 3: 1 passes, 0 marks" ] || { printf '%s prints:\n%s\n' "$1" "$found"; exit 1; }
}

sed -n '/A whole program:/,/Every call returns/p' c/zulqenat.h | sed -e '1,2d' -e '$d' -e 's/^ \*     //' -e 's/^ \*$//' |
    sed '${/^$/d}' >$built/example.c
cc -std=c11 $strict -o $built/example $built/example.c $archive
shown $built/example
sed -n '/^```c$/,/^```$/p' README.md | sed -e '1d' -e '$d' | cmp - $built/example.c || { echo "README shows another program"; exit 1; }
printf '#include "zulqenat.h"\n#include "zulqenat.h"\n' >$built/header.c
cc -std=c11 $strict -fsyntax-only $built/header.c
if command -v g++ >/dev/null; then
    g++ -std=c++11 $strict -fsyntax-only -x c++ $built/header.c
    g++ -std=c++11 $strict -o $built/example_cpp -x c++ $built/example.c -x none $archive
    shown $built/example_cpp
else
    echo "no g++: the header is not tried as C++"
fi
echo "the C calls: all is well"
