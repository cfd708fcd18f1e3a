#!/bin/sh
# All tests: the gate, then the program that runs scripts on long ones, a model of rounds on the plays of both files, the program that plays
# a book on the example books and on refused ones, what a play cuts off, the compiled relation test, the C program on the example books and
# the C call on the vectors and on damaged books, the C calls on kept games on the vectors and on damaged books and games, and the command
# line program, under the sanitizers too.
set -e
cd "$(dirname "$0")/.."
.ci/run
examples/program.sh rounds
examples/program.sh game_vectors
tests/long_scripts.py
tests/round_model.py tests/plays.in tests/plays.out
tests/round_model.py tests/papers.in tests/papers.out
tests/listings.py
lost=$(examples/cut_off.sh examples/hoard.book | tr '\n' ';')
echo "hoard.book: $lost"
expected="round 1 cut off 0;round 2 cut off 0;round 3 cut off 200000;round 4 cut off 400000;round 5 cut off 0;in all 600000;"
[ "$lost" = "$expected" ] || { echo "expected: $expected"; exit 1; }
[ "$(examples/cut_off.sh examples/endless.book || true)" = "refused 7 1" ] || { echo "endless.book is not refused"; exit 1; }
tests/branchless.sh
examples/build.sh
told() {
    status=0
    found=$(target/check_book "examples/$1.book") || status=$?
    echo "$1.book: $found"
    [ "$found" = "$3" ] && [ "$status" = "$2" ] || { echo "expected, with status $2: $3"; exit 1; }
}
for name in t3 t5 t9 factions hoard; do
    told "$name" 0 "accepted"
done
told forgotten 0 "accepted
routine 2 is never started
routine 3 is never started"
told endless 1 "refused 7 1: a while's body does not pause"
told wrong_step 1 "refused 5 2: a step has an unknown op, a field out of range or a stray field"
tests/damaged_books.sh
c/build.sh
tests/c_calls.sh
tests/command_line.py
cc -std=c11 -g -O1 -fsanitize=address,undefined -fno-sanitize-recover=all -Ic -o target/c/sanitized c/program/*.c target/c/libzulqenat.a
tests/command_line.py target/c/sanitized
target/c/sanitized site
for book in examples/*.book; do
    listing=$(target/c/zulqenat play "$book" 2>target/c/told || true)
    [ "$listing" = "$(examples/play.sh "$book")" ] || { echo "$book: zulqenat and rounds print different listings"; exit 1; }
done
tests/site.sh
echo "all tests passed"
