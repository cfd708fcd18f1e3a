#!/bin/sh
# The program's command site: all is ok with the proved library; damaged records are told as what they are; and with a library that is wrong
# in one respect (tests/wrong_library.c) just the lines fail that should. First: c/build.sh
set -e
cd "$(dirname "$0")/.."
library=target/c/libzulqenat.a
folder=target/site
mkdir -p $folder
sound=$folder/sound.record
damaged=$folder/damaged.record

# STATUS PROGRAM WORD..: runs the program's command site; what it prints goes to found, and it must exit with the status.
run() {
    wanted=$1
    program=$2
    shift 2
    status=0
    "$program" site "$@" >$folder/found 2>$folder/errors || status=$?
    [ "$status" = "$wanted" ] || { cat $folder/found $folder/errors; echo "site $*: status $status, expected $wanted"; exit 1; }
}

# COUNT: of COUNT lines that were printed, just those failed that stand on standard input, each with its number in front; the others are ok.
compare() {
    cat >$folder/expected
    sed -n 's/^\([1-5]\)\. [^:]*: failed: /\1 /p' $folder/found >$folder/failed
    diff $folder/expected $folder/failed || { echo "expected the lines marked < to fail"; exit 1; }
    told=$(grep -c -e '^[1-5]\. [^:]*: ok$' -e '^[1-5]\. [^:]*: failed: ' $folder/found)
    [ "$told" = "$1" ] || { cat $folder/found; echo "expected $1 lines, ok or failed"; exit 1; }
}

# LINE: the last line that was printed must be this one.
last_line() {
    [ "$(tail -n 1 $folder/found)" = "$1" ] || { cat $folder/found; echo "expected at the end: $1"; exit 1; }
}

nothing="5. two benches agree: nothing was compared;"
run 0 target/c/zulqenat
compare 4 </dev/null
last_line "$nothing write a record at one bench by zulqenat site --record FILE, and compare at the other by zulqenat site --against FILE"
run 0 target/c/zulqenat --record $sound
compare 4 </dev/null
last_line "$nothing the record is in $sound; compare at the other bench by zulqenat site --against $sound"
run 0 target/c/zulqenat --against $sound
compare 5 </dev/null
cat $folder/found

# Wrong use.
run 2 target/c/zulqenat --record $damaged --against $sound
run 2 target/c/zulqenat --record
run 2 target/c/zulqenat unknown
run 2 target/c/zulqenat --against $folder/no_such_file
run 2 target/c/zulqenat --record $folder/no_such_folder/file

# The record has all that the plays have to bring: the ops of the books' steps, the stages, and the kinds of orders, refused ones and more.
ops=$(awk '/^book / {
    routines = index("0123456789abcdef", substr($2, 2, 1)) - 1
    for (at = 25 + 8 * routines; at < length($2); at += 16) print substr($2, at, 2)
}' $sound | sort -u | tr '\n' ' ')
[ "$ops" = "00 01 02 03 04 05 06 07 08 09 0a 0b 0c 0d 0e 0f 10 11 12 13 14 " ] || { echo "ops of the plays: $ops"; exit 1; }
standings=$(awk '/^stored game / {
    routines = index("0123456789abcdef", substr($3, 6, 1)) - 1
    for (routine = 0; routine < routines; routine++) print substr($3, 29 + 16 * routine, 4)
}' $sound | sort -u | tr '\n' ' ')
for standing in 0000 0101 0200 0202 0300 0400; do
    case $standings in
    *"$standing "*) ;;
    *) echo "no routine has stage and flags $standing: $standings"; exit 1 ;;
    esac
done
for line in 'order .*, broadcast signal ' 'order .*, start routine ' 'order .*, stop routine ' 'order .*, suspend routine ' \
    'order .*, resume routine ' 'order .*, kind 5 (unknown), number ' 'verdict 8 0$' 'marks .*, ' 'cut-off total [1-9]'; do
    grep -q "^$line" $sound || { echo "no line of the record begins with: $line"; exit 1; }
done

# NAME SED: the record, changed so, is compared with; what is told stands on standard input.
damage() {
    sed "$2" $sound >$damaged
    ! cmp -s $sound $damaged || { echo "$1: the record is as before"; exit 1; }
    run 1 target/c/zulqenat --against $damaged
    compare 5
    echo "$1: $(cut -c 3- $folder/failed)"
}
# Parts of the record, for sed, and how an order is told.
in_both_ways='/^play signals both ways$/,/^play absent/'
at_its_end='/^play counters at their ends$/,/^play orders/'
in_orders='/^play orders and refused orders$/,$'
order_1='play "orders and refused orders", order 1, in front of round 1, kind 5 (unknown), number 0'
order_6='play "orders and refused orders", order 6, in front of round 3, start routine 2'

damage "a changed pass count" "$in_both_ways s/^passes 1\$/passes 4/" <<'EXPECTED'
5 play "signals both ways", round 1, passes: the other bench had 4; this one has 1
EXPECTED
damage "a changed mark" "$in_both_ways s/^marks 1 5\$/marks 1 -5/" <<'EXPECTED'
5 play "signals both ways", round 2, marks (routine and number): the other bench had 1 -5; this one has 1 5
EXPECTED
damage "a changed cut-off total" "$at_its_end s/^cut-off total 500000\$/cut-off total 500001/" <<'EXPECTED'
5 play "counters at their ends", round 2, cut-off total: the other bench had 500001; this one has 500000
EXPECTED
damage "a changed verdict" "$in_orders s/^verdict 8 0\$/verdict 0 0/" <<EXPECTED
5 $order_1, verdict (number and place): the other bench had 0 0; this one has 8 0
EXPECTED
damage "a stored game without its last byte" "$in_orders { /^order 6,/,/^order 7,/ s/^\(stored game.*\)..\$/\1/; }" <<EXPECTED
5 $order_6, stored game: the other bench had 56 bytes; this one has 57
EXPECTED

# The same stored game, of three routines and a counter, with two routines listed and one to start: a byte in each part of it.
parts=0
while read -r byte part; do
    sed "$in_orders { /^order 6,/,/^order 7,/ s/^\(stored game .\{$((2 * byte))\}\)../\1fe/; }" $sound >$damaged
    run 1 target/c/zulqenat --against $damaged
    grep -q "^5\. .*, order 6, .*, stored game, byte $byte, in $part: the other bench had 254; this one has [0-9]*\$" $folder/found ||
        { cat $folder/found; echo "expected byte $byte in $part"; exit 1; }
    parts=$((parts + 1))
done <<'PARTS'
0 the form's number
2 the count of routines
4 the count of signals
6 the count of counters
8 the offset of the records
10 the offset of the counters
13 the offset of the lists
14 the stage of routine 0
23 the flags of routine 1
33 the place of routine 2
37 the count left of routine 2
38 counter 0
41 counter 0
42 the count of the playing order
45 the playing order
46 the count of the routines to start
48 the routines to start
49 the signals to broadcast
56 the signals to broadcast
PARTS
echo "a changed byte in each of $parts places of a stored game: $(sed -n 's/^5.*failed: //p' $folder/found)"

lines=$(wc -l <$sound)
damage "a missing last line" '$d' <<EXPECTED
5 $damaged is cut short: line $lines is missing
EXPECTED
damage "a line too many" '$a\
round 8' <<EXPECTED
5 $damaged has lines too many, from line $((lines + 1)) on
EXPECTED
damage "another first line" '1 s/1/2/' <<EXPECTED
5 $damaged is no record: its first line is not "zulqenat site record 1"
EXPECTED
damage "an empty file" 'd' <<EXPECTED
5 $damaged is no record: its first line is not "zulqenat site record 1"
EXPECTED
damage "an order that is not there" "/^order 1,/ d" <<EXPECTED
5 line $(sed -n '/^order 1,/ {=;q;}' $sound) of $damaged is not what a record of these plays has there
EXPECTED
damage "a pass count that is no number" "$in_both_ways s/^passes 1\$/passes x/" <<EXPECTED
5 line $(sed -n "$in_both_ways { /^passes 1\$/ {=;q;}; }" $sound) of $damaged is not what a record of these plays has there
EXPECTED
printf %s "$(cat $sound)" >$damaged
run 1 target/c/zulqenat --against $damaged
compare 5 <<EXPECTED
5 $damaged is cut short: line $lines is not whole
EXPECTED
echo "a last line without its end: $(cut -c 3- $folder/failed)"

rm -f $folder/*.o
(cd $folder && cc -std=c11 -O1 -I../../c -c ../../c/program/*.c)

# RESPECT: builds the program over a library that is wrong in this respect.
build() {
    cc -std=c11 -pedantic -O1 -Wall -Wextra -Werror -Ic -Ic/program -DWRONG="$1" -Wl,--wrap=zulqenat_check_book -Wl,--wrap=zulqenat_order \
        -Wl,--wrap=zulqenat_play -Wl,--wrap=print_book_refusal -o $folder/wrong tests/wrong_library.c $folder/*.o $library
}

# RESPECT: the lines that fail with this wrong library, compared with the sound one's record, stand on standard input.
wrong() {
    build "$1"
    run 1 $folder/wrong --against $sound
    compare 5
    echo "$1: $(sed -n '/: failed: / {p;q;}' $folder/found)"
    seen=$((seen + 1))
}

build NOTHING
run 0 $folder/wrong --against $sound
compare 5 </dev/null

seen=0
wrong RESUME_COMES_LAST <<'EXPECTED'
4 play "suspended by order", round 3: expected marks none; found 1 4
5 play "suspended by order", round 3, marks (routine and number): the other bench had none; this one has 1 4
EXPECTED
order_2='play "suspended by order", order 2, in front of round 3, resume routine 1'
wrong FIRST_ORDER_COUNTS <<EXPECTED
4 play "suspended by order", round 6: expected marks none; found 1 4
5 $order_2, stored game, byte 23, in the flags of routine 1: the other bench had 24; this one has 8
EXPECTED
wrong SUSPENDED_FOR_A_ROUND <<'EXPECTED'
4 play "suspended by order", round 4: expected marks none; found 1 4
5 play "suspended by order", round 4, marks (routine and number): the other bench had none; this one has 1 4
EXPECTED
wrong RESUME_REFUSED <<EXPECTED
4 $order_2: expected accepted; found refused 8 0
5 $order_2, verdict (number and place): the other bench had 0 0; this one has 8 0
EXPECTED
# In round 1 of "later signal" the signal is absent too.
wrong WAITER_ACTS <<'EXPECTED'
2 play "later signal", round 1: expected marks none; found 0 7
3 play "absent signals", round 1: expected marks none; found 0 7
5 play "later signal", round 1, marks (routine and number): the other bench had none; this one has 0 7
EXPECTED
wrong WAITER_STAYS <<'EXPECTED'
2 play "later signal", round 2: expected marks 0 7; found none
5 play "later signal", round 2, passes: the other bench had 2; this one has 3
EXPECTED
wrong WAITER_BEHIND_ITS_WAIT <<'EXPECTED'
2 play "later signal", round 1: expected routine 0 rested at place 1; found it rested at place 2
3 play "absent signals", round 1: expected routine 0 rested at place 1; found it rested at place 2
5 play "later signal", round 1, stored game, byte 16, in the place of routine 0: the other bench had 1; this one has 2
EXPECTED
wrong PASS_TOO_MANY <<'EXPECTED'
2 play "later signal", round 1: expected 2 passes; found 3
3 play "absent signals", round 1: expected 2 passes; found 3
5 play "later signal", round 1, passes: the other bench had 2; this one has 3
EXPECTED
wrong STEP_BEHIND <<'EXPECTED'
1 book "unknown op": expected refused 5 3; found refused 5 4
EXPECTED
wrong SOUND_BOOK_REFUSED <<'EXPECTED'
1 book "later signal": expected accepted; found refused 7 0
EXPECTED
meaning="a step has an unknown op, a field out of range or a stray field"
words="built-in book: refused 5 4: $meaning; routine 1, place 2: mark 3"
wrong WORDS_FOR_STEP_BEHIND <<EXPECTED
1 book "unknown op": expected words with "refused 5 3:" and "routine 1, place 1:"; found "$words"
EXPECTED
wrong CUT_OFF_TOTAL <<'EXPECTED'
5 play "counters at their ends", round 1, cut-off total: the other bench had 2000002; this one has 2000003
EXPECTED
wrong MARKS_EXCHANGED <<'EXPECTED'
5 play "numbers", round 3, marks (routine and number): the other bench had 0 1, 0 4; this one has 0 4, 0 1
EXPECTED
wrong OTHER_REFUSAL <<EXPECTED
5 $order_1, verdict (number and place): the other bench had 8 0; this one has 9 0
EXPECTED
wrong COUNTER_BELOW_ITS_END <<'EXPECTED'
5 play "counters at their ends", round 1, stored game, byte 30, in counter 0: the other bench had 64; this one has 63
EXPECTED
echo "$seen wrong libraries, and each was seen"
