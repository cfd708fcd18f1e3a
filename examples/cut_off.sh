#!/bin/sh
# cut_off.sh FILE: plays the book in the file as play.sh does, and tells of each round how much its additions cut off. For a refused book it
# prints what play.sh does, with exit status 1.
set -e
[ -r "$1" ] || { echo "usage: cut_off.sh FILE" >&2; exit 2; }
here=$(dirname "$0")
listing=$("$here/play.sh" "$1")
case $listing in refused*) echo "$listing"; exit 1 ;; esac
rounds=$(echo "$listing" | grep -c '^round')
program=$("$here/program.sh" game_vectors)
{
    echo "book $(od -An -v -tx1 <"$1" | tr -d ' \n')"
    echo setup
    yes "round 2048" | head -n "$rounds"
} | "$program" | awk -v rounds="$rounds" '
    $1 == "round" && $2 == 0 { n += 1; all += $6; print "round " n " cut off " $6 }
    END { if (n != rounds) exit 1; print "in all " all + 0 }'
