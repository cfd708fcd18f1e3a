#!/usr/bin/env python3
"""Writes the set plays of document 01, T10 as document 02 has it, document 01's other examples, and rounds at the edges of what is cut off,
round by round, as commands of the vectors and their answers.

usage: document_plays.py STDIN STDOUT

The two files are appended to: these lines stand at the end of crates/game_vectors/stdin and stdout. Each accepted book is set up and
played, with a dump of the game behind every round. The answers are written out by hand from the documents' sentences, which stand beside
them; where a routine stands comes from what document 01 says of places: "Op 6, or a reading that stayed missing, leaves the place on the
step that follows it in the book; every other pause leaves it on its own step. An ended routine's place is its step count. Begun is set when
op 7, 9 or 11 pauses, and cleared when that step is past."
"""

import struct
import sys
from typing import NamedTuple, Sequence

sys.dont_write_bytecode = True
import document_books as books
from document_books import m
from document_games import append


class Round(NamedTuple):
    """A round's passes, the game behind it, the marks, and the total that was cut off. Where no counters are given, all are 0."""

    passes: int
    routines: Sequence[str]
    listed: Sequence[int]
    marks: Sequence[tuple] = ()
    starting: Sequence[int] = ()
    stopping: Sequence[int] = ()
    counters: Sequence[int] = ()
    lost: int = 0


def stands(stage, place, begun=0, left=0):
    """Where a routine stands, as a dump tells it: no play of the document suspends one."""
    return f"{stage} 0 {place} {begun} {left}"


def rested(place):
    return stands(2, place)


def rested_timed(place, left):
    """At a step of op 7, 9 or 11 that has begun."""
    return stands(2, place, 1, left)


def ended(place):
    return stands(3, place)


def stopped(place):
    return stands(4, place)


UNSTARTED = stands(0, 0)

SET_PLAYS = [
    # "T1 A routine without steps: it ends in round 1, 1 pass; round 2 has an empty list, 1 pass."
    (
        books.T1,
        Round(1, [ended(0)], [0]),
        Round(1, [ended(0)], []),
    ),
    # "T2 rest: rests in round 1, ends in round 2, 1 pass each."
    (
        books.T2,
        Round(1, [rested(1)], [0]),
        Round(1, [ended(1)], [0]),
    ),
    # "T3 routine 0: start 1, wait s0, mark 7; routine 1: signal s0. Round 1: 2 passes. Round 2: 2 passes, mark (0, 7)."
    (
        books.T3,
        Round(2, [rested(1), UNSTARTED], [0], starting=[1]),
        Round(2, [ended(3), ended(1)], [0, 1], marks=[(0, 7)]),
    ),
    # "T4 routine 0: start 1, rest, signal s0; routine 1: wait s0, mark 3. Round 2: 1 pass, mark (1, 3)."
    (
        books.T4,
        Round(1, [rested(2), UNSTARTED], [0], starting=[1]),
        Round(1, [ended(3), ended(2)], [0, 1], marks=[(1, 3)]),
    ),
    # "T5 routine 0: start 1, rest, wait s0, signal s1; routine 1: signal s0, wait s1, mark 5. Round 2: 2 passes."
    (
        books.T5,
        Round(1, [rested(2), UNSTARTED], [0], starting=[1]),
        Round(2, [ended(4), ended(3)], [0, 1], marks=[(1, 5)]),
    ),
    # "T6 wait s0 for 1, mark 9: round 1 has 2 passes, round 2 has 1 and the mark."
    (
        books.T6,
        Round(2, [rested_timed(0, left=0)], [0]),
        Round(1, [ended(2)], [0], marks=[(0, 9)]),
    ),
    # "T7 read s0, k = 1, into counter 0, with no number given: 2 passes, then ended in round 2, counter still 0."
    (
        books.T7,
        Round(2, [rested(1)], [0], counters=[0]),
        Round(1, [ended(1)], [0], counters=[0]),
    ),
    # "T8 routine 0: start 1; routine 1: wait s0. Round 2 takes 2 passes, not 3."
    (
        books.T8,
        Round(1, [ended(1), UNSTARTED], [0], starting=[1]),
        Round(2, [ended(1), rested(0)], [1]),
    ),
    # "T9 routine 0: start 1, rest, stop 1, join 1, mark 4; routine 1: while counter 0 equals 0, rest. Mark in round 3."
    (
        books.T9,
        Round(1, [rested(2), UNSTARTED], [0], starting=[1]),
        Round(2, [rested(3), rested(2)], [0, 1], stopping=[1]),
        Round(1, [ended(5), stopped(2)], [0], marks=[(0, 4)]),
        Round(1, [ended(5), stopped(2)], []),
    ),
    # "T10 as T9 with two rests put in between the stop and the join: the end signal has gone by round 4". Document 02: "a routine that was
    # stopped counts as ended for joins, at any later time. So T10's join now passes in round 4 with its mark, 1 pass."
    (
        books.T10,
        Round(1, [rested(2), UNSTARTED], [0], starting=[1]),
        Round(1, [rested(4), rested(2)], [0, 1], stopping=[1]),
        Round(1, [rested(5), stopped(2)], [0]),
        Round(1, [ended(7), stopped(2)], [0], marks=[(0, 4)]),
        Round(1, [ended(7), stopped(2)], []),
    ),
    # "T11 999,999 plus 2 is 1,000,000; −1,000,000 plus −1 is −1,000,000." Each cuts off 1.
    (
        books.T11,
        Round(1, [ended(4)], [0], counters=[1000000, -1000000], lost=2),
    ),
]

# "The body of each while must pause." These do, and go round once a round. "A place on an else stands for the end of the first block, on a
# while's end for its next test."
PAUSING = [
    (
        books.looped(m.rest()),
        Round(1, [rested(3)], [0], marks=[(0, 1)]),
        Round(1, [rested(3)], [0]),
    ),
    (
        books.looped(m.rest_for(1)),
        Round(1, [rested_timed(2, left=0)], [0], marks=[(0, 1)]),
        Round(1, [rested_timed(2, left=0)], [0]),
    ),
    (
        books.looped(books.BRANCH, m.rest(), m.else_(), m.rest(), m.end()),
        Round(1, [rested(4)], [0], marks=[(0, 1)]),
        Round(1, [rested(4)], [0]),
    ),
]

# "Depth 16 accepted": the mark inside 16 ifs is made once. Of 16 whiles, each with a rest in front of the next, a round reaches one more,
# and from then on the innermost goes round.
NESTED = [
    (
        books.nested_ifs(16, m.mark(6)),
        Round(1, [ended(33)], [0], marks=[(0, 6)]),
        Round(1, [ended(33)], []),
    ),
    (
        books.nested_whiles(16),
        *(Round(1, [rested(2 * depth)], [0]) for depth in range(1, 17)),
        Round(1, [rested(32)], [0]),
    ),
]

# Document 02: "The addition itself now tells, besides its sum, the distance between the true sum and the one given. The round's answer
# carries the total of these over all additions of the round".
CUT_OFF = [
    # A distance is never below 0: 2 above the highest end and 3 below the lowest are 5.
    (
        m.book([m.set_counter(0, 999999), m.add(0, 3), m.set_counter(0, -999999), m.add(0, -4)], counters=1),
        Round(1, [ended(4)], [0], counters=[-1000000], lost=5),
    ),
    # A sum that is just an end is the true one. A step that sets a counter is no addition.
    (
        m.book([m.add(0, 1000000), m.add(0, 0), m.set_counter(1, -1), m.add(1, -999999), m.set_counter(0, -1000000)], counters=2),
        Round(1, [ended(5)], [0], counters=[-1000000, -1000000]),
    ),
    # "b's content is added to a", to itself where the two are one: 500,000 twice is an end, and twice that is 1,000,000 beyond it; then
    # −600,000 twice is 200,000 beyond the other, and twice −1,000,000 is 1,000,000 beyond it.
    (
        m.book([m.set_counter(0, 500000), *[m.take(0, 0)] * 2, m.rest(), m.set_counter(0, -600000), *[m.take(0, 0)] * 2], counters=1),
        Round(1, [rested(4)], [0], counters=[1000000], lost=1000000),
        Round(1, [ended(7)], [0], counters=[-1000000], lost=1200000),
    ),
    # What is cut off is the counter that is added to: 999,999 plus −1,000,000 lies in the range, and −1,000,000 plus −1 does not.
    (
        m.book([m.set_counter(0, 999999), m.set_counter(1, -1000000), m.take(0, 1), m.take(1, 0)], counters=2),
        Round(1, [ended(4)], [0], counters=[-1, -1000000], lost=1),
    ),
    # "over all additions of the round", in whatever routine and pass: in round 2 routine 1 adds 15 to 999,990, and routine 0, which waits
    # for it until pass 2, adds 10. Round 1 cuts off nothing, and so does round 3, in which nothing is listed.
    (
        m.book(
            [m.start(1), m.set_counter(0, 999990), m.rest(), m.wait(0), m.add(0, 10)],
            [m.add(0, 15), m.signal(0)],
            signals=1,
            counters=1,
        ),
        Round(1, [rested(3), UNSTARTED], [0], starting=[1], counters=[999990]),
        Round(2, [ended(5), ended(2)], [0, 1], counters=[1000000], lost=15),
        Round(1, [ended(5), ended(2)], [], counters=[1000000]),
    ),
    # .. and of no other round: 600,000 is added once a round, and at last −1.
    (
        m.book(
            [m.while_(0, m.LESS, 1000000), m.add(0, 600000), m.rest(), m.end(), *[m.add(0, 600000), m.rest()] * 2, m.add(0, -1)],
            counters=1,
        ),
        Round(1, [rested(3)], [0], counters=[600000]),
        Round(1, [rested(3)], [0], counters=[1000000], lost=200000),
        Round(1, [rested(6)], [0], counters=[1000000], lost=600000),
        Round(1, [rested(8)], [0], counters=[1000000], lost=600000),
        Round(1, [ended(9)], [0], counters=[999999]),
    ),
    # A book of 1,024 steps: the first brings the counter to an end, and each other one adds as much again.
    (
        m.book([m.set_counter(0, 1000000), *[m.add(0, 1000000)] * 1023], counters=1),
        Round(1, [ended(1024)], [0], counters=[1000000], lost=1023000000),
    ),
]


def played(book, told):
    """One more round, with a buffer for one mark, and the game behind it."""
    yield "round 2", [f"round 0 0 {told.passes} {len(told.marks)} {told.lost}", *("mark %d %d" % mark for mark in told.marks)]
    yield "dump", dump(book, told)


def dump(book, told):
    """The counts are those of the book's header. Nothing is to be suspended, resumed or broadcast."""
    routines, _, signals, counters = struct.unpack_from("<4H", book)
    yield f"game {routines} {signals} {counters}"
    for routine, where in enumerate(told.routines):
        yield f"routine {routine} {where}"
    yield line("counters", told.counters or [0] * counters)
    yield line("listed", told.listed)
    yield line("tostart", told.starting)
    yield line("tostop", told.stopping)
    for name in ("tosuspend", "toresume", "broadcast"):
        yield line(name, [])


def line(name, numbers):
    return " ".join([name, *map(str, numbers)])


def accepted():
    for book, *rounds in SET_PLAYS + PAUSING + NESTED + CUT_OFF:
        yield "book " + book.hex(), []
        yield "setup", ["setup 0 0"]
        for told in rounds:
            yield from played(book, told)


def refused():
    """The refused books of document_books.py, each lent with T3's game behind round 1. After a refusal the game is as lent: behind all of
    them it is what it was, and T3's round 2 is played."""
    t3, first, second = SET_PLAYS[2]
    yield "book " + t3.hex(), []
    yield "setup", ["setup 0 0"]
    yield from played(t3, first)
    # "A while holding only wait, only rest n with n 0, or an if that rests in one block: 7. R 65, S 1,025: 2. Depth 16 accepted, 17 gives
    # 6."
    for group in (books.pauses, books.limits, books.nesting):
        for number, place, book in group():
            if number:
                yield "book " + book.hex(), []
                yield "read", [f"read {number} {place}"]
                yield "setup", [f"setup {number} {place}"]
                yield "round 2", [f"round {number} {place} 0 0 0"]
    yield "dump", dump(t3, first)
    yield "book " + t3.hex(), []
    yield from played(t3, second)


def largest_totals():
    """'at most 1,024,000,000': each of 1,024 steps adds an end to a counter that a poke has put there."""
    for end, step in ((1000000, m.add(0, 1000000)), (-1000000, m.take(0, 0))):
        book = m.book([step] * 1024, counters=1)
        yield "book " + book.hex(), []
        yield "setup", ["setup 0 0"]
        yield f"poke counter 0 {end}", []
        yield from played(book, Round(1, [ended(1024)], [0], counters=[end], lost=1024000000))


def refused_totals():
    """'A refused round reports 0', also between two rounds that cut off 1 and 3, and where it would have cut off as much."""
    book = m.book([m.set_counter(0, 999999), m.add(0, 2), m.mark(5), m.rest(), m.add(0, 3)], counters=1)
    yield "book " + book.hex(), []
    yield "setup", ["setup 0 0"]
    yield "round 1", ["round 10 0 0 0 0"]
    yield from played(book, Round(1, [rested(4)], [0], marks=[(0, 5)], counters=[1000000], lost=1))
    yield "round 1", ["round 10 0 0 0 0"]
    yield "poke counter 0 1000001", []
    yield "round 2", ["round 9 0 0 0 0"]
    yield "poke counter 0 1000000", []
    yield "book -", []
    yield "round 2", ["round 1 0 0 0 0"]
    yield "book " + book.hex(), []
    yield from played(book, Round(1, [ended(5)], [0], counters=[1000000], lost=3))


if __name__ == "__main__":
    append(accepted, refused, largest_totals, refused_totals)
