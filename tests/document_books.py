#!/usr/bin/env python3
"""Prints the books that the rules themselves give as examples, a line each: number, place, bytes in hexadecimal.

These lines stand at the end of crates/book_vectors/stdin. The numbers and places come from the rules. document_plays.py plays these books.
"""

import sys
from pathlib import Path

sys.dont_write_bytecode = True
sys.path.insert(0, str(Path(__file__).parent.parent / "examples"))
import make_books as m

LOOP = m.while_(0, m.EQUAL, 0)
BRANCH = m.if_(0, m.EQUAL, 0)

T1 = m.book([])
T2 = m.book([m.rest()])
T3 = m.T3
T4 = m.book([m.start(1), m.rest(), m.signal(0)], [m.wait(0), m.mark(3)], signals=1)
T5 = m.T5
T6 = m.book([m.wait_for(0, 1), m.mark(9)], signals=1)
T7 = m.book([m.read(0, 0, 1)], signals=1, counters=1)
T8 = m.book([m.start(1)], [m.wait(0)], signals=1)
T9 = m.T9
T10 = m.book([m.start(1), m.rest(), m.stop(1), m.rest(), m.rest(), m.join(1), m.mark(4)], [LOOP, m.rest(), m.end()], counters=1)
T11 = m.book([m.set_counter(0, 999999), m.add(0, 2), m.set_counter(1, -1000000), m.add(1, -1)], counters=2)


def looped(*body):
    """A while with this body, behind a mark, so that it stands at step 1."""
    return m.book([m.mark(1), LOOP, *body, m.end()], signals=1, counters=1)


def nested_ifs(depth, *inside):
    return m.book([BRANCH] * depth + [*inside] + [m.end()] * depth, counters=1)


def nested_whiles(depth):
    return m.book([LOOP, m.rest()] * depth + [m.end()] * depth, counters=1)


def largest():
    """As many routines, steps, signals and counters as there may be, and indexes at their ends."""
    routine = [m.wait(63), m.set_counter(63, 1000000), m.add(63, -1000000), m.start(63)] * 4
    return m.book(*[routine] * 64, signals=64, counters=64)


def limits():
    yield 0, 0, largest()
    yield 2, 0, m.book(*[[]] * 65)
    yield 2, 0, m.book([m.mark(0)] * 1025)
    yield 2, 0, m.book([m.mark(1)], signals=65)
    yield 2, 0, m.book([m.mark(1)], counters=65)


def pauses():
    rests, rests_not = m.rest(), m.mark(2)
    yield 0, 0, looped(rests)
    yield 7, 1, looped(m.wait(0))
    yield 7, 1, looped(m.rest_for(0))
    yield 0, 0, looped(m.rest_for(1))
    yield 7, 1, looped(BRANCH, rests, m.end())
    yield 7, 1, looped(BRANCH, rests, m.else_(), rests_not, m.end())
    yield 7, 1, looped(BRANCH, rests_not, m.else_(), rests, m.end())
    yield 0, 0, looped(BRANCH, rests, m.else_(), rests, m.end())


def nesting():
    yield 0, 0, nested_ifs(16)
    yield 6, 16, nested_ifs(17)
    yield 0, 0, nested_whiles(16)
    yield 6, 32, nested_whiles(17)


def set_plays():
    """T1 to T11: all are accepted."""
    for play in (T1, T2, T3, T4, T5, T6, T7, T8, T9, T10, T11):
        yield 0, 0, play


def main():
    for group in (limits, pauses, nesting, set_plays):
        for number, place, content in group():
            print(number, place, content.hex())


if __name__ == "__main__":
    main()
