#!/usr/bin/env python3
"""Writes the example books beside this file, and shows how a book is made.

A book is a header, a directory with an entry for each routine, and the steps of all routines.
Numbers are little-endian. Other scripts import `book` and the steps from here.
"""

import struct
from pathlib import Path

# The relations of an if and of a while: the counter against n.
EQUAL, LESS, GREATER = 0, 1, 2


def step(op, a=0, b=0, n=0):
    """The eight bytes of a step; fields that its op does not name stay 0."""
    return struct.pack("<BBHi", op, a, b, n)


def mark(n):
    return step(0, n=n)


def set_counter(counter, n):
    return step(1, a=counter, n=n)


def add(counter, n):
    return step(2, a=counter, n=n)


def take(counter, other):
    return step(3, a=counter, b=other)


def signal(number):
    return step(4, a=number)


def signal_with(number, counter):
    return step(5, a=number, b=counter)


def rest():
    return step(6)


def rest_for(rounds):
    return step(7, n=rounds)


def wait(number):
    return step(8, a=number)


def wait_for(number, rounds):
    return step(9, a=number, n=rounds)


def join(routine):
    return step(10, a=routine)


def join_for(routine, rounds):
    return step(11, a=routine, n=rounds)


def read(number, counter, k):
    return step(12, a=number, b=counter, n=k)


def start(routine):
    return step(13, a=routine)


def stop(routine):
    return step(14, a=routine)


def if_(counter, relation, n):
    return step(17, a=counter, b=relation, n=n)


def else_():
    return step(18)


def while_(counter, relation, n):
    return step(19, a=counter, b=relation, n=n)


def end():
    return step(20)


def book(*routines, signals=0, counters=0):
    """The book of these routines, each a list of steps, with so many signals and counters."""
    total = sum(len(steps) for steps in routines)
    header = struct.pack("<6H", len(routines), total, signals, counters, 12, 12 + 4 * len(routines))
    directory, first = b"", 0
    for steps in routines:
        directory += struct.pack("<2H", first, len(steps))
        first += len(steps)
    return header + directory + b"".join(b"".join(steps) for steps in routines)


# Routine 0 starts routine 1, waits for its signal and writes the mark 7. This book is accepted.
T3 = book(
    [start(1), wait(0), mark(7)],
    [signal(0)],
    signals=1,
)

# The two signal each other and wait for it: in round 2 both get on, and routine 1 writes the mark 5.
T5 = book(
    [start(1), rest(), wait(0), signal(1)],
    [signal(0), wait(1), mark(5)],
    signals=2,
)

# Routine 1 would rest for ever. Routine 0 stops it in round 2, waits for its end, and writes the mark 4 in round 3.
T9 = book(
    [start(1), rest(), stop(1), join(1), mark(4)],
    [while_(0, EQUAL, 0), rest(), end()],
    counters=1,
)

# Two factions: the folk of the hills raid those of the vale at each harvest, with a band that loses one each time, while the vale's mason
# builds a wall. A mark above 0 is something won, one below 0 something lost. The wall's height is kept as a number below 0, so that a
# raid's force less the wall is a sum. It takes nine rounds:
#
#   1. The hills muster a band of 3 and wait for a harvest.
#   2. The vale brings in 8 and tells of it. The hills raid with 3. There is no wall: 4 of the harvest go to the hills.
#   3. The mason sets the first row of stones. The vale sows, and the hills wait.
#   4. A harvest of 8 and a raid with 2. The wall is 1 high: 4 are lost again.
#   5. The second row.
#   6. A harvest of 8 and a raid with 1. The wall is 2 high and holds, which the vale counts as 1 won and the hills as 2 lost.
#   7. The third row. The hills have nobody left to raid with and take two rounds over what to do.
#   8. No mark: the mason has no more to do and ends, and the vale waits for word of peace, for three rounds at most.
#   9. The hills offer peace and wait for the vale to be done. The vale takes it, and both win 10.
HILLS, VALE, MASON = range(3)
HARVEST, RAID, ANSWER, PEACE = range(4)
BAND, LUCK, FORCE, WALL = range(4)
FACTIONS = book(
    [
        start(VALE),
        start(MASON),
        set_counter(BAND, 3),
        mark(3),
        while_(BAND, GREATER, 0),
        wait(HARVEST),
        signal_with(RAID, BAND),
        read(ANSWER, LUCK, 1),
        if_(LUCK, GREATER, 0),
        mark(4),
        else_(),
        mark(-2),
        end(),
        add(BAND, -1),
        rest(),
        end(),
        rest_for(2),
        signal(PEACE),
        join(VALE),
        mark(10),
    ],
    [
        while_(FORCE, GREATER, -1),
        mark(8),
        signal(HARVEST),
        read(RAID, FORCE, 1),
        take(FORCE, WALL),
        if_(FORCE, GREATER, 0),
        mark(-4),
        else_(),
        mark(1),
        end(),
        signal_with(ANSWER, FORCE),
        rest_for(2),
        end(),
        wait_for(PEACE, 3),
        mark(10),
    ],
    [
        while_(WALL, GREATER, -3),
        rest(),
        add(WALL, -1),
        mark(1),
        rest(),
        end(),
    ],
    signals=4,
    counters=4,
)

# Nobody starts routine 2, and so nobody starts routine 3; routine 1 is started in a block. This book is accepted.
FORGOTTEN = book(
    [if_(0, EQUAL, 0), start(1), end(), rest()],
    [mark(1)],
    [start(3)],
    [mark(3)],
    counters=1,
)

# A hoard grows by 400,000 in each of four rounds, and a counter holds no more than 1,000,000: rounds 3 and 4 cut off 200,000 and 400,000.
HOARD = book(
    [while_(1, LESS, 4), add(0, 400000), add(1, 1), rest(), end(), mark(4)],
    counters=2,
)

# Without a rest the while would go round for ever in one round: refused 7, at the while, step 1.
ENDLESS = book(
    [mark(1), while_(0, EQUAL, 0), add(0, 0), end()],
    counters=1,
)

# There is no op 21: refused 5, at step 2.
WRONG_STEP = book(
    [mark(1), rest(), step(21), mark(2)],
)


def main():
    folder = Path(__file__).parent
    for name, content in (
        ("t3", T3),
        ("t5", T5),
        ("t9", T9),
        ("factions", FACTIONS),
        ("forgotten", FORGOTTEN),
        ("hoard", HOARD),
        ("endless", ENDLESS),
        ("wrong_step", WRONG_STEP),
    ):
        (folder / (name + ".book")).write_bytes(content)


if __name__ == "__main__":
    main()
