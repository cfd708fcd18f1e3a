#!/usr/bin/env python3
"""Writes games and rounds that stand at the edges of document 01's clauses, as commands of the vectors and their answers.

usage: document_games.py STDIN STDOUT

The two files are appended to: these lines stand behind the vectors' plays in crates/game_vectors/stdin and stdout. Each game is set up,
changed by pokes, and given an order, which is turned down with 9 exactly where the game breaks a clause, or where a field was given what
its type cannot hold. The rounds have a buffer that is too short, long enough, or longer than the program's own, for as many marks as a book
may have. The answers come from the rules.
"""

import sys
from pathlib import Path

sys.dont_write_bytecode = True
sys.path.insert(0, str(Path(__file__).parent.parent / "examples"))
import make_books as m

REST_3, WAIT_2, JOIN_2, WAIT, REST_0, REST_LESS, MARK = range(7)
STEPS = [m.rest_for(3), m.wait_for(0, 2), m.join_for(1, 2), m.wait(0), m.rest_for(0), m.rest_for(-2), m.mark(1)]
SMALL = m.book(STEPS, [m.rest()], [], signals=2, counters=2)
LARGEST = m.book(*[[m.rest()]] * 64, signals=64, counters=64)
NUMBERS = range(-512, 512)
MARKS = m.book([m.mark(number) for number in NUMBERS])
FITS, UNFIT, UNKNOWN = "0 0", "9 0", "8 0"
LARGEST_VALUES = {"stage": 255, "place": 65535, "listed": 255, "tostart": 255}
LARGEST_VALUES |= dict.fromkeys(("susp", "begun", "tostop", "tosuspend", "toresume", "broadcast"), 1)


def counts():
    for field, number in (("R", 3), ("E", 2), ("C", 2)):
        yield FITS, [(field, 0, number)]
        yield UNFIT, [(field, 0, number - 1)]
        yield UNFIT, [(field, 0, number + 1)]


def beyond():
    for field in ("stage", "place", "left", "susp", "begun", "tostop", "tosuspend", "toresume"):
        yield UNFIT, [(field, 3, 1)]
        yield UNFIT, [(field, 63, 1)]
    for field in ("counter", "broadcast"):
        yield FITS, [(field, 1, 1)]
        yield UNFIT, [(field, 2, 1)]
        yield UNFIT, [(field, 63, 1)]
    yield UNFIT, [("counter", 2, -1)]
    for field in ("listed", "tostart"):
        yield UNFIT, [(field, 1, 2)]
        yield UNFIT, [(field, 63, 2)]
    yield UNFIT, [("tostart_len", 0, 0), ("tostart", 0, 1)]


def ranges():
    yield UNFIT, [("stage", 1, 5)]
    yield UNFIT, [("stage", 1, 255)]
    for routine, count in enumerate((7, 1, 0)):
        yield FITS, [("place", routine, count)]
        yield UNFIT, [("place", routine, count + 1)]
        yield UNFIT, [("place", routine, 65535)]
    for end in (1000000, -1000000):
        yield FITS, [("counter", 0, end)]
        yield UNFIT, [("counter", 0, end + (1 if end > 0 else -1))]
    yield UNFIT, [("counter", 1, 2147483647)]
    yield UNFIT, [("counter", 1, -2147483648)]
    for length in (64, 65, 2147483647):
        yield UNFIT, [("listed_len", 0, length)]
        yield UNFIT, [("tostart_len", 0, length)]
    for entry in (3, 255):
        yield UNFIT, [("listed", 0, entry), ("listed_len", 0, 1)]
        yield UNFIT, [("tostart", 0, entry)]


def lists():
    listed = [("listed", 0, 1), ("listed_len", 0, 1)]
    for stage, fits_listed, fits_unlisted in ((0, False, True), (1, True, False), (2, True, False), (3, True, True), (4, False, True)):
        yield FITS if fits_listed else UNFIT, [("stage", 1, stage), *listed]
        yield FITS if fits_unlisted else UNFIT, [("stage", 1, stage)]
    for stage in (1, 3):
        yield UNFIT, [("stage", 1, stage), *listed, ("listed", 1, 1), ("listed_len", 0, 2)]
    yield UNFIT, [("tostart", 1, 0), ("tostart_len", 0, 2)]
    yield FITS, [("tostart", 1, 2), ("tostart", 2, 1), ("tostart_len", 0, 3)]
    yield UNFIT, [("tostart", 1, 2), ("tostart", 2, 2), ("tostart_len", 0, 3)]
    yield FITS, [("stage", 0, 3), ("tostart_len", 0, 0)]
    yield UNFIT, [("stage", 0, 3)]
    yield UNFIT, [("stage", 0, 4)]


def counts_left():
    for place, count in ((REST_3, 3), (WAIT_2, 2), (JOIN_2, 2), (WAIT, 0), (REST_0, 0), (REST_LESS, 0), (MARK, 0), (len(STEPS), 0)):
        here = ("place", 0, place)
        yield FITS, [here]
        yield UNFIT, [here, ("left", 0, 1)]
        if count:
            yield FITS, [here, ("begun", 0, 1)]
            yield FITS, [here, ("begun", 0, 1), ("left", 0, count - 1)]
        yield UNFIT, [here, ("begun", 0, 1), ("left", 0, count)]
        yield UNFIT, [here, ("begun", 0, 1), ("left", 0, 2147483647)]
    for field in ("susp", "tostop", "tosuspend", "toresume"):
        yield FITS, [(field, 2, 1)]


def fitting():
    yield "book " + SMALL.hex(), []
    for clause in (counts, beyond, ranges, lists, counts_left):
        for told, pokes in clause():
            yield "setup", ["setup 0 0"]
            for poke in pokes:
                yield "poke %s %d %d" % poke, []
            yield "order 0 0", ["order " + told]


def unheld():
    """With a value that its type cannot hold a field stands for a game that does not fit, until it is overwritten or the game set up."""
    yield "setup", ["setup 0 0"]
    lent = {"R": 3, "E": 2, "C": 2, "tostart_len": 1}
    for field in (*LARGEST_VALUES, *lent, "left", "listed_len"):
        larger = (LARGEST_VALUES[field] + 1, 2147483647) if field in LARGEST_VALUES else ()
        for value in (*larger, -1, -2147483648):
            yield f"poke {field} 1 {value}", []
            yield "order 0 0", ["order " + UNFIT]
            yield f"poke {field} 1 {lent.get(field, 0)}", []
            yield "order 0 0", ["order " + FITS]
    yield "poke susp 1 2", []
    yield "poke broadcast 1 -1", []
    yield "poke susp 1 1", []
    yield "round 2", [f"round {UNFIT} 0 0 0"]
    yield "book -", []
    yield "setup", ["setup 1 0"]
    yield "round 2", ["round 1 0 0 0 0"]
    yield "book " + SMALL.hex(), []
    yield "order 0 0", ["order " + UNFIT]
    yield "setup", ["setup 0 0"]
    yield "order 0 0", ["order " + FITS]
    for wrong in ("susp 64 2", "broadcast 64 2", "none 0 2", "stage 0 2147483648", "stage 0"):
        yield "poke " + wrong, ["not a command"]
    yield "order 0 0", ["order " + FITS]


def orders():
    yield "setup", ["setup 0 0"]
    for kind, count in enumerate((2, 3, 3, 3, 3)):
        yield f"order {kind} {count - 1}", ["order " + FITS]
        for number in (count, 64, 256, 4294967295):
            yield f"order {kind} {number}", ["order " + UNKNOWN]
    for kind in (5, 256, 4294967295):
        yield f"order {kind} 0", ["order " + UNKNOWN]
    yield "dump", dump((2,), (0, 2), [0, 0], 1)
    yield "poke stage 1 3", []
    yield "order 1 1", ["order " + FITS]
    yield "order 1 0", ["order " + FITS]
    yield "dump", dump((2,), (0, 2), [0, 3], 1)
    yield "poke stage 1 5", []
    yield "order 5 0", ["order " + UNFIT]
    yield "poke stage 1 3", []


def dump(flagged, starting, stages, signal):
    """A dump of the small book's game after its orders."""
    yield "game 3 2 2"
    for routine, stage in enumerate(stages + [0]):
        yield f"routine {routine} {stage} 0 0 0 0"
    yield "counters 0 0"
    yield "listed"
    yield "tostart " + " ".join(map(str, starting))
    for name in ("tostop", "tosuspend", "toresume"):
        yield name + "".join(f" {routine}" for routine in flagged)
    yield f"broadcast {signal}"


def refused_set_up():
    yield "book -", []
    yield "setup", ["setup 1 0"]
    yield "order 0 0", ["order 1 0"]
    yield "dump", dump((2,), (0, 2), [0, 3], 1)


def full_list():
    yield "book " + LARGEST.hex(), []
    yield "setup", ["setup 0 0"]
    for times in range(2):
        for routine in reversed(range(64)):
            yield f"order 1 {routine}", ["order " + FITS]
    yield "order 1 64", ["order " + UNKNOWN]
    yield "dump", [
        "game 64 64 64",
        *(f"routine {routine} 0 0 0 0 0" for routine in range(64)),
        "counters" + " 0" * 64,
        "listed",
        "tostart 0 " + " ".join(map(str, reversed(range(1, 64)))),
        "tostop",
        "tosuspend",
        "toresume",
        "broadcast",
    ]


def buffers():
    yield "book " + MARKS.hex(), []
    yield "setup", ["setup 0 0"]
    yield "round 2047", ["round 10 0 0 0 0"]
    for length in (2048, 4294967295):
        yield "setup", ["setup 0 0"]
        yield f"round {length}", ["round 0 0 1 1024 0", *(f"mark 0 {number}" for number in NUMBERS)]


def append(*parts):
    """Adds the commands of these parts to the first file, and their answers to the second."""
    stdin, stdout = sys.argv[1:]
    with open(stdin, "a") as commands, open(stdout, "a") as answers:
        for part in parts:
            for command, told in part():
                commands.write(command + "\n")
                answers.writelines(line + "\n" for line in told)


if __name__ == "__main__":
    append(fitting, unheld, orders, refused_set_up, full_list, buffers)
