#!/usr/bin/env python3
"""Writes games that are stored and read, as commands of a script and their answers.

usage: stored_games.py STDIN STDOUT

The two files are appended to: these lines stand in crates/game_vectors/stdin and stdout between those of document_games.py and of
document_plays.py. The answers come from Paper 2 of document 02, written down here apart from the crates: which bytes a game is stored as,
which bytes have that form, and which game they stand for; and from document 01's clause of when a game fits a book. Stored games with a
fault have their number stated beside them. The command `changes` reads every single-byte change of a stored game, and its answer says how
many were tried, how many have not the form, how many do not fit, how many are read as the game that is stored as those bytes, and how many
are answered in any other way, of which there may be none.
"""

import struct
import sys
from collections import Counter
from typing import NamedTuple, Sequence

sys.dont_write_bytecode = True
from document_games import SMALL as SMALL_BOOK, append, m

ACCEPTED, UNFIT, FORM, SHORT = 0, 9, 13, 14
FLAGS = ("susp", "begun", "tostop", "tosuspend", "toresume")
LONGEST = 4294967295
SET_UP = ("setup", ["setup 0 0"])


class Routine(NamedTuple):
    """What is kept of a routine; the fields have the names of pokes."""

    stage: int = 0
    susp: int = 0
    place: int = 0
    begun: int = 0
    left: int = 0
    tostop: int = 0
    tosuspend: int = 0
    toresume: int = 0


class Game(NamedTuple):
    """A game: how many signals its book has, and what is kept."""

    signals: int
    routines: Sequence[Routine]
    counters: Sequence[int] = ()
    listed: Sequence[int] = ()
    starting: Sequence[int] = ()
    broadcast: Sequence[int] = ()


class Fault(Exception):
    """A fault of form."""


def line_of(entries):
    return struct.pack("<H", len(entries)) + bytes(entries)


def record_of(routine):
    flags = sum(getattr(routine, name) << bit for bit, name in enumerate(FLAGS))
    return struct.pack("<BBHI", routine.stage, flags, routine.place, routine.left)


def offsets(routines, counters):
    """Of the records, the counters and the lists."""
    return 14, 14 + 8 * routines, 14 + 8 * routines + 4 * counters


def stored(game):
    """The bytes that a game is stored as."""
    routines, counters = len(game.routines), len(game.counters)
    header = struct.pack("<7H", 1, routines, game.signals, counters, *offsets(routines, counters))
    records = b"".join(map(record_of, game.routines))
    numbers = struct.pack(f"<{counters}i", *game.counters)
    signals = sum(1 << signal for signal in game.broadcast).to_bytes(8, "little")
    return header + records + numbers + line_of(game.listed) + line_of(game.starting) + signals


def line_in(data, at):
    """The list at a place, and the place behind it."""
    if at + 2 > len(data):
        raise Fault
    (count,) = struct.unpack_from("<H", data, at)
    end = at + 2 + count
    if count > 64 or end > len(data):
        raise Fault
    return tuple(data[at + 2 : end]), end


def routine_in(stage, flags, place, left):
    if stage > 4 or flags > 31:
        raise Fault
    return Routine(stage, flags & 1, place, flags >> 1 & 1, left, flags >> 2 & 1, flags >> 3 & 1, flags >> 4 & 1)


def read(data):
    """The game that bytes stand for."""
    if len(data) < 14:
        raise Fault
    form, routines, signals, counters, *told = struct.unpack_from("<7H", data)
    if form != 1 or not 1 <= routines <= 64 or signals > 64 or counters > 64:
        raise Fault
    records, numbers, lists = offsets(routines, counters)
    if told != [records, numbers, lists]:
        raise Fault
    listed, end = line_in(data, lists)
    starting, end = line_in(data, end)
    broadcast = int.from_bytes(data[end:], "little")
    if len(data) != end + 8 or broadcast >> signals:
        raise Fault
    return Game(
        signals,
        [routine_in(*fields) for fields in struct.iter_unpack("<BBHI", data[records:numbers])],
        struct.unpack_from(f"<{counters}i", data, numbers),
        listed,
        starting,
        [signal for signal in range(signals) if broadcast >> signal & 1],
    )


class Book:
    """A book, with what fitting asks of it: its counts, and op and n of the steps of each routine."""

    def __init__(self, book):
        routines, _, self.signals, self.counters, directory, first = struct.unpack_from("<6H", book)
        steps = [(op, n) for op, _, _, n in struct.iter_unpack("<BBHi", book[first:])]
        entries = struct.iter_unpack("<2H", book[directory : directory + 4 * routines])
        self.routines = [steps[start : start + count] for start, count in entries]
        self.command = "book " + book.hex()

    def set_up(self):
        return Game(self.signals, [Routine()] * len(self.routines), [0] * self.counters, starting=(0,))


def routine_fits(steps, routine, is_listed, is_to_start):
    """'routines in stages 1 and 2 are listed, those in 0 and 4 are not, and 3 may be either; .. those to start are in stage 0. Begun is set
    only at a step of op 7, 9 or 11, and the count left then lies from 0 to n - 1; otherwise it is 0.'"""
    if routine.place > len(steps):
        return False
    if routine.stage in (1, 2) and not is_listed or routine.stage in (0, 4) and is_listed:
        return False
    if is_to_start and routine.stage != 0:
        return False
    if not routine.begun:
        return routine.left == 0
    op, n = steps[routine.place] if routine.place < len(steps) else (0, 0)
    return op in (7, 9, 11) and 0 <= routine.left <= n - 1


def fits(book, game):
    """'A game fits a book if its numbers of routines, counters and signals are the book's ..; every number lies in its range; .. no routine
    is twice in a list'. Nothing is kept here beyond these numbers."""
    routines = len(book.routines)
    if (len(game.routines), game.signals, len(game.counters)) != (routines, book.signals, book.counters):
        return False
    for entries in (game.listed, game.starting):
        if len(set(entries)) != len(entries) or any(entry >= routines for entry in entries):
            return False
    listed, starting = set(game.listed), set(game.starting)
    return all(-1000000 <= value <= 1000000 for value in game.counters) and all(
        routine_fits(steps, routine, number in listed, number in starting)
        for number, (steps, routine) in enumerate(zip(book.routines, game.routines))
    )


def number_of(book, data):
    """What reading these bytes for an accepted book answers. 'A stored game is accepted only if storing the game read from it gives those
    bytes again'."""
    try:
        game = read(data)
    except Fault:
        return FORM
    if not fits(book, game):
        return UNFIT
    assert stored(game) == data
    return ACCEPTED


def changes(book, game):
    """The answer to the command of this name."""
    data, tally = bytearray(stored(game)), Counter()
    for at, kept in enumerate(bytes(data)):
        for value in range(256):
            if value != kept:
                data[at] = value
                tally[number_of(book, data)] += 1
        data[at] = kept
    return f"changes {tally.total()} {tally[FORM]} {tally[UNFIT]} {tally[ACCEPTED]} 0"


def dump(game):
    yield f"game {len(game.routines)} {game.signals} {len(game.counters)}"
    for number, routine in enumerate(game.routines):
        yield "routine " + " ".join(map(str, (number, *routine[:5])))
    for name, numbers in (
        ("counters", game.counters),
        ("listed", game.listed),
        ("tostart", game.starting),
        *((name, [number for number, routine in enumerate(game.routines) if getattr(routine, name)]) for name in FLAGS[2:]),
        ("broadcast", sorted(game.broadcast)),
    ):
        yield " ".join([name, *map(str, numbers)])


def made(game):
    """The commands that make this game of the current book: a set-up, and a poke for all that is different then."""
    yield SET_UP
    for number, routine in enumerate(game.routines):
        for field, value in routine._asdict().items():
            if value:
                yield f"poke {field} {number} {value}", []
    for counter, value in enumerate(game.counters):
        if value:
            yield f"poke counter {counter} {value}", []
    for field, entries in (("listed", game.listed), ("tostart", game.starting)):
        for at, entry in enumerate(entries):
            yield f"poke {field} {at} {entry}", []
        yield f"poke {field}_len 0 {len(entries)}", []
    for signal in game.broadcast:
        yield f"poke broadcast {signal} 1", []


def stores(game):
    """The current game is stored, in buffers that are too short, just long enough, or longer."""
    data = stored(game)
    for room in (0, 13, len(data) - 1):
        yield f"store {room}", [f"store {SHORT} 0 0 -"]
    for room in (len(data), len(data) + 1, LONGEST):
        yield f"store {room}", [f"store 0 0 {len(data)} {data.hex()}"]


def loads(game):
    """The stored game is read in place of one that is set up."""
    yield SET_UP
    yield "load " + stored(game).hex(), ["load 0 0"]
    yield "dump", dump(game)


T3, SMALL = Book(m.T3), Book(SMALL_BOOK)
COUNTING = Book(m.book(*[[m.rest_for(1000000), m.mark(1)]] * 64, signals=64, counters=64))
SIGNALS_63 = Book(m.book([m.rest_for(5)], [], signals=63, counters=1))
ALL_FLAGS = Routine(1, 1, 0, 1, 2, 1, 1, 1)
ORDERED = {"tostop": 1, "tosuspend": 1, "toresume": 1}
ROUND_1 = Game(1, [Routine(2, place=1), Routine()], listed=(0,), starting=(1,))
BUSY = Game(2, [ALL_FLAGS, Routine(3, place=1), Routine(tosuspend=1)], (-1, 1000000), (1, 0), (2,), (0, 1))


def counting_routine(number):
    """One of 64 routines: from 40 on 20 are to start, all others are listed."""
    if number >= 60:
        return Routine(3, 1, 2, **ORDERED)
    stage = 0 if number >= 40 else 1 + number % 3
    return Routine(stage, number % 2, begun=1, left=15625 * number) if number % 4 else Routine(stage, place=number // 20)


def counting():
    """A game of as many bytes as one that fits may have: no routine is both listed and to start."""
    routines = [counting_routine(number) for number in range(64)]
    counters = [15873 * number * (-1) ** number for number in range(64)]
    numbers = [7 * number % 64 for number in range(64)]
    starting = [number for number in numbers if 40 <= number < 60]
    listed = [number for number in numbers if number not in starting]
    return Game(64, routines, counters, listed, starting, range(0, 64, 3))


def kept_games():
    """Books, commands that make a game, and the game."""
    yield T3, [SET_UP], T3.set_up()
    yield T3, [SET_UP, ("round 2", ["round 0 0 2 0 0"])], ROUND_1
    ordered = [Routine(2, 1, 1, **ORDERED), Routine(0, 1, **ORDERED)]
    for book, game in (
        (T3, ROUND_1._replace(routines=ordered, broadcast=(0,))),
        (SMALL, BUSY),
        (SIGNALS_63, Game(63, [Routine(2, begun=1, left=4), Routine(4)], (-1000000,), (0,), (), (0, 7, 8, 62))),
        (COUNTING, counting()),
    ):
        yield book, made(game), game


def keeping():
    """Each game is stored, read, and stored again; and every change of a byte is read."""
    for book, commands, game in kept_games():
        assert fits(book, game) and list(dump(read(stored(game)))) == list(dump(game))
        yield book.command, []
        yield from commands
        yield from stores(game)
        yield "changes", [changes(book, game)]
        yield from loads(game)
        yield from stores(game)


def overwritten(data, at, value, form="<H"):
    changed = bytearray(data)
    struct.pack_into(form, changed, at, value)
    return bytes(changed)


def header_faults():
    """'A form other than 1, an R, E or C beyond document 01's limits, a wrong offset or length .. is a fault of form'. Another R, E or C
    within the limits, with the offsets and the length that go with it, is one of fitting."""
    data = stored(BUSY)
    for length in (0, 1, 13, 14, len(data) - 1):
        yield FORM, data[:length]
    yield FORM, data + b"\0"
    for form in (0, 2, 257, 65535):
        yield FORM, overwritten(data, 0, form)
    for routines, told in ((0, FORM), (1, UNFIT), (2, UNFIT), (4, UNFIT), (64, UNFIT), (65, FORM)):
        yield told, stored(BUSY._replace(routines=[Routine()] * routines, listed=(), starting=()))
    for signals, told in ((0, UNFIT), (1, UNFIT), (3, UNFIT), (64, UNFIT), (65, FORM), (65535, FORM)):
        yield told, stored(BUSY._replace(signals=signals, broadcast=()))
    for counters, told in ((0, UNFIT), (1, UNFIT), (3, UNFIT), (64, UNFIT), (65, FORM)):
        yield told, stored(BUSY._replace(counters=[0] * counters))
    for at, right in zip((8, 10, 12), offsets(3, 2)):
        for wrong in (0, right - 1, right + 1, 65535):
            yield FORM, overwritten(data, at, wrong)


def record_faults():
    """'a stage over 4, an unnamed flag' is a fault of form; a number of another field that is out of its range is one of fitting."""
    routines = list(BUSY.routines)
    for stage, told in ((0, UNFIT), (1, ACCEPTED), (2, ACCEPTED), (3, ACCEPTED), (4, UNFIT), (5, FORM), (255, FORM)):
        yield told, stored(BUSY._replace(routines=[ALL_FLAGS._replace(stage=stage), *routines[1:]]))
    for flags, told in ((31, ACCEPTED), (29, UNFIT), (32, FORM), (63, FORM), (64, FORM), (128, FORM)):
        yield told, overwritten(stored(BUSY), 15, flags, "<B")
    for place, told in ((0, ACCEPTED), (1, ACCEPTED), (2, UNFIT), (256, UNFIT), (65535, UNFIT)):
        yield told, stored(BUSY._replace(routines=[routines[0], Routine(3, place=place), routines[2]]))
    for left, told in ((0, ACCEPTED), (2, ACCEPTED), (3, UNFIT), (2147483647, UNFIT), (4294967295, UNFIT)):
        yield told, stored(BUSY._replace(routines=[ALL_FLAGS._replace(left=left), *routines[1:]]))
    yield UNFIT, stored(BUSY._replace(routines=[*routines[:2], Routine(left=1)]))
    for value, told in ((1000000, ACCEPTED), (1000001, UNFIT), (-1000000, ACCEPTED), (-1000001, UNFIT), (-2147483648, UNFIT)):
        yield told, stored(BUSY._replace(counters=(0, value)))


def list_faults():
    """'a list over 64 or a set bit beyond E is a fault of form'; a list of at most 64 entries that does not fit is one of fitting."""
    for field in ("listed", "starting"):
        yield UNFIT, stored(BUSY._replace(**{field: ()}, routines=[Routine(1), Routine(), Routine(4)], broadcast=()))
        yield UNFIT, stored(BUSY._replace(**{field: (0, 1, 2, 3)}))
        yield UNFIT, stored(BUSY._replace(**{field: (0, 1, 0)}))
        yield UNFIT, stored(BUSY._replace(**{field: (3,)}))
        yield UNFIT, stored(BUSY._replace(**{field: (255,)}))
        yield UNFIT, stored(BUSY._replace(**{field: range(64)}))
        yield FORM, stored(BUSY._replace(**{field: range(65)}))
        yield FORM, stored(BUSY._replace(**{field: [0] * 256}))
    yield UNFIT, stored(BUSY._replace(starting=(2, 1)))
    yield ACCEPTED, stored(BUSY._replace(starting=()))
    yield ACCEPTED, stored(BUSY._replace(listed=(0,)))
    for broadcast, told in (((), ACCEPTED), ((1,), ACCEPTED), ((2,), FORM), ((0, 1, 7), FORM), ((8,), FORM), ((63,), FORM)):
        yield told, stored(BUSY._replace(broadcast=broadcast))


def faults():
    """Stored games with their numbers. A refusal leaves the game as it is; the number of a game with two faults is that of the form."""
    yield SMALL.command, []
    yield SET_UP
    for part in (header_faults, record_faults, list_faults):
        for told, data in part():
            assert told == number_of(SMALL, data)
            yield f"load {data.hex() or '-'}", [f"load {told} 0"]
            if told == ACCEPTED:
                yield "dump", dump(read(data))
    last = BUSY._replace(broadcast=(1,))
    yield "load " + stored(BUSY._replace(counters=(0, 1000001), broadcast=(2,))).hex(), [f"load {FORM} 0"]
    yield "dump", dump(last)
    yield f"store {len(stored(last))}", [f"store 0 0 {len(stored(last))} {stored(last).hex()}"]


def order_of_checks():
    """1 to 7 come first; 9 comes before 14. A flag that is neither 0 nor 1 stands for a game that does not fit, until one is read."""
    data = stored(BUSY)
    yield "poke counter 1 1000001", []
    for room in (0, LONGEST):
        yield f"store {room}", [f"store {UNFIT} 0 0 -"]
    yield "changes", [f"changes {UNFIT} 0"]
    yield "poke counter 1 0", []
    yield "poke susp 2 2", []
    yield f"store {LONGEST}", [f"store {UNFIT} 0 0 -"]
    yield "load -", [f"load {FORM} 0"]
    yield f"store {LONGEST}", [f"store {UNFIT} 0 0 -"]
    yield "load " + data.hex(), ["load 0 0"]
    yield f"store {LONGEST}", [f"store 0 0 {len(data)} {data.hex()}"]
    for wrong in ("load", "load 0", "load 0g", "store", "store -1", "store 4294967296", "changes 1"):
        yield wrong, ["not a command"]
    yield "book -", []
    yield "load -", ["load 1 0"]
    yield "load " + data.hex(), ["load 1 0"]
    yield "store 0", ["store 1 0 0 -"]
    yield "changes", ["changes 1 0"]
    yield T3.command, []
    yield "load " + data.hex(), [f"load {UNFIT} 0"]
    yield f"store {LONGEST}", [f"store {UNFIT} 0 0 -"]
    yield SMALL.command, []
    yield f"store {LONGEST}", [f"store 0 0 {len(data)} {data.hex()}"]


if __name__ == "__main__":
    append(keeping, faults, order_of_checks)
