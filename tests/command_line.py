#!/usr/bin/env python3
"""Runs the commands check, show and play of the program zulqenat on the books of the vectors and on books with every fault of a step.

usage: tests/command_line.py [PROGRAM]

First: c/build.sh, which builds target/c/zulqenat. What a refused book is told, what the words of a step stand for and what a play lists and
saves is worked out here, from the documents and by the model of rounds; the words are turned back into the eight bytes of the step.
"""

import os
import random
import re
import struct
import subprocess
import sys
import tempfile
from collections import Counter, namedtuple
from errno import EISDIR, ENOENT, ENOSPC
from itertools import product
from pathlib import Path

ROOT = Path(__file__).resolve().parent.parent
PROGRAM = Path(sys.argv[1] if len(sys.argv) > 1 else ROOT / "target/c/zulqenat").resolve()

sys.dont_write_bytecode = True
import document_books as d
import stored_games
from document_books import m
from round_model import ELSE, END, ENDED, IF, ORDERS, WHILE, Round, routines_of, set_up

START = 13
DONE, REFUSED, WRONG_USE = range(3)
MEANINGS = (
    "accepted",
    "the book has fewer than 12 bytes",
    "a count of the book is outside its range",
    "an offset or the length of the book is wrong",
    "the directory breaks its rule",
    "a step has an unknown op, a field out of range or a stray field",
    "wrong nesting",
    "a while's body does not pause",
    "an order of unknown kind, or a number not below its count",
    "the game does not fit the book",
)
NOT_STORED = "the bytes are not a stored game"
MILLION = 1000000
KINDS = ("broadcast", "start", "stop", "suspend", "resume")
PLAY_T3 = "round 1 passes 2 marks 0\nround 2 passes 2 marks 1\nmark 0 7\n"

# The ops by their numbers: name, words, and what a, b and n are. In the words a field stands as its letter in braces.
OPS = (
    ("mark", "mark {n}", None, None, "number"),
    ("set", "set counter {a} to {n}", "counter", None, "number"),
    ("add", "add {n} to counter {a}", "counter", None, "number"),
    ("take", "take: add counter {b} to counter {a}", "counter", "counter", None),
    ("signal", "give signal {a}", "signal", None, None),
    ("signal with number", "give signal {a} with the number in counter {b}", "signal", "counter", None),
    ("rest", "rest", None, None, None),
    ("rest n", "rest for {n}", None, None, "number of rounds"),
    ("wait", "wait for signal {a}", "signal", None, None),
    ("wait n", "wait for signal {a}, at most {n}", "signal", None, "number of rounds"),
    ("join", "join routine {a}", "routine", None, None),
    ("join n", "join routine {a}, at most {n}", "routine", None, "number of rounds"),
    ("read", "read number {n} of signal {a} into counter {b}", "signal", "counter", "number to be read"),
    ("start", "start routine {a}", "routine", None, None),
    ("stop", "stop routine {a}", "routine", None, None),
    ("suspend", "suspend routine {a}", "routine", None, None),
    ("resume", "resume routine {a}", "routine", None, None),
    ("if", "if counter {a} {b} {n}", "counter", "relation", "number"),
    ("else", "else", None, None, None),
    ("while", "while counter {a} {b} {n}", "counter", "relation", "number"),
    ("end", "end", None, None, None),
)
RELATIONS = ("equals", "is less than", "is greater than")
NUMBER = "-?[0-9]+"
ROUNDS = "1 round|(?!1 )-?[0-9]+ rounds"
RELATION = "|".join(RELATIONS) + "|has relation [0-9]+ to"

Order = namedtuple("Order", "round kind number")
tally = Counter()


def fail(what, found, expected):
    sys.exit(f"{what}: {found!r}, and not {expected!r}")


def run(*words, stdout=subprocess.PIPE):
    """The exit status, what is printed and what is told on standard error."""
    ran = subprocess.run([PROGRAM, *words], stdout=stdout, stderr=subprocess.PIPE, timeout=60)
    return ran.returncode, (ran.stdout or b"").decode(), ran.stderr.decode()


def expect(what, found, status, printed="", told=""):
    """Holds an answer of run to a status, and to what is printed and told."""
    if found != (status, printed, told):
        fail(what, found, (status, printed, told))


def vectors():
    """Number, place and bytes of each book of the vectors."""
    for line in (ROOT / "crates/book_vectors/stdin").read_text().splitlines():
        number, place, digits = line.split()
        yield int(number), int(place), b"" if digits == "-" else bytes.fromhex(digits)


def pattern_of(op):
    """The words of an op as a pattern, with a group for each field."""
    _, words, *contents = OPS[op]
    pattern = re.escape(words).replace(r"\{", "{").replace(r"\}", "}")
    for letter, content in zip("abn", contents):
        field = {"number of rounds": ROUNDS, "relation": RELATION}.get(content, NUMBER)
        pattern = pattern.replace("{" + letter + "}", f"(?P<{letter}>{field})")
    return re.compile(pattern)


PATTERNS = [pattern_of(op) for op in range(len(OPS))]


def field_of(words):
    """The number that the words of a field stand for."""
    return RELATIONS.index(words) if words in RELATIONS else int(re.search(NUMBER, words)[0])


def bytes_of(words):
    """The eight bytes of the step that these words show. Behind a step stand its stray fields, behind an unknown op its fields."""
    head, *rest = re.split(", (?=(?:stray )?[abn] )", words)
    known = [(op, pattern.fullmatch(head).groupdict()) for op, pattern in enumerate(PATTERNS) if pattern.fullmatch(head)]
    unknown = [(int(op), {}) for op in re.findall("^op ([0-9]+)$", head)]
    if len(known + unknown) != 1:
        fail("the words of a step", words, "those of one op")
    ((op, fields),), front = known + unknown, "stray " if known else ""
    fields |= dict(re.fullmatch(f"{front}([abn]) ({NUMBER})", part).groups() for part in rest)
    return m.step(op, **{letter: field_of(field) for letter, field in fields.items()})


def header(book):
    return struct.unpack_from("<6H", book)


def entries(book):
    """First step and step count of each routine."""
    return list(struct.iter_unpack("<2H", book[12 : 12 + 4 * header(book)[0]]))


def step_bytes(book, place):
    return book[header(book)[5] :][8 * place : 8 * place + 8]


def spot_of(book, place):
    """The routine of a step of the book, its place in it, and where the routine's steps begin and how many they are."""
    for routine, (first, count) in enumerate(entries(book)):
        if first <= place < first + count:
            return routine, place - first, first, count


def count_faults(book):
    limits = (("routines", 1, 64), ("steps", 0, 1024), ("signals", 0, 64), ("counters", 0, 64))
    for (name, least, most), count in zip(limits, header(book)):
        if not least <= count <= most:
            yield f"the count of {name} is {count}, and may be {least} to {most}"


def offset_faults(book):
    routines, steps, _, _, directory, first = header(book)
    for name, found, right in (
        ("offset of the directory", directory, 12),
        ("offset of the steps", first, 12 + 4 * routines),
        ("length in bytes", len(book), 12 + 4 * routines + 8 * steps),
    ):
        if found != right:
            yield f"the {name} is {found}, and must be {right}"


def directory_fault(book, place):
    before = sum(count for _, count in entries(book)[:place])
    if place == header(book)[0]:
        return f"the routines have {before} steps in all, and the book has {header(book)[1]}"
    return f"routine {place} begins at step {entries(book)[place][0]}, and should begin at step {before}"


def range_of(book, content):
    """The lowest and highest number that a field may be."""
    routines, _, signals, counters, *_ = header(book)
    return {
        "counter": (0, counters - 1),
        "signal": (0, signals - 1),
        "routine": (0, routines - 1),
        "relation": (0, 2),
        "number to be read": (1, 64),
    }.get(content, (-MILLION, MILLION))


def step_faults(book, place):
    op, *fields = struct.unpack("<BBHi", step_bytes(book, place))
    if op >= len(OPS):
        yield f"the op {op} is unknown; ops are 0 to 20"
        return
    name, _, *contents = OPS[op]
    for letter, content, value in zip("abn", contents, fields):
        low, high = range_of(book, content) if content else (0, 0)
        if content is None and value != 0:
            yield f"the stray field ({letter}) is {value}, and must be 0: the op {name} does not use it"
        elif not low <= value <= high:
            allowed = f"may be {low} to {high}" if low <= high else f"the book has no {content}s"
            yield f"the {content} ({letter}) is {value}, and {allowed}"


def nesting_fault(book, place):
    """What is wrong with the nesting at a step, of the routine's steps before it."""
    _, _, first, count = spot_of(book, place)
    opened, op = [], step_bytes(book, place)[0]
    for at in range(first, place):
        before = step_bytes(book, at)[0]
        if before in (IF, WHILE):
            opened.append([before, at - first])
        elif before == ELSE:
            opened[-1].append(at - first)
        elif before == END:
            opened.pop()
    if op in (IF, WHILE):
        deepest = "depth 17: 16 ifs and whiles are open here, and no more may be"
        return deepest if len(opened) == 16 else f"an opening never closed: the routine's {count} steps have no end for it"
    if not opened:
        return "a marker without its opening: no if or while is open here"
    opening, opening_place, *elses = opened[-1]
    if opening == WHILE:
        return f"an else in a while: the while at place {opening_place} is open here"
    return f"a second else: the if at place {opening_place} has one at place {elses[0]}"


def while_faults(book, place):
    _, end, first, _ = spot_of(book, place)
    depth = 1
    while depth:
        end += 1
        op = step_bytes(book, first + end)[0]
        depth += (op in (IF, WHILE)) - (op == END)
    yield f"up to its end at place {end} no step pauses on every way through its body"
    yield "what pauses: rest, rest for 1 round or more, and an if with an else where both blocks pause"


def faults(number, place, book):
    """What is told below a refusal, but for the line of the step."""
    return {
        1: lambda: [f"the book has {len(book)} bytes, and its header alone takes 12"],
        2: lambda: count_faults(book),
        3: lambda: offset_faults(book),
        4: lambda: [directory_fault(book, place)],
        5: lambda: step_faults(book, place),
        6: lambda: [nesting_fault(book, place)],
        7: lambda: while_faults(book, place),
    }[number]()


def hold_spot(book, place, line):
    """Holds the line of a faulty step to the directory and the bytes of the book."""
    routine, own_place, *_ = spot_of(book, place)
    front = f"routine {routine}, place {own_place}: "
    if not line.startswith(front) or bytes_of(line.removeprefix(front)) != step_bytes(book, place):
        fail(f"the step shown for {book.hex()[:60]}", line, (front, step_bytes(book, place).hex()))


def hold_refusal(file, book, number, place):
    """Holds what is printed of a refused book to its number and place, and to what is wrong with it."""
    status, printed, told = run("check", file)
    first, *lines = printed.splitlines() or [""]
    expected = REFUSED, f"{file}: refused {number} {place}: {MEANINGS[number]}", ""
    if (status, first, told) != expected:
        fail(f"check {book.hex()[:60]}", (status, first, told), expected)
    if number >= 5:
        hold_spot(book, place, lines.pop(0))
    if lines != list(faults(number, place, book)):
        fail(f"the faults of {book.hex()[:60]}", lines, list(faults(number, place, book)))
    expect("show of a refused book", run("show", file), REFUSED, printed)
    expect("play of a refused book", run("play", file), REFUSED, f"refused {number} {place}\n", printed)
    tally["refused books"] += 1


def unstarted(book):
    """The routines that no chain of start steps leads to from routine 0."""
    routines, reached, ahead = routines_of(book), {0}, [0]
    while ahead:
        started = {step.a for step in routines[ahead.pop()] if step.op == START} - reached
        reached |= started
        ahead += started
    return [routine for routine in range(len(routines)) if routine not in reached]


def hold_shown(file, book):
    """Holds what show prints to the bytes of the book: routines, places and indents, and each step's words back to its eight bytes."""
    status, printed, told = run("show", file)
    lines, blocks = printed.splitlines(), []
    for routine, (_, count) in enumerate(entries(book)):
        block, lines = lines[: count + 1], lines[count + 1 :]
        blocks.append("".join(line + "\n" for line in block))
        title = f"routine {routine}: {count} {'step' if count == 1 else 'steps'}"
        if block[:1] != [title] or len(block) != count + 1:
            fail(f"show {book.hex()[:60]}", block, title)
        hold_steps(block[1:], routines_of(book)[routine])
        tally["steps shown"] += count
    if (status, lines, told) != (DONE, [], ""):
        fail(f"show {book.hex()[:60]}", (status, lines, told), (DONE, [], ""))
    for routine in {0, len(blocks) // 2, len(blocks) - 1}:
        expect(f"show of routine {routine}", run("show", file, str(routine)), DONE, blocks[routine])
    expect("show of no routine", run("show", file, str(len(blocks))), WRONG_USE, told=no_routine(file, len(blocks), len(blocks)))


def no_routine(file, number, routines):
    return f"{file}: there is no routine {number}; the book has routines 0 to {routines - 1}\n"


def hold_steps(lines, steps):
    """Holds the lines of a routine to its steps."""
    depth = 0
    for place, (line, step) in enumerate(zip(lines, steps)):
        depth -= step.op in (ELSE, END)
        front = f"{place:4}  {'  ' * depth}"
        depth += step.op in (IF, ELSE, WHILE)
        words = line.removeprefix(front)
        if words == line or bytes_of(words) != m.step(*step):
            fail("a line of show", line, (front, step))


def is_over(game):
    return not game.entries("tostart") and all(game.stage[routine] == ENDED for routine in game.entries("listed"))


def listing(book, game, most, orders=()):
    """What a play by the model prints. The game is changed to the one behind its last round."""
    lines = []
    for number in range(1, most + 1):
        if is_over(game) and all(order.round < number for order in orders):
            break
        for order in orders:
            if order.round == number:
                game.obey(ORDERS[order.kind], order.number)
        played = Round(book, game)
        lines.append(f"round {number} passes {played.passes} marks {len(played.marks)}\n")
        lines += [f"mark {routine} {mark}\n" for routine, mark in played.marks]
    return "".join(lines)


def stored(game):
    """The bytes that a game of the model is stored as."""
    fields = stored_games.Routine._fields
    return stored_games.stored(
        stored_games.Game(
            game.E[0],
            [stored_games.Routine(*(getattr(game, name)[number] for name in fields)) for number in range(game.R[0])],
            game.counter[: game.C[0]],
            game.entries("listed"),
            game.entries("tostart"),
            [signal for signal, flag in enumerate(game.broadcast) if flag],
        )
    )


def hold_saved(file, game):
    """Holds a saved game to the model's."""
    expected, found = stored(game), Path(file).read_bytes()
    if found != expected:
        fail(f"the game in {file}", found.hex(), expected.hex())


def random_orders(chance, book, rounds):
    """Some orders for these rounds and for one behind them, which is given only where the play is longer."""
    routines, _, signals, *_ = header(book)
    for _ in range(chance.randrange(1, 2 * rounds)):
        kind = chance.randrange(0 if signals else 1, len(KINDS))
        yield Order(chance.randrange(1, rounds + 2), kind, chance.randrange(signals if kind == 0 else routines))


def write_orders(file, orders, chance):
    """Writes a file of orders, with kinds as numbers and as words, and with lines that are skipped. The answer has the round and the number
    of each order's line, in the order in which they are given."""
    lines, places = [], []
    for order in orders:
        lines += chance.choice(([], ["# a remark"], [""], [" \t"]))
        gap = chance.choice((" ", "\t", "   "))
        lines.append(gap.join((str(order.round), chance.choice((str(order.kind), KINDS[order.kind])), str(order.number))))
        places.append((order.round, len(lines)))
    Path(file).write_text(chance.choice(("\n", "\r\n")).join(lines) + chance.choice(("", "\n")))
    return sorted(places)


def not_given(file, places, rounds):
    """What is told of the orders for rounds behind these."""
    return "".join(f"{file}:{line}: not given: round {number} was not played\n" for number, line in places if number > rounds)


def hold_play(file, book):
    """Holds a play without orders to the model, for as many rounds as are played by default."""
    game = set_up(book)
    expect(f"play {book.hex()[:60]}", run("play", file, "--save", "saved"), DONE, listing(book, game, 100))
    hold_saved("saved", game)
    tally["plays"] += 1


def shifted(text, rounds):
    """A listing whose rounds have numbers that are higher by so many."""
    return re.sub("(?<=^round )[0-9]+", lambda number: str(int(number[0]) + rounds), text, flags=re.MULTILINE)


def hold_halves(file, book, half, chance):
    """A play with orders, at once and in two halves: both list and save what the model has."""
    orders, game = list(random_orders(chance, book, 2 * half)), set_up(book)
    whole, first = listing(book, game, 2 * half, orders), listing(book, set_up(book), half, orders)
    all_places = write_orders("orders", orders, chance)
    later = write_orders("later", [order._replace(round=order.round - half) for order in orders if order.round > half], chance)
    for what, rounds, orders_file, places, rest, expected in (
        ("a play with orders", 2 * half, "orders", all_places, ["--save", "at_once"], whole),
        ("the first half of a play", half, "orders", all_places, ["--save", "kept"], first),
        ("the second half of a play", half, "later", later, ["--game", "kept", "--save", "kept"], shifted(whole[len(first) :], -half)),
    ):
        words = ("play", file, "--rounds", str(rounds), "--orders", orders_file, *rest)
        expect(what, run(*words), DONE, expected, not_given(orders_file, places, rounds))
    hold_saved("at_once", game)
    hold_saved("kept", game)
    tally["plays with orders"] += 1


def hold_accepted(file, book):
    """Holds what is printed of an accepted book by all three commands."""
    names = "".join(f"routine {routine} is never started\n" for routine in unstarted(book))
    expect(f"check {book.hex()[:60]}", run("check", file), DONE, f"{file}: accepted\n{names}")
    hold_shown(file, book)
    hold_play(file, book)
    for half in (1, 2, 5):
        hold_halves(file, book, half, random.Random(half * len(book)))
    tally["accepted books"] += 1


def book_with(steps, routines, signals, counters):
    """The book with these steps in its last routine, and two in each of the others."""
    return m.book(*[[m.rest(), m.mark(1)]] * (routines - 1), steps, signals=signals, counters=counters)


def ranges_of(op, book):
    """The lowest and highest number of each field of an op."""
    return [range_of(book, content) if content else (0, 0) for content in OPS[op][2:]]


def extreme_book():
    """A book with every op and each field at both its ends, in every combination."""
    counts, steps = (64, 64, 64), []
    book = book_with([], *counts)
    for op in range(IF):
        steps += [m.step(op, *fields) for fields in product(*ranges_of(op, book))]
    for opening in (IF, WHILE):
        for fields in product(*ranges_of(opening, book)):
            steps += [m.step(opening, *fields), m.rest(), *[m.else_(), m.rest_for(1)] * (opening == IF), m.end()]
    return book_with(steps, *counts)


def faulty_fields(op, ranges):
    """The fields of steps of an op of which one lies beyond its range or is stray, or all are."""
    lowest, widest = [low for low, _ in ranges], (255, 65535, 2**31 - 1)
    for at, (low, high) in enumerate(ranges):
        for value in {high + 1, widest[at], *((low - 1, -(2**31)) if at == 2 else ())}:
            yield *lowest[:at], value, *lowest[at + 1 :]
    yield widest


def faulty_books():
    """Books with few and with no signals and counters, with a faulty step of every op and with unknown ops."""
    for counts in ((1, 0, 0), (3, 5, 7)):
        place, book = 2 * counts[0] - 1, book_with([], *counts)
        for op in range(len(OPS)):
            for fields in faulty_fields(op, ranges_of(op, book)):
                yield 5, place, book_with([m.rest(), m.step(op, *fields)], *counts)
        for step in (m.step(21), m.step(255), m.step(21, 1, 2, -3)):
            yield 5, place, book_with([m.rest(), step], *counts)


def misnested_books():
    """A book with each fault of nesting, in its second routine."""
    branch, loop, rest = d.BRANCH, d.LOOP, m.rest()
    for place, steps in (
        (0, [m.end()]),
        (1, [rest, m.else_()]),
        (4, [branch, m.else_(), m.end(), rest, m.end()]),
        (3, [branch, m.else_(), rest, m.else_(), m.end()]),
        (4, [loop, rest, branch, m.else_(), m.else_()]),
        (2, [loop, rest, m.else_(), m.end()]),
        (5, [branch, loop, branch, m.end(), rest, m.else_()]),
        (1, [branch, loop, branch, m.end()]),
        (0, [branch, m.else_(), branch, m.end()]),
        (16, [branch] * 17 + [m.end()] * 17),
        (16, [branch] * 17),
        (15, [branch] * 16),
    ):
        yield 6, 3 + place, m.book([rest] * 3, steps, [m.end()], counters=1)


def other_books():
    """Books of which several counts, offsets and the length are wrong, and bytes far longer than any book."""
    yield 1, 0, b""
    yield 1, 0, bytes(11)
    yield 2, 0, bytes(12)
    yield 2, 0, bytes(100000)
    yield 2, 0, struct.pack("<6H", 65, 1025, 65, 65535, 0, 0)
    yield 3, 0, struct.pack("<6H", 2, 3, 0, 0, 13, 19) + bytes(7)
    yield 3, 0, d.largest() + b"\0"
    yield 3, 0, m.T3 + bytes(1000000)
    yield 7, 1, d.looped()
    yield 7, 3, m.book([m.rest()], [m.rest(), m.mark(1), d.LOOP, d.BRANCH, m.rest(), m.end(), m.end(), m.rest()], counters=1)


def hold_books():
    for number, place, book in (*vectors(), *faulty_books(), *misnested_books(), *other_books(), (0, 0, extreme_book())):
        Path("book").write_bytes(book)
        if number == 0:
            hold_accepted("book", book)
        else:
            hold_refusal("book", book, number, place)


def unread(file, error):
    return f"{file}: cannot be read: {os.strerror(error)}\n"


def unwritten(file, error):
    return f"{file}: cannot be written: {os.strerror(error)}\n"


def misuse(command, word, what):
    return f"{command}: {word}: {what}; {command} --help tells its use\n"


NO_NUMBERS = ("", "x", "1x", "-1", "+1", "0x10", " 1", "1 ", "1.0", "4294967296", "99999999999999999999999999")
NO_NUMBER = "not a number from 0 to 4294967295"


def misuses():
    """Words that are wrong use, and what is told."""
    yield [], misuse("zulqenat", "COMMAND", "missing")
    for word in ("chec", "checks", "", "--rounds", "-h"):
        yield [word, "book"], misuse("zulqenat", word, "unknown command")
    for command, words in (("check", 1), ("show", 2), ("play", 1)):
        name = "zulqenat " + command
        yield [command], misuse(name, "FILE", "missing")
        yield [command, *["0"] * words, "more"], misuse(name, "more", "one word too many")
        for option in ("--round", "-x", "--rounds=1"):
            yield [command, "book", option], misuse(name, option, "unknown option")
        yield [command, "nowhere"], unread("nowhere", ENOENT)
        yield [command, "."], unread(".", EISDIR)
    for word in NO_NUMBERS:
        if not word.startswith("-"):
            yield ["show", "book", word], misuse("zulqenat show", word, NO_NUMBER)
        yield ["play", "book", "--rounds", word], misuse("zulqenat play", word, NO_NUMBER)
    yield ["show", "book", "-1"], misuse("zulqenat show", "-1", "unknown option")
    for number in (2, 64, 4294967295):
        yield ["show", "book", str(number)], no_routine("book", number, 2)
    for option in ("--rounds", "--orders", "--game", "--save"):
        yield ["play", "book", option], misuse("zulqenat play", option, "the word behind it is missing")
        yield ["play", "book", option, "--save", "saved"], misuse("zulqenat play", option, "the word behind it is missing")
        yield ["play", "book", option, "1", option, "1"], misuse("zulqenat play", option, "given twice")
    for option in ("--orders", "--game"):
        yield ["play", "book", option, "nowhere"], unread("nowhere", ENOENT)


def hold_misuse():
    """Wrong use is told and nothing is printed or saved."""
    Path("book").write_bytes(m.T3)
    for words, told in misuses():
        expect(f"zulqenat {words}", run(*words), WRONG_USE, told=told)
        tally["wrong uses"] += 1
    for file, error in (("nowhere/saved", ENOENT), ("/dev/full", ENOSPC)):
        expect(f"--save {file}", run("play", "book", "--save", file), WRONG_USE, PLAY_T3, unwritten(file, error))
        tally["wrong uses"] += 1
    with open("/dev/full", "wb") as device:
        for words in (("check", "book"), ("show", "book"), ("play", "book"), ("--help",)):
            expect(f"{words} without room", run(*words, stdout=device), WRONG_USE, told="standard output: cannot be written\n")
            tally["wrong uses"] += 1


# Lines of a file of orders, and what is told of each.
NO_KIND = "not a kind of order: 0 broadcast, 1 start, 2 stop, 3 suspend, 4 resume"
ORDER_LINES = (
    (b"# 1 2", None),
    (b"", None),
    (b"1 start 1", None),
    (b"1", "KIND: missing"),
    (b"1 start", "NUMBER: missing"),
    (b"1 start 1 1", "1: one word too many"),
    (b"1 start 1 # and why", "#: one word too many"),
    (b"0 start 1", "0: not a round; rounds are counted from 1"),
    (b"x start 1", f"x: {NO_NUMBER}"),
    (b"4294967296 start 1", f"4294967296: {NO_NUMBER}"),
    (b"1 5 1", f"5: {NO_KIND}"),
    (b"1 START 1", f"START: {NO_KIND}"),
    (b"1 star 1", f"star: {NO_KIND}"),
    (b"1 -0 1", f"-0: {NO_KIND}"),
    (b"1 4294967296 1", f"4294967296: {NO_KIND}"),
    (b"1 start -1", f"-1: {NO_NUMBER}"),
    (b"1 start 1x", f"1x: {NO_NUMBER}"),
    (b"1 start 4294967296", f"4294967296: {NO_NUMBER}"),
    (b"1 start 1\0", "a byte 0: not text"),
    (b"\0# 1", "a byte 0: not text"),
    (b"1 resume 4294967295", None),
    (b"x", "KIND: missing"),
)


def hold_order_lines():
    """All lines that are no orders are told in one run, before anything is played; a refused book comes behind that."""
    Path("orders").write_bytes(b"\n".join(line for line, _ in ORDER_LINES))
    told = "".join(f"orders:{number}: {what}\n" for number, (_, what) in enumerate(ORDER_LINES, 1) if what)
    for book in (m.T3, m.ENDLESS):
        Path("book").write_bytes(book)
        expect("wrong lines", run("play", "book", "--orders", "orders", "--save", "unsaved"), WRONG_USE, told=told)
    tally["wrong uses"] += sum(what is not None for _, what in ORDER_LINES)


def hold_refused_orders():
    """A refused order ends the play, and nothing is saved. Orders of rounds that are not played are told, and not given."""
    Path("book").write_bytes(m.T3)
    left = not_given("orders", ((2, 3), (2, 5), (3, 4), (4, 1)), 1)
    for line in ("broadcast 1", "start 2", "stop 2", "suspend 64", "resume 4294967295"):
        Path("orders").write_text(f"4 {line}\n# orders\n2 {line}\n3 {line}\n2 start 9\n1 broadcast 0\n")
        game = set_up(m.T3)
        played = listing(m.T3, game, 1, [Order(1, 0, 0)])
        kind, number = line.split()
        of, numbers = ("signal", "signals 0 to 0") if kind == "broadcast" else ("routine", "routines 0 to 1")
        told = f"orders:3: refused 8: {kind} {of} {number}: the book has {numbers}\n"
        expect(f"the order {line}", run("play", "book", "--orders", "orders", "--save", "unsaved"), REFUSED, played, told)
        expect("one round", run("play", "book", "--orders", "orders", "--rounds", "1", "--save", "saved"), DONE, played, left)
        hold_saved("saved", game)
        tally["refused orders and games"] += 1
    if Path("unsaved").exists():
        sys.exit("a game is saved although the play was not played to its end")


def hold_order_of_lines():
    """Orders of a round are given in the order of their lines, which counts for two starts. A play that is over goes on for an order."""
    book = m.book([], [m.mark(1)], [m.mark(2)])
    Path("book").write_bytes(book)
    for first, second in ((1, 2), (2, 1)):
        Path("orders").write_text(f"4 start {first}\n4 1 {second}\n2 suspend 0\n")
        orders = [Order(4, 1, first), Order(4, 1, second), Order(2, 3, 0)]
        played = f"round 4 passes 1 marks 2\nmark {first} {first}\nmark {second} {second}\n"
        expected = "".join(f"round {number} passes 1 marks 0\n" for number in (1, 2, 3)) + played
        if listing(book, set_up(book), 100, orders) != expected:
            fail("the model", listing(book, set_up(book), 100, orders), expected)
        expect("two starts", run("play", "book", "--orders", "orders"), DONE, expected)
        tally["plays with orders"] += 1


def hold_games():
    """Stored games that are none or do not fit are refused; no rounds leave a game as it is."""
    Path("book").write_bytes(m.T3)
    data = stored(set_up(m.T3))
    lists = range(64)
    long_form = stored_games.stored(stored_games.Game(64, [stored_games.Routine()] * 64, [0] * 64, lists, lists, ()))
    for content, number, meaning in (
        (b"", 13, NOT_STORED),
        (data[:-1], 13, NOT_STORED),
        (data + b"\0", 13, NOT_STORED),
        (data + bytes(100000), 13, NOT_STORED),
        (b"\2" + data[1:], 13, NOT_STORED),
        (stored(set_up(m.T5)), 9, MEANINGS[9]),
        (long_form, 9, MEANINGS[9]),
    ):
        Path("game").write_bytes(content)
        told = f"game: refused {number}: {meaning}\n"
        expect("a game that is refused", run("play", "book", "--game", "game", "--save", "unsaved"), REFUSED, told=told)
        tally["refused orders and games"] += 1
    if Path("unsaved").exists():
        sys.exit("a game is saved although the one given was refused")
    for words in ((), ("--game", "saved")):
        expect("no rounds", run("play", "book", "--rounds", "0", *words, "--save", "saved"), DONE)
        hold_saved("saved", set_up(m.T3))


def hold_long_plays():
    """Plays that go on for ever: at most 100 rounds, or as many as are asked for."""
    book = m.book([d.LOOP, m.mark(-MILLION), m.rest(), m.end()], counters=1)
    Path("book").write_bytes(book)
    for words, rounds in (((), 100), (("--rounds", "3"), 3), (("--rounds", "0007"), 7), (("--rounds", "250"), 250)):
        expect(f"{rounds} rounds", run("play", "book", *words), DONE, listing(book, set_up(book), rounds))
        tally["plays"] += 1


def hold_help():
    """Help is printed with status 0, whatever else is given, and tells the exit statuses."""
    helps, statuses = {}, "\nExit status: 0 done, 1 refused, 2 wrong use.\n"
    for words in ((), ("check",), ("show",), ("play",), ("check", "a", "b"), ("play", "--rounds", "x")):
        status, printed, told = run(*words, "--help")
        usage = " ".join(("usage: zulqenat", *words[:1]))
        if status != DONE or told or not printed.startswith(usage) or not printed.endswith(statuses):
            fail(f"help of {words}", (status, printed, told), usage)
        if helps.setdefault(words[:1], printed) != printed:
            fail(f"help of {words}", printed, helps[words[:1]])
        tally["helps"] += 1
    named = re.findall("^  ([a-z]+) ", helps[()], re.MULTILINE)
    if named != ["check", "show", "play", "site"]:
        fail("the commands that help names", named, "all four")


PARTS = (hold_books, hold_misuse, hold_order_lines, hold_refused_orders, hold_order_of_lines, hold_games, hold_long_plays, hold_help)


def main():
    with tempfile.TemporaryDirectory() as folder:
        os.chdir(folder)
        for part in PARTS:
            part()
        os.chdir(ROOT)
    print("zulqenat: " + ", ".join(f"{count} {what}" for what, count in tally.items()) + ", each as it should be")


if __name__ == "__main__":
    main()
