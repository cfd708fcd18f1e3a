#!/usr/bin/env python3
"""Runs the program rounds on the example books, on every refused book of the vectors, on books at a limit and on plays without end.

First: examples/program.sh rounds, which builds the program. What an accepted book prints is written out here, T3's as document 01 shows it.
"""

import subprocess
import sys
from pathlib import Path

ROOT = Path(__file__).parent.parent
PROGRAM = ROOT / "target/bin/rounds"
EXAMPLES = ROOT / "examples"

sys.dont_write_bytecode = True
sys.path.insert(0, str(EXAMPLES))
import make_books as m

T3 = """\
round 1 passes 2 marks 0
round 2 passes 2 marks 1
mark 0 7
"""

T5 = """\
round 1 passes 1 marks 0
round 2 passes 2 marks 1
mark 1 5
"""

T9 = """\
round 1 passes 1 marks 0
round 2 passes 2 marks 0
round 3 passes 1 marks 1
mark 0 4
"""

FACTIONS = """\
round 1 passes 2 marks 1
mark 0 3
round 2 passes 3 marks 3
mark 1 8
mark 1 -4
mark 0 4
round 3 passes 2 marks 1
mark 2 1
round 4 passes 3 marks 3
mark 1 8
mark 1 -4
mark 0 4
round 5 passes 2 marks 1
mark 2 1
round 6 passes 3 marks 3
mark 1 8
mark 1 1
mark 0 -2
round 7 passes 1 marks 1
mark 2 1
round 8 passes 3 marks 0
round 9 passes 2 marks 2
mark 1 10
mark 0 10
"""


FORGOTTEN = """\
round 1 passes 1 marks 0
round 2 passes 1 marks 1
mark 1 1
"""


HOARD = """\
round 1 passes 1 marks 0
round 2 passes 1 marks 0
round 3 passes 1 marks 0
round 4 passes 1 marks 0
round 5 passes 1 marks 1
mark 0 4
"""


def run(what, content, told):
    answer = subprocess.run([PROGRAM], input=content, stdout=subprocess.PIPE, check=True).stdout.decode()
    if answer != told:
        sys.exit(f"{what}: printed {answer!r}, and not {told!r}")


def examples():
    for name, told in (("t3", T3), ("t5", T5), ("t9", T9), ("factions", FACTIONS), ("forgotten", FORGOTTEN), ("hoard", HOARD)):
        yield name, (EXAMPLES / (name + ".book")).read_bytes(), told
    for name, told in (("endless", "refused 7 1\n"), ("wrong_step", "refused 5 2\n")):
        yield name, (EXAMPLES / (name + ".book")).read_bytes(), told


def refused_vectors():
    for line in (ROOT / "crates/book_vectors/stdin").read_text().splitlines():
        number, place, digits = line.split()
        if number != "0":
            yield line[:60], b"" if digits == "-" else bytes.fromhex(digits), f"refused {number} {place}\n"


def limits():
    """No input, a largest book, and inputs that are longer."""
    largest = m.book([m.mark(1)] * 1024, *[[]] * 63)
    yield "no input", b"", "refused 1 0\n"
    yield "a largest book", largest, "round 1 passes 1 marks 1024\n" + "mark 0 1\n" * 1024
    yield "a largest book with a byte behind it", largest + b"\0", "refused 3 0\n"
    yield "a book with far too much behind it", m.T3 + bytes(100000), "refused 3 0\n"
    yield "zeros", bytes(100000), "refused 2 0\n"


def forever():
    """Routines that never end: 100 rounds are played, with no mark, and with as many as go round in a while."""
    for marks in (0, 1021):
        book = m.book([m.while_(0, m.EQUAL, 0), *[m.mark(-1000000)] * marks, m.rest(), m.end()], counters=1)
        lines = "mark 0 -1000000\n" * marks
        yield f"{marks} marks a round", book, "".join(f"round {number} passes 1 marks {marks}\n{lines}" for number in range(1, 101))


def main():
    count = 0
    for group in (examples, refused_vectors, limits, forever):
        for what, content, told in group():
            run(what, content, told)
            count += 1
    print(f"rounds: {count} inputs, each printed as it should be")


if __name__ == "__main__":
    main()
