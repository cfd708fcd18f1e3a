#!/usr/bin/env python3
"""Holds a script of plays to a model of rounds that is written from the documents, apart from the crates.

usage: round_model.py [--totals] SCRIPT.IN SCRIPT.OUT

Each accepted round is played by the model, from the game that the commands before it made: passes, marks and the total that was cut off
(where the line has it) must be the listed ones, and so must every dump. What is refused, and with which number, is taken from the listed
answers; passes, marks and total are 0 then. The last line says how much agrees (exit 0) or which command comes first that does not (exit
1). With --totals, SCRIPT.OUT is written anew where all agree, with each round's total at the end of its line.
"""

import operator
import struct
import sys
from collections import defaultdict, namedtuple

sys.dont_write_bytecode = True
from document_plays import line
from game_lines import FLAGS, answers
from stored_games import made, read

MARK, SET, ADD, TAKE, SIGNAL, SIGNAL_WITH, REST, REST_N, WAIT, WAIT_N, JOIN, JOIN_N, READ = range(13)
IF, ELSE, WHILE, END = range(17, 21)
RELATIONS = (operator.eq, operator.lt, operator.gt)
UNSTARTED, CONTINUING, RESTED, ENDED, STOPPED = range(5)
ORDERS = ("broadcast", "tostart", "tostop", "tosuspend", "toresume")
ORDER_STEPS = dict(enumerate(ORDERS[1:], 13))
SETS = (*ORDERS[2:], "broadcast")
HIGHEST = 1000000

Step = namedtuple("Step", "op a b n")
# A routine's stage and where it stands. While its turn goes on the stage is None.
Stand = namedtuple("Stand", "stage place begun left", defaults=(0, 0))


def routines_of(book):
    """The steps of each routine of an accepted book."""
    *_, directory, first = struct.unpack_from("<6H", book)
    steps = [Step(*fields) for fields in struct.iter_unpack("<BBHi", book[first:])]
    return [steps[start : start + count] for start, count in struct.iter_unpack("<2H", book[directory:first])]


def jumps(steps):
    """Where a test that does not hold, an else and an end lead. 'A place on an else stands for the end of the first block, on a while's end
    for its next test.'"""
    behind, opened = {}, []
    for place, step in enumerate(steps):
        if step.op in (ELSE, END):
            opening = opened.pop()
            behind[opening] = place + 1
        if step.op == END:
            behind[place] = opening if steps[opening].op == WHILE else place + 1
        elif step.op in (IF, ELSE, WHILE):
            opened.append(place)
    return behind


class Game:
    """A game of so many routines, signals and counters, with so many to start, and all else 0. Its fields have the names of pokes; each
    holds 64 numbers, or one."""

    def __init__(self, routines=0, signals=0, counters=0, starting=0):
        self.R, self.E, self.C, self.listed_len, self.tostart_len = [routines], [signals], [counters], [0], [starting]
        for name in ("stage", "place", "left", "counter", "listed", "tostart", *FLAGS):
            setattr(self, name, [0] * 64)

    def poke(self, field, index, value):
        numbers = getattr(self, field)
        numbers[int(index) if len(numbers) > 1 else 0] = int(value)

    def entries(self, name):
        return getattr(self, name)[: getattr(self, name + "_len")[0]]

    def put(self, name, entries):
        setattr(self, name, entries + [0] * (64 - len(entries)))
        setattr(self, name + "_len", [len(entries)])

    def obey(self, order, number):
        """'Each joins its list for the next round.' 'A start of a routine that isn't in stage 0, or is already to start, adds nothing.'"""
        if order != "tostart":
            getattr(self, order)[number] = 1
        elif self.stage[number] == UNSTARTED and number not in self.entries(order):
            self.put(order, self.entries(order) + [number])

    def dump(self):
        yield line("game", self.R + self.E + self.C)
        for number in range(self.R[0]):
            yield line("routine", [number] + [field[number] for field in (self.stage, self.susp, self.place, self.begun, self.left)])
        yield line("counters", self.counter[: self.C[0]])
        for name in ("listed", "tostart"):
            yield line(name, self.entries(name))
        for name in SETS:
            yield line(name, [number for number, flag in enumerate(getattr(self, name)) if flag])


class Round:
    """A round, which changes the game: its passes, its marks, and in `lost` the total that its additions cut off."""

    def __init__(self, book, game):
        self.game, self.routines = game, routines_of(book)
        self.jumps = [jumps(steps) for steps in self.routines]
        self.marks, self.lost, self.numbers = [], 0, defaultdict(list)
        self.move = self.eoi = False
        self.eight_actions()
        # rules 35 to 38
        self.passes = 1
        while not all([self.turn(routine) for routine in self.listed]):
            self.passes += 1
            self.eoi, self.move = not self.move, False

    def eight_actions(self):
        """Those of section 5.4. 'Stopping gives stage 4 to a listed routine in stage 1 or 2 and to no other. The end signal of each routine
        in the stop set is present in the new round either way.' 'a resume comes before a suspend'"""
        game, starting = self.game, self.game.entries("tostart")
        self.listed, self.present, self.end_signals = [], game.broadcast, game.tostop
        for routine in starting:
            game.stage[routine] = CONTINUING
        for routine in game.entries("listed") + starting:
            if game.stage[routine] != ENDED:
                game.stage[routine] = STOPPED if game.tostop[routine] else CONTINUING
            if game.stage[routine] == CONTINUING:
                self.listed.append(routine)
        for routine in range(64):
            game.susp[routine] = int(game.susp[routine] and not game.toresume[routine] or game.tosuspend[routine])
        game.put("listed", self.listed)
        game.put("tostart", [])
        for name in SETS:
            setattr(game, name, [0] * 64)

    def turn(self, routine):
        """A turn, and whether the routine is done for this round: rules 33 and 34."""
        game = self.game
        if game.susp[routine] or game.stage[routine] != CONTINUING:
            return True
        stand = Stand(None, game.place[routine], game.begun[routine], game.left[routine])
        while stand.stage is None:
            stand = self.step(routine, stand)
        game.stage[routine], game.place[routine], game.begun[routine], game.left[routine] = stand
        if stand.stage == ENDED:
            self.end_signals[routine], self.move = 1, True
        return stand.stage != CONTINUING

    def step(self, routine, stand):
        """Where the step at which a routine stands leaves it."""
        steps, place = self.routines[routine], stand.place
        if place == len(steps):
            return Stand(ENDED, place)
        step = steps[place]
        if step.op in (REST, REST_N):
            return paused(step, stand)
        if WAIT <= step.op <= READ:
            return self.tried(step, stand)
        if step.op in (IF, WHILE) and RELATIONS[step.b](self.game.counter[step.a], step.n):
            return Stand(None, place + 1)
        self.change(routine, step)
        return Stand(None, self.jumps[routine].get(place, place + 1))

    def change(self, routine, step):
        """What a step does that is past at once: rules 1, 12, 13 and 19 to 22."""
        counters = self.game.counter
        if step.op == MARK:
            self.marks.append((routine, step.n))
        elif step.op == SET:
            counters[step.a] = step.n
        elif step.op in (ADD, TAKE):
            self.add(step.a, step.n if step.op == ADD else counters[step.b])
        elif step.op in (SIGNAL, SIGNAL_WITH):
            self.present[step.a], self.move = 1, True
            if step.op == SIGNAL_WITH:
                self.numbers[step.a].append(counters[step.b])
        elif step.op in ORDER_STEPS:
            self.game.obey(ORDER_STEPS[step.op], step.a)

    def add(self, counter, number):
        """'An addition beyond an end gives that end', and 'tells, besides its sum, the distance between the true sum and the one given'."""
        true_sum = self.game.counter[counter] + number
        given = min(max(true_sum, -HIGHEST), HIGHEST)
        self.game.counter[counter] = given
        self.lost += abs(true_sum - given)

    def tried(self, step, stand):
        """A try of op 8 to 12: rules 14 to 18 and 25 to 32."""
        if self.is_there(step):
            if step.op == READ:
                self.game.counter[step.b] = self.numbers[step.a][step.n - 1]
            return Stand(None, stand.place + 1)
        pause = paused(step, stand)
        return pause if self.eoi or pause.stage is None else stand._replace(stage=CONTINUING)

    def is_there(self, step):
        """'its signal, the joined routine's end or the signal's k-th number'; 'a routine that was stopped counts as ended for joins'"""
        if step.op in (WAIT, WAIT_N):
            return self.present[step.a]
        if step.op in (JOIN, JOIN_N):
            return self.end_signals[step.a] or self.game.stage[step.a] in (ENDED, STOPPED)
        return len(self.numbers[step.a]) >= step.n

    def lines(self):
        yield line("round", [0, 0, self.passes, len(self.marks), self.lost])
        for mark in self.marks:
            yield line("mark", mark)


def paused(step, stand):
    """Where a pause leaves a routine. 'Op 6, or a reading that stayed missing, leaves the place on the step that follows it in the book;
    every other pause leaves it on its own step. .. Begun is set when op 7, 9 or 11 pauses'. With no count left these three are past."""
    if step.op not in (REST_N, WAIT_N, JOIN_N):
        return Stand(RESTED, stand.place + (step.op in (REST, READ)))
    count = stand.left if stand.begun else max(step.n, 0)
    return Stand(RESTED, stand.place, 1, count - 1) if count else Stand(None, stand.place + 1)


def set_up(book):
    """'all stages, counters and places 0, routine 0 is to start, the rest empty'"""
    routines, _, signals, counters = struct.unpack_from("<4H", book)
    return Game(routines, signals, counters, starting=1)


def played(steps):
    """Each command with what it answers and what is listed; of all but rounds and dumps these are the same."""
    book, game = b"", Game()
    for command, told in steps:
        answer, (word, *rest) = told, command.split()
        if word == "book":
            book = bytes.fromhex(rest[0].strip("-"))
        elif word == "poke":
            game.poke(*rest)
        elif told == ["setup 0 0"]:
            game = set_up(book)
        elif told == ["load 0 0"]:
            game = set_up(book)
            for poke, _ in list(made(read(bytes.fromhex(rest[0]))))[1:]:
                game.poke(*poke.split()[1:])
        elif told == ["order 0 0"]:
            game.obey(ORDERS[int(rest[0])], int(rest[1]))
        elif word == "dump":
            answer = list(game.dump())
        elif word == "round":
            verdict = told[0].split()[1:3]
            refused = [line("round", [*verdict, 0, 0, 0])]
            answer = list(Round(book, game).lines()) if verdict == ["0", "0"] else refused
        yield command, answer, told


def agrees(answer, told):
    """Whether this is listed, but for the total where the line of a round has none."""
    if told and told[0].startswith("round ") and len(told[0].split()) == 5:
        told = [told[0] + " " + answer[0].split()[5], *told[1:]]
    return answer == told


def main():
    *options, script_in, script_out = sys.argv[1:]
    commands, listed, lines = open(script_in).read().splitlines(), open(script_out).read().splitlines(), []
    for number, (command, answer, told) in enumerate(played(answers(commands, listed)), 1):
        if not agrees(answer, told):
            sys.exit(f"{script_in}, line {number}: '{command}' answers {answer}, and not {told}")
        lines += answer
    if len(lines) != len(listed):
        sys.exit(f"{script_out}: there are more lines than the commands answer")
    if options == ["--totals"]:
        open(script_out, "w").write("".join(text + "\n" for text in lines))
    rounds = [text for text in lines if text.startswith("round 0 0 ")]
    dumps = sum(text.startswith("game ") for text in lines)
    cutting = sum(not text.endswith(" 0") for text in rounds)
    print(f"{script_in}: {len(rounds)} rounds, {cutting} of which cut something off, and {dumps} dumps, all as the model has them")


if __name__ == "__main__":
    main()
