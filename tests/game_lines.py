#!/usr/bin/env python3
"""Takes from the vectors' plays the lines that crates/game_vectors answers.

usage: game_lines.py PLAYS.IN PLAYS.OUT STDIN STDOUT

The lines log and facts are left out, for they ask how a round went and not for its answer. After a poke with a value that the field's type
cannot hold so is every dump, which may show it, until that field is overwritten, or the game set up or read anew. All others stay as they
are, with their answers.
"""
import sys

LARGEST = {"stage": 2**8, "place": 2**16, "left": 2**32, "listed": 2**8, "tostart": 2**8}
FLAGS = ("susp", "begun", "tostop", "tosuspend", "toresume", "broadcast")
DUMP = ("counters", "listed", "tostart", "tostop", "tosuspend", "toresume", "broadcast")


def holds(field, value):
    if field == "counter":
        return True
    return 0 <= value < (2 if field in FLAGS else LARGEST.get(field, 2**32))


def answers(commands, lines):
    """Each command with the lines that it answers."""
    at = 0
    for command in commands:
        word = command.split()[0]
        end = at
        if word in ("read", "show", "setup", "order", "unstarted", "store", "load", "log", "facts"):
            end += 1
        elif word == "round":
            end += 1 + int(lines[at].split()[4])
        elif word == "dump":
            end += 1
            while lines[end].startswith("routine"):
                end += 1
            end += len(DUMP)
        yield command, lines[at:end]
        at = end


def select(steps):
    """The commands that are answered, with their answers."""
    unheld = set()
    for command, told in steps:
        word, *rest = command.split()
        if word == "poke":
            field = (rest[0], rest[1])
            if holds(rest[0], int(rest[2])):
                unheld.discard(field)
            else:
                unheld.add(field)
        if told in (["setup 0 0"], ["load 0 0"]):
            unheld.clear()
        if word not in ("log", "facts") and not (word == "dump" and unheld):
            yield command, told


def main():
    plays_in, plays_out, stdin, stdout = sys.argv[1:]
    commands = [line for line in open(plays_in).read().split("\n") if line]
    steps = list(select(answers(commands, open(plays_out).read().split("\n"))))
    open(stdin, "w").write("".join(command + "\n" for command, _ in steps))
    open(stdout, "w").write("".join(line + "\n" for _, told in steps for line in told))


if __name__ == "__main__":
    main()
