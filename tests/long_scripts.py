#!/usr/bin/env python3
"""Runs game_vectors on a script of more than 8 MB, its own many times over, and on lines that are about as long as a piece of the input.

First: examples/program.sh game_vectors, which builds the program.
"""
import subprocess
import sys
from pathlib import Path

ROOT = Path(__file__).parent.parent
PROGRAM = ROOT / "target/bin/game_vectors"
VECTORS = ROOT / "crates/game_vectors"
LEAST = 8 * 2**20
PIECE = 2**16


def run(what, script, told):
    answer = subprocess.run([PROGRAM], input=script, stdout=subprocess.PIPE, check=True).stdout
    if answer != told:
        sys.exit(f"{what}: the answers differ")
    print(f"{what}: {len(script)} bytes, {len(told)} bytes answered")


def repeated():
    script, told = ((VECTORS / name).read_bytes() for name in ("stdin", "stdout"))
    times = LEAST // len(script) + 1
    return script * times, told * times


def lines():
    """A line has at most as many bytes as a piece, its end included; a longer one is no command, and is told once."""
    script, told = b"", b""
    for length in (PIECE - 1, PIECE, PIECE + 1, PIECE, 2 * PIECE, 7 * PIECE + 3, PIECE - 1):
        script += b"show ".ljust(length - 1, b"0") + b"\n"
        told += b"show -\n" if length <= PIECE else b"not a command\n"
    return script + b"read", told + b"read 1 0\n"


def main():
    run("a long script", *repeated())
    run("long lines", *lines())


if __name__ == "__main__":
    main()
