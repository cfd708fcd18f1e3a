#!/usr/bin/env python3
"""Spells the names of this repository's definitions and lemmas in snake case, by the table respelled_names.tsv beside this file.

usage: tools/respell_names.py, once, at the top, after the port of the language's own spelling.

A row of the table: the places where it applies (all; or pages, that is edits and pages alone, whose names nothing has turned yet), the old
name, the new one. A lemma that would have had a definition's name ends in _lem. A word turns only as a whole: in definitions, proofs,
clauses and edits everywhere but in text in quotes; in comments and pages a name with a dash only between backticks, since prose has such
words too. Functions of src/, exported names, inputs and outputs keep theirs.
"""

import os
import re
import sys

TOP = os.path.dirname(os.path.dirname(os.path.abspath(__file__)))
WORD = re.compile(r"[^\s(){}.;,:@\"«»\[\]`|]+")
SPAN = re.compile(r"`[^`\n]*`")


def table():
    everywhere, pages = {}, {}
    with open(os.path.join(TOP, "tools", "respelled_names.tsv"), encoding="utf-8") as rows:
        for row in rows:
            where, old, new = row.rstrip("\n").split("\t")
            pages[old] = new
            if where == "all":
                everywhere[old] = new
    return everywhere, pages


def words(text, names):
    return WORD.sub(lambda m: names.get(m.group(0), m.group(0)), text)


def prose(text, names):
    plain = {old: new for old, new in names.items() if re.search(r"[a-z0-9][A-Z]", old) and "-" not in old}
    out, at = [], 0
    for span in SPAN.finditer(text):
        out += [words(text[at : span.start()], plain), words(span.group(0), names)]
        at = span.end()
    return "".join(out) + words(text[at:], plain)


def code(text, names, mark):
    """Code, whose comments begin with mark, line by line."""
    quiet = re.compile(r'("(?:[^"\\\n]|\\.)*"|' + ("(?<!\\S)--" if mark == "--" else "//") + r"[^\n]*)")
    parts = quiet.split(text)
    for i, part in enumerate(parts):
        if i % 2 == 0:
            parts[i] = words(part, names)
        elif not part.startswith('"'):
            parts[i] = prose(part, names)
    return "".join(parts)


def clauses(text, names):
    """A source file: no function's name has a capital inside, so only such words and those of a `ghost use` can be a definition's."""
    inside = {old: new for old, new in names.items() if re.search(r"[a-z0-9][A-Z]", old)}
    return code(text, inside, "//")


def turned(path, text, everywhere, pages):
    if path.endswith(".antt"):
        return code(text, everywhere, "--")
    if path.endswith(".rt"):
        return clauses(text, everywhere)
    if path.endswith(".edit"):
        in_source = "file: src/" in text
        return clauses(text, pages) if in_source else code(text, pages, "--")
    return prose(text, pages)


def main():
    everywhere, pages = table()
    changed = 0
    for folder, folders, files in os.walk(TOP):
        folders[:] = [f for f in folders if f not in (".git", "out", "target")]
        for name in files:
            if not name.endswith((".antt", ".rt", ".edit", ".md")) or name == "CHANGES.md" or name.startswith("PORT"):
                continue
            path = os.path.join(folder, name)
            with open(path, encoding="utf-8") as it:
                old = it.read()
            new = turned(path, old, everywhere, pages)
            if new != old:
                with open(path, "w", encoding="utf-8") as it:
                    it.write(new)
                changed += 1
    print(f"{changed} files changed")
    return 0


if __name__ == "__main__":
    sys.exit(main())
