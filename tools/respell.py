#!/usr/bin/env python3
"""Gives the definitions and lemmas of this repository the spelling of today's Rattle: words in snake case.

usage: python3 tools/respell.py        at the top of the repository, once, after the toolchain's port.py

The table is tools/names.tsv, a line for each name: the old one, a tab, the new one. Whole names are replaced, in proofs,
definitions and clauses, and in the code words of the documents. Functions of src/, strings, inputs and outputs stay.
"""
import os
import re

HERE = os.path.dirname(os.path.abspath(__file__))
TOP = os.path.dirname(HERE)
NAME = re.compile(r"(?<![\w'′₀-₉-])[^\W\d][\w'′₀-₉-]*")
GHOST = re.compile(r"\s*(pub )?(ghost|requires|ensures)\b|.*\bghost use\b")


def table():
    with open(os.path.join(HERE, "names.tsv"), encoding="utf-8") as f:
        return dict(line.rstrip("\n").split("\t") for line in f if line.strip())


def respelled(text, names):
    return NAME.sub(lambda m: names.get(m.group(0), m.group(0)), text)


def main():
    names = table()
    for folder, dirs, files in os.walk(os.path.join(TOP, "crates")):
        dirs[:] = sorted(d for d in dirs if d not in ("out", "target"))
        for name in sorted(files):
            path = os.path.join(folder, name)
            if name.endswith(".antt"):
                turn(path, lambda text: respelled(text, names))
            elif name.endswith(".rt"):
                turn(path, lambda text: "".join(respelled(line, names) if GHOST.match(line) else line for line in text.splitlines(True)))
    for path in [os.path.join(TOP, "README.md")] + [os.path.join(TOP, "docs", n) for n in sorted(os.listdir(os.path.join(TOP, "docs"))) if n.endswith(".md")]:
        turn(path, lambda text: re.sub(r"`[^`\n]+`", lambda m: respelled(m.group(0), names), text))


def turn(path, change):
    with open(path, encoding="utf-8") as f:
        text = f.read()
    new = change(text)
    if new != text:
        with open(path, "w", encoding="utf-8") as f:
            f.write(new)


main()
