#!/usr/bin/env python3
"""Spells this repository's own definitions and lemmas by the rules of today's Rattle, by the table respell.tsv beside this script.

usage: tools/respell.py        at the top of the repository, once, right after /opt/rattle/port/port.py

A word is in snake case; a dash joins two names, and a plain word is added with `_`. Each row of the table is a name as it stood (or as port.py
left it), a tab, and its new spelling. Whole names turn, in specs/, proofs/, clauses, must-fail edits, and the code spans of the pages in docs/
and of the README. Names of Rust, strings, inputs and outputs are not in the table.
"""

import os
import re
import sys

HERE = os.path.dirname(os.path.realpath(__file__))
NAME = re.compile(r"[^\s(){}.;,@\"«»]+")
PROSE = re.compile(r"`[^`\n]*`")
SPAN = re.compile(r"[^\s(){}.;,@\"«»`/:]+")
QUIET = re.compile(r"\"(?:[^\"\\\n]|\\.)*\"|(?<![^\s(){}.;,@\"«»])--[^\n]*|//[^\n]*")


def turned(text, table, word=NAME):
    return word.sub(lambda m: table.get(m[0], m[0]), text)


def code(text, table):
    """Turns code; of a comment the code spans and the words that no English has, and of a string nothing."""
    mixed = {old: new for old, new in table.items() if re.search("[a-z][A-Z]", old)}
    out, at = [], 0
    for m in QUIET.finditer(text):
        out.append(turned(text[at : m.start()], table))
        out.append(m[0] if m[0][0] == '"' else turned(page(m[0], table), mixed, SPAN))
        at = m.end()
    return "".join(out) + turned(text[at:], table)


def page(text, table):
    return PROSE.sub(lambda m: turned(m[0], table, SPAN), text)


def main():
    if os.path.exists(os.path.join("docs", "PORT.md")):
        # A second run would turn some names once more: `node_at` is a new name and, of another lemma, an old one.
        return "respell: this repository is turned already (docs/PORT.md): nothing was written"
    with open(os.path.join(HERE, "respell.tsv"), encoding="utf-8") as f:
        table = dict(line.rstrip("\n").split("\t") for line in f)
    for folder, dirs, files in os.walk("."):
        dirs[:] = sorted(d for d in dirs if d not in ("out", ".git", "target", "tools"))
        for name in sorted(files):
            path = os.path.join(folder, name)
            how = code if name.endswith((".antt", ".rt", ".edit")) else page if name.endswith(".md") else None
            if how is None:
                continue
            with open(path, encoding="utf-8") as f:
                text = f.read()
            new = how(text, table)
            if new != text:
                with open(path, "w", encoding="utf-8") as f:
                    f.write(new)
                print("respelled", path)


if __name__ == "__main__":
    sys.exit(main())
