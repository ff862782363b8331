#!/usr/bin/env python3
"""Renames definitions and lemmas of this repository to today's spelling: words in snake case, a dash only between two names.

usage: tools/respell.py        at the top of the repository, once, behind the kit's port.py

tools/respell.tsv has a line for each name: the old one, a tab, the new one. Text of .antt files, and clauses and ghost uses of .rt files,
are rewritten in place; comments change only where a name stands in backticks.
"""

import glob
import os
import re
import sys

HERE = os.path.dirname(os.path.realpath(__file__))
# a comment, a string, or a word that may be a name, with what stands before it
WORD = re.compile(r"(?P<skip>\"(?:[^\"\\\n]|\\.)*\")|(?P<note>(?:--|//)[^\n]*)|(?P<word>[^\s(){}\[\];,@\"«»\\.`]+)")
NOTE = re.compile(r"`[^`\n]*`|\b[a-z][a-z0-9]*(?:[A-Z][a-z0-9]*)+\b")


def table():
    with open(os.path.join(HERE, "respell.tsv"), encoding="utf-8") as f:
        return dict(line.rstrip("\n").split("\t") for line in f if line.strip())


def turned(text, names, source):
    """The text with each name of the table in today's spelling; in source text only names in camel case are names of the table."""

    def name(word, before):
        new = names.get(word)
        if new is None:
            return word
        plain = re.fullmatch(r"[a-z0-9_]+", word)
        if plain and (source or before == "."):
            return word
        if source and "-" in word:
            return word
        return new

    def note(m):
        return NOTE.sub(lambda n: re.sub(r"[^\s(){}\[\];,@\"«»\\.`]+", lambda w: name(w.group(), ""), n.group()), m)

    def each(m):
        if m.group("skip"):
            return m.group()
        if m.group("note"):
            return note(m.group())
        return name(m.group(), text[m.start() - 1 : m.start()])

    return WORD.sub(each, text)


def main():
    if len(sys.argv) > 1:
        print(__doc__)
        return 0 if sys.argv[1:] == ["--help"] else 2
    names = table()
    changed = 0
    for path in sorted(glob.glob("crates/*/**/*.antt", recursive=True) + glob.glob("crates/*/**/*.rt", recursive=True)):
        if "/out/" in path:
            continue
        with open(path, encoding="utf-8", newline="") as f:
            old = f.read()
        new = turned(old, names, path.endswith(".rt"))
        if new != old:
            with open(path, "w", encoding="utf-8", newline="") as f:
                f.write(new)
            changed += 1
    print(f"respell: {changed} files changed")
    return 0


if __name__ == "__main__":
    raise SystemExit(main())
