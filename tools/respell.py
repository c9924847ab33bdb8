#!/usr/bin/env python3
"""Spells the repository's own names as today's Rattle does: definitions and lemmas in snake case.

usage: python3 tools/respell.py [FOLDER]      once, in the tree that the kit's port.py has turned

tools/respelled.tsv has a row for each name, old and new; a lemma that would have its definition's name ends in _lem. These names turn in
crates/ (definitions, proofs, clauses and comments) and in the code spans of README.md and docs/.
tools/respelled-by-port.tsv has the names of ours that port.py itself turned, which it did not turn in must-fail/ and in the pages.
Functions of src/, exported names, strings, inputs and outputs are in neither table.
"""

import os
import re
import sys

HERE = os.path.dirname(os.path.realpath(__file__))
TOKEN = re.compile(r"""[^\s(){}\[\].;,@"«»`:|]+""")


def table(name):
    with open(os.path.join(HERE, name), encoding="utf-8") as f:
        return dict(line.rstrip("\n").split("\t") for line in f)


def turned(text, names):
    return TOKEN.sub(lambda m: names.get(m[0], m[0]), text)


def page(text, names):
    return re.sub(r"`[^`\n]*`", lambda m: turned(m[0], names), text)


def rewrite(path, turn):
    with open(path, encoding="utf-8") as f:
        old = f.read()
    new = turn(old)
    if new != old:
        with open(path, "w", encoding="utf-8") as f:
            f.write(new)
    return new != old


def main(top):
    own = table("respelled.tsv")
    both = table("respelled-by-port.tsv") | own
    changed = 0
    for folder, inside, files in os.walk(top):
        inside[:] = sorted(d for d in inside if d not in (".git", "out", "target", "tools"))
        for name in sorted(files):
            path = os.path.join(folder, name)
            below = os.path.relpath(path, top).split(os.sep)[0]
            if below == "crates" and name.endswith((".antt", ".rt")):
                changed += rewrite(path, lambda t: turned(t, own))
            elif below == "crates" and name.endswith(".edit"):
                changed += rewrite(path, lambda t: turned(t, both))
            elif name.endswith(".md") and below in ("README.md", "docs"):
                changed += rewrite(path, lambda t: page(t, both))
    print(f"respell: {changed} files")


if __name__ == "__main__":
    main(sys.argv[1] if len(sys.argv) > 1 else ".")
