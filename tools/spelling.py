#!/usr/bin/env python3
"""Spells the repository's own definitions and lemmas as Rattle spells words: in snake case. Run once, at the top, after the port.

usage: python3 tools/spelling.py

spelling.tsv, beside this file, has a row for each name: old, a tab, new. It turns whole words: in the crates' .rt and .antt files and
must-fail edits, comments too; in the pages, what stands between backticks. A label that Rattle makes, behind 'tie.' or 'goal.', stays.
"""
import os
import re

HERE = os.path.dirname(os.path.abspath(__file__))
TOP = os.path.dirname(HERE)
WORD = re.compile(r"(?<!tie\.)(?<!goal\.)(?<![^\s(){}\[\].,;:@\"«»=|→←λ`′'+])[^\s(){}\[\].,;:@\"«»=|→←λ`+]+")

with open(os.path.join(HERE, "spelling.tsv"), encoding="utf-8") as table:
    NEW = dict(line.rstrip("\n").split("\t") for line in table)


def turned(text):
    return WORD.sub(lambda m: NEW.get(m[0], m[0]), text)


def files():
    for folder, dirs, names in os.walk(os.path.join(TOP, "crates")):
        dirs[:] = sorted(d for d in dirs if d != "out")
        for name in sorted(names):
            if name.endswith((".rt", ".antt", ".edit")):
                yield os.path.join(folder, name), turned
    spans = re.compile(r"`[^`\n]+`")
    for page in ["README.md", "crates/README.md"] + ["docs/" + n for n in sorted(os.listdir(os.path.join(TOP, "docs"))) if n.endswith(".md")]:
        yield os.path.join(TOP, page), lambda text: spans.sub(lambda m: turned(m[0]), text)


for path, turn in files():
    with open(path, encoding="utf-8") as f:
        old = f.read()
    new = turn(old)
    if new != old:
        with open(path, "w", encoding="utf-8") as f:
            f.write(new)
