#!/usr/bin/env python3
"""Gives the definitions and lemmas of this repository the spelling of today's Rattle: types in camel case, other names in snake case.

usage: python3 tools/respell.py        at the top of the repository, once

tools/respell.txt has a line 'OLD NEW' for each name. Names of src/, strings, inputs and outputs stay. A lemma whose name would fall together with that of the
function that it speaks of ends in _lem.
"""

import os
import re

HERE = os.path.dirname(os.path.realpath(__file__))
NAME = re.compile(r"[^\s(){}\[\];,.\"@`|]+")
# names that only one file means otherwise
ONE_FILE = {"crates/lines/proofs/Lawfuls.antt": {"of_parts": "of_parts_lem"}}


def names():
    with open(os.path.join(HERE, "respell.txt"), encoding="utf-8") as f:
        return dict(line.split() for line in f)


def sources(folder):
    for at, folders, files in os.walk(folder):
        folders[:] = sorted(f for f in folders if f != "out")
        for name in sorted(files):
            if name.endswith((".antt", ".rt")):
                yield os.path.join(at, name)


def respell(text, table):
    """Each name of the text that the table has."""
    return re.sub(NAME, lambda m: table.get(m.group(), m.group()), text)


def main():
    table = names()
    for path in sources("crates"):
        with open(path, encoding="utf-8") as f:
            old = f.read()
        new = respell(old, {**table, **ONE_FILE.get(path, {})})
        if new != old:
            with open(path, "w", encoding="utf-8") as f:
                f.write(new)
            print(path)


if __name__ == "__main__":
    main()
