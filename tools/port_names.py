#!/usr/bin/env python3
"""Brings the names of this repository's definitions and lemmas to the library's spelling: facts and
types in camel case, everything else in snake case, a dash only between two names.

usage: tools/port_names.py        at the top of the repository, once, after the kit's port.py

The table beside this script, port_names.tsv, has a row for each name: old, a tab, new. Each whole
name in crates/ turns, in antt files, in the clauses of source files and in must-fail edits. A name
with a dash, or with a capital and an underscore, is no name of the code, so functions keep theirs.
"""

import os
import re
import sys

NAME = re.compile(r"[^\s(){}.;,@\"«»]+")
HERE = os.path.dirname(os.path.realpath(__file__))


def table():
    with open(os.path.join(HERE, "port_names.tsv"), encoding="utf-8") as rows:
        return dict(row.rstrip("\n").split("\t") for row in rows)


def files(root):
    for folder, folders, names in os.walk(root):
        folders[:] = sorted(f for f in folders if f != "out")
        for name in sorted(names):
            if name.endswith((".antt", ".rt", ".edit")):
                yield os.path.join(folder, name)


def main():
    names = table()
    turned = 0
    for path in files("crates"):
        with open(path, encoding="utf-8") as f:
            text = f.read()
        new = NAME.sub(lambda m: names.get(m[0], m[0]), text)
        if new != text:
            turned += 1
            with open(path, "w", encoding="utf-8") as f:
                f.write(new)
    print(f"port_names: {len(names)} names, {turned} files turned")
    return 0


if __name__ == "__main__":
    sys.exit(main())
