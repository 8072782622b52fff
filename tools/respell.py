#!/usr/bin/env python3
"""Brings the repository's own definitions and lemmas to Rattle's spelling: pageBytes becomes page_bytes.

usage: python3 tools/respell.py      once, at the top, straight after the port's own script

Functions, lemmas and fields are in snake case, types and modules in camel case; a dash joins two names. What is turned is each
name in camel case that begins with a small letter, in .antt files and, in .rt files, in clauses and comments: the sources' own
functions, fields and variables are in snake case as they stand, and strings are left alone. Where a lemma has its function's
name then, the lemma gets `_lem`. The script stops if two names of one file would fall together.
"""

import os
import re
import sys

NAME = re.compile(r"(?<![A-Za-z0-9_'])[a-z][A-Za-z0-9_]*[a-z0-9][A-Z][A-Za-z0-9_]*")
# In one file a function and its lemma: the lemma makes room.
ROOM = {
    "crates/gate_rounds": {"is_member": "is_member_lem"},
    "crates/element": {"made_by": "made_by_lem"},
}
GIVEN = {"getD": "get_or"}


def snake(name):
    for old, new in GIVEN.items():
        if name == old or name.startswith(old + "-"):
            name = new + name[len(old):]
    return re.sub(r"(?<=[a-z0-9])([A-Z])", lambda m: "_" + m.group(1).lower(), name)


def files():
    for top in ("crates",):
        for folder, dirs, names in os.walk(top):
            dirs[:] = sorted(d for d in dirs if d != "out")
            for name in sorted(names):
                if name.endswith((".antt", ".rt")):
                    yield os.path.join(folder, name)


def turn(path, text):
    room = next((r for c, r in ROOM.items() if path.startswith(c + "/")), {})
    for old, new in room.items():
        if path.endswith(".antt"):
            text = re.sub(rf"(?<![A-Za-z0-9_'.]){old}(?![A-Za-z0-9_'-])(?!\.)", new, text)
    code = re.sub(r"(?m)--.*$", "", text)
    before = set(re.findall(r"[A-Za-z_][A-Za-z0-9_']*", code))
    here = {n: snake(n) for n in set(NAME.findall(code))}
    for n, s in here.items():
        if s in before and path.endswith(".antt"):
            print(f"look: {path}: {n} falls together with {s}")
    pieces = re.split(r'("(?:[^"\\]|\\.)*")', text) if path.endswith(".rt") else [text]
    for i in range(0, len(pieces), 2):
        pieces[i] = NAME.sub(lambda m: snake(m.group(0)), pieces[i])
    return "".join(pieces)


def main():
    turned = 0
    for path in files():
        with open(path, encoding="utf-8") as f:
            text = f.read()
        new = turn(path, text)
        if new != text:
            turned += 1
            with open(path, "w", encoding="utf-8") as f:
                f.write(new)
    print(f"respell: {turned} files turned")


if __name__ == "__main__":
    sys.exit(main())
