#!/usr/bin/env python3
"""Brings this repository's own definitions and lemmas to today's spelling: words in snake case.

usage: python3 tools/respell.py        at the top of the repository, after the kit's port/port.py and before any edit by hand
       python3 tools/respell.py names  prints the names it would turn, and those that fall together with another name

It turns specs/, proofs/ and src/ (there only names of specs/ and proofs/ are in lower camel case). Strings and comments
of src/ keep what they say; must-fail edits are turned by hand.
"""

import glob
import os
import re
import sys

NAME = re.compile(r"[^\W\d][\w'-]*")
HUMP = re.compile(r"^[a-z][a-z0-9_']*[A-Z]")

# Parts whose new word is not just the old one with underscores.
PARTS = {"getD": "get_or"}

# Lemmas that would get the name of the word they speak of, and an alias that would get it: (files, old, new).
APART = [
    ("crates/machine/proofs/**/*.antt", "in_left", "in_left_lem"),
    ("crates/machine/proofs/**/*.antt", "in_right", "in_right_lem"),
    ("crates/machine/proofs/**/*.antt", "in_whole", "in_whole_lem"),
    ("crates/image/proofs/**/*.antt", "numbers_of", "numbers_of_lem"),
    ("crates/image/proofs/**/*.antt", "parts_below", "parts_below_lem"),
]


def snake(part):
    if part in PARTS:
        return PARTS[part]
    if not HUMP.match(part):
        return part
    return re.sub(r"([A-Z])", lambda m: "_" + m.group(1).lower(), part)


def turned(name):
    return "-".join(snake(p) for p in name.split("-"))


def files():
    for kind in ("specs/**/*.antt", "proofs/**/*.antt", "src/**/*.rt"):
        for p in sorted(glob.glob("crates/*/" + kind, recursive=True)):
            if "/out/" not in p:
                yield p


def read(path):
    with open(path, encoding="utf-8") as f:
        return f.read()


def names_of(text):
    return NAME.findall(text)


def mapping():
    every, humps = set(), set()
    for p in files():
        for n in names_of(read(p)):
            every.add(n)
            if turned(n) != n:
                humps.add(n)
    return {n: turned(n) for n in humps}, every


def code_parts(text):
    """A .rt file's text in pieces: (is code, piece)."""
    pieces = re.split(r'(//[^\n]*|"(?:[^"\\]|\\.)*")', text)
    return [(i % 2 == 0, p) for i, p in enumerate(pieces)]


def put(text, table):
    return NAME.sub(lambda m: table.get(m.group(0), m.group(0)), text)


def turn_file(path, table):
    text = read(path)
    if path.endswith(".rt"):
        new = "".join(put(p, table) if code else p for code, p in code_parts(text))
    else:
        new = put(text, table)
    if new != text:
        with open(path, "w", encoding="utf-8") as f:
            f.write(new)
    return new != text


def set_apart():
    for where, old, new in APART:
        for p in sorted(glob.glob(where, recursive=True)):
            text = read(p)
            turn = put(text, {old: new})
            if turn != text:
                with open(p, "w", encoding="utf-8") as f:
                    f.write(turn)


def main(argv):
    if not argv:
        set_apart()
    table, every = mapping()
    together = sorted((n, t) for n, t in table.items() if t in every)
    by_new = {}
    for n, t in table.items():
        by_new.setdefault(t, []).append(n)
    together += sorted((" ".join(sorted(ns)), t) for t, ns in by_new.items() if len(ns) > 1)
    if argv == ["names"]:
        for n in sorted(table):
            print(n, table[n])
    for n, t in together:
        print(f"together: {n} becomes {t}, which is there")
    if argv == ["names"]:
        return 0
    changed = sum(turn_file(p, table) for p in files())
    print(f"respell: {len(table)} names in {changed} files")
    return 0


if __name__ == "__main__":
    raise SystemExit(main(sys.argv[1:]))
