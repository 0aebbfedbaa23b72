#!/usr/bin/env python3
"""Spells the repository's own definitions and lemmas as names.tsv beside this script says: a row for each, old, a tab, new.

usage: python3 tools/spell.py [FOLDER]    rewrites crates/ of FOLDER (default: the folder it is run in) in place

Whole names alone turn. In .antt and .rt files comments stay, but for what stands between backquotes; in must-fail/*.edit all of it turns.
A name that Rattle made of the source, behind `c.`, `w.`, `l.`, `g.` or `goal.`, stays.
"""
import os
import re
import sys

HERE = os.path.dirname(os.path.realpath(__file__))
with open(os.path.join(HERE, "names.tsv"), encoding="utf-8") as f:
    TABLE = dict(line.rstrip("\n").split("\t") for line in f if line.strip())
TOKEN = re.compile(r"[^\s(){}\[\];,.:«»λ\"`|]+")
MADE = re.compile(r"(?:^|[^\w.'])(?:c|w|l|g|goal|given)(?:\.[^\s(){}\[\];,.:«»λ\"`]+)*\.$")


def turned(text):
    def one(m):
        new = TABLE.get(m.group(0))
        if new is None or MADE.search(text[: m.start()]):
            return m.group(0)
        return new

    return TOKEN.sub(one, text)


def line_turned(line, mark):
    at = re.search(r"(^|\s)" + re.escape(mark), line)
    code, comment = (line, "") if at is None else (line[: at.start()], line[at.start():])
    return turned(code) + re.sub(r"`[^`]*`", lambda m: turned(m.group(0)), comment)


def main():
    root = sys.argv[1] if len(sys.argv) > 1 else "."
    for folder, dirs, files in os.walk(os.path.join(root, "crates")):
        dirs[:] = sorted(d for d in dirs if d != "out")
        for name in sorted(files):
            mark = {".antt": "--", ".rt": "//", ".edit": "\0"}.get(os.path.splitext(name)[1])
            if mark is None:
                continue
            path = os.path.join(folder, name)
            with open(path, encoding="utf-8") as f:
                old = f.read()
            new = "\n".join(line_turned(line, mark) for line in old.split("\n"))
            if new != old:
                with open(path, "w", encoding="utf-8") as f:
                    f.write(new)


main()
