#!/usr/bin/env python3
"""Spells the repository's own definitions and lemmas in snake case, by respell.tsv beside this file; it ran once, right after port.py.

usage: tools/respell.py [ROOT]

A row is OLD, NEW for every file below crates/, or FILE, OLD, NEW for one file. Whole words of antt turn: in specs/, proofs/, must-fail/ and, outside
strings, in src/. In comments only names in camel case and code spans turn, so that prose stays.
"""

import os
import re
import sys

HERE = os.path.dirname(os.path.realpath(__file__))
WORD = re.compile(r'[^\s(){}.;,@"«»\[\]`]+')
STRING = re.compile(r'b?"(?:[^"\\\n]|\\.)*"|b?\'(?:[^\'\\\n]|\\.)\'')


def rows():
    everywhere, single = {}, {}
    with open(os.path.join(HERE, "respell.tsv"), encoding="utf-8") as f:
        for line in f:
            parts = line.rstrip("\n").split("\t")
            if len(parts) == 2:
                everywhere[parts[0]] = parts[1]
            elif len(parts) == 3:
                single.setdefault(parts[0], {})[parts[1]] = parts[2]
    return everywhere, single


def turned(text, table):
    return WORD.sub(lambda m: table.get(m.group(0), m.group(0)), text)


def comment(text, table):
    camel = {o: n for o, n in table.items() if "-" not in o}
    parts = re.split(r"(`[^`\n]*`)", text)
    return "".join(turned(p, table) if p.startswith("`") else turned(p, camel) for p in parts)


def line(text, table, mark, strings):
    at = text.find(mark)
    while at > 0 and not text[at - 1].isspace():
        at = text.find(mark, at + 1)
    code, rest = (text, "") if at < 0 else (text[:at], text[at:])
    if strings:
        out, last = [], 0
        for m in STRING.finditer(code):
            out += [turned(code[last : m.start()], table), m.group(0)]
            last = m.end()
        code = "".join(out) + turned(code[last:], table)
    else:
        code = turned(code, table)
    return code + comment(rest, table)


def respelled(text, path, everywhere, single):
    own = single.get(path, {})
    table = {**everywhere, **own} if own else everywhere
    # What the everywhere rows make and an own row takes up again comes from different words: each word turns once.
    if path.endswith(".edit"):
        return "".join(line(l, table, "-- ", False) for l in text.splitlines(keepends=True))
    mark, strings = ("--", False) if path.endswith(".antt") else ("//", True)
    return "".join(line(l, table, mark, strings) for l in text.splitlines(keepends=True))


def main(argv):
    root = argv[0] if argv else "."
    everywhere, single = rows()
    changed = 0
    for folder, dirs, files in os.walk(os.path.join(root, "crates")):
        dirs[:] = sorted(d for d in dirs if d != "out")
        for name in sorted(files):
            if not name.endswith((".antt", ".rt", ".edit")):
                continue
            path = os.path.join(folder, name)
            with open(path, encoding="utf-8") as f:
                old = f.read()
            new = respelled(old, os.path.relpath(path, root), everywhere, single)
            if new != old:
                with open(path, "w", encoding="utf-8") as f:
                    f.write(new)
                changed += 1
    print(f"respell: {changed} files")


if __name__ == "__main__":
    main(sys.argv[1:])
