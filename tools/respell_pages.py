#!/usr/bin/env python3
"""Spells the names of definitions and lemmas in README.md and docs/ as crates/ has them now; it ran once, after respell.py.

A word of a code span turns where no crate has it any more and its new spelling, by respell.tsv or in snake case, stands in one.
docs/PORT.md, which tells of the turning itself, stays.
"""

import glob
import os
import re
import sys

HERE = os.path.dirname(os.path.realpath(__file__))
ROOT = os.path.join(HERE, "..")
WORD = re.compile(r'[^\s(){}.;,@"«»\[\]`/:|<>=+*→∧?!…]+')


def words_of_crates():
    words = set()
    for folder, dirs, files in os.walk(os.path.join(ROOT, "crates")):
        dirs[:] = [d for d in dirs if d != "out"]
        for name in files:
            if name.endswith((".antt", ".rt")):
                with open(os.path.join(folder, name), encoding="utf-8") as f:
                    code = re.sub(r"(^|\s)(--|//).*", "", f.read())
                    words |= set(WORD.findall(code))
    return words


def table():
    with open(os.path.join(HERE, "respell.tsv"), encoding="utf-8") as f:
        rows = [line.rstrip("\n").split("\t") for line in f]
    return {row[0]: row[1] for row in rows if len(row) == 2}


def snake(word):
    return re.sub(r"(?<=[a-z0-9])([A-Z])", lambda m: "_" + m.group(1).lower(), word)


def main():
    known, new = words_of_crates(), table()

    def turned(m):
        word = m.group(0)
        if word in known or not re.match(r"[A-Za-z]\w*([-'′A-Z]|$)", word):
            return word
        tries = (new.get(word, ""), word.replace("-", "_"), snake(word), snake(word).replace("-", "_"))
        return next((it for it in tries if it in known), word)

    pages = [os.path.join(ROOT, "README.md"), *glob.glob(os.path.join(ROOT, "docs", "**", "*.md"), recursive=True)]
    for path in sorted(pages):
        if path.endswith("PORT.md"):
            continue
        with open(path, encoding="utf-8") as f:
            old = f.read()
        parts = re.split(r"(^```.*?^```)", old, flags=re.M | re.S)
        text = "".join(p if p.startswith("```") else re.sub(r"`[^`\n]+`", lambda m: WORD.sub(turned, m.group(0)), p) for p in parts)
        if text != old:
            with open(path, "w", encoding="utf-8") as f:
                f.write(text)
            print(f"{os.path.relpath(path, ROOT)}: {sum(a != b for a, b in zip(old.split(chr(10)), text.split(chr(10))))} lines")


if __name__ == "__main__":
    sys.exit(main())
