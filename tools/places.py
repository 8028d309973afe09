#!/usr/bin/env python3
"""Counts the places of docs/DESIGN-PASS.md in crates/*/src: tools/places.py [COMMIT] [-v].

A place is what a pattern finds; a reader decides which of them stand as they are. With -v each place is listed.
"""
import re
import subprocess
import sys
from collections import defaultdict

INT = r"(?:u8|u16|u32|u64|usize|i32|i64)"


def git(*words):
    return subprocess.run(("git",) + words, capture_output=True, text=True, check=True).stdout


def sources(commit):
    """(path, text) of each source file, of a commit or as it stands."""
    if commit:
        names = git("ls-tree", "-r", "--name-only", commit, "crates").split()
    else:
        names = git("ls-files", "crates").split()
    for name in names:
        if re.fullmatch(r"crates/\w+/src/.*\.rt", name):
            if commit:
                yield name, git("show", f"{commit}:{name}")
            else:
                with open(name, encoding="utf-8") as f:
                    yield name, f.read()


def closing(text, at, left, right):
    """The place behind the bracket that closes the one at `at`."""
    depth = 0
    for i in range(at, len(text)):
        if text[i] == left:
            depth += 1
        elif text[i] == right:
            depth -= 1
            if depth == 0:
                return i + 1
    return len(text)


class Function:
    def __init__(self, path, text, m):
        self.path = path
        self.name = m.group(1)
        self.line = text.count("\n", 0, m.start()) + 1
        at = m.end() - 1
        end = closing(text, at, "(", ")")
        self.params = " ".join(text[at + 1:end - 1].split()).rstrip(",")
        self.requires = ""
        at = text.find("{", end)
        while True:
            clause = re.search(r"\b(requires|ensures)(?:\s+\w+)?\s*$", text[end:at])
            if not clause:
                break
            stop = closing(text, at, "{", "}")
            if clause.group(1) == "requires":
                self.requires += " × " + " ".join(text[at + 1:stop - 1].split())
            end = stop
            at = text.find("{", end)
        self.result = " ".join(text[closing(text, m.end() - 1, "(", ")"):at].split())[:40]
        self.body = text[at:closing(text, at, "{", "}")]

    def where(self):
        return f"{self.path}:{self.line} {self.name}"


def functions(path, text):
    for m in re.finditer(r"\bfn (\w+)(?:<[^(]*>)?\(", text):
        yield Function(path, text, m)


def shape(f, calls):
    """The body with its types, constants and names of parameters left out; with `calls`, also what it calls."""
    s = re.sub(r"//[^\n]*", "", f.body)
    for k, p in enumerate(re.findall(r"(\w+)\s*:", f.params)):
        s = re.sub(rf"\b{p}\b", f"p{k}", s)
    s = re.sub(rf"\b{INT}\b", "T", s)
    s = re.sub(r"\b\d[\d_]*(?:T)?\b|\b[A-Z][A-Z_]+\b", "N", s)
    if calls:
        s = re.sub(r"\b(?:\w+::)*\w+\(", "f(", s)
    return " ".join(s.split())


def conjuncts(clause):
    for c in re.split(r"×", clause):
        c = re.sub(r"^[\s(]+|[\s)]+$", "", c)
        if c:
            yield re.sub(r"\.(?:now|old)\b", "", c)


def count(commit):
    found = defaultdict(list)
    every = []
    for path, raw in sources(commit):
        text = re.sub(r"//[^\n]*", lambda m: " " * len(m.group()), raw)
        for m in re.finditer(r"\benum (\w+)[^{]*\{", text):
            body = text[m.end():closing(text, m.end() - 1, "{", "}")]
            cases = re.findall(r"^    (\w+)", body, re.M)
            if any(c in "None Nothing Neither Other Not Over Full Short Refused Stop Stops Fault New Default".split() for c in cases):
                found["1 enums with a case for none or a refusal"].append(f"{path} {m.group(1)} {cases}")
        for m in re.finditer(r"\bstruct (\w+)[^{;]*\{", text):
            body = text[m.end():closing(text, m.end() - 1, "{", "}")]
            if re.search(r"\b(?:found|ok): bool", body):
                found["1 records with a flag beside a value"].append(f"{path} {m.group(1)}")
        for m in re.finditer(r"(?:\b(?:kind|list|sort|row|how|tag|h|state|asked)\b (?:==|!=|<=|>=|<|>) \d+|\bkind: \d+|\bnumber: \d+|refused\(\d+|= (?:21|22|23|24|14);)", text):
            found["1 numbers for kinds and refusals"].append(f"{path}:{text.count(chr(10), 0, m.start()) + 1} {m.group()}")
        for m in re.finditer(r"return (?:65535|255|10|SIGNS|SPELLINGS);|^    (?:65535|255|SIGNS|SPELLINGS)$", text, re.M):
            found["1 numbers for none that are returned"].append(f"{path}:{text.count(chr(10), 0, m.start()) + 1} {m.group().strip()}")
        every += functions(path, text)
    for calls, key in ((False, "2 twins: groups of functions alike but for types and constants"), (True, "7 groups alike but for what they call")):
        groups = defaultdict(list)
        for f in every:
            groups[shape(f, calls), f.params.count(":")].append(f)
        for fs in groups.values():
            if len(fs) > 1 and not (calls and len({shape(f, False) for f in fs}) == 1):
                if calls and fs[0].body.count(";") < 2:
                    continue
                found[key].append(", ".join(f"{f.path.split('/')[1]}::{f.name}" for f in fs))
    for f in every:
        for m in re.finditer(r"\b(while\b[^{]*|loop )\{", f.body):
            turn = f.body[m.end() - 1:closing(f.body, m.end() - 1, "{", "}")]
            if re.search(r"\w+ [+-]= 1;|\w+ = \w+ [+-] 1;", turn):
                found["3 loops that count by hand"].append(f"{f.where()}: {m.group(1).strip()}")
            else:
                found["3 other loops"].append(f"{f.where()}: {m.group(1).strip()}")
        body = " ".join(f.body.split())
        if re.fullmatch(rf"\{{ \w+ as {INT} \}}", body):
            found["4 conversions written as functions"].append(f.where())
        if re.fullmatch(r"\{ match \w+ \{ (?:(?:\d+|_) => \w+::\w+(?:\([^)]*\))?, )+\} \}", body):
            found["4 conversions written as functions"].append(f.where())
        if re.search(r"if (\w+) <=? (\w+) \{ return (?:\1|\2); \} (?:\1|\2) \}", body):
            found["4 min, max and the like by hand"].append(f.where())
        if re.search(r"if [^{]*\{ return (?:true|false); \}", body) and "-> bool" in f.result:
            found["4 truths by returns"].append(f.where())
        for m in re.finditer(r"\b[A-Z]\w+ \{((?:[^{}]|\{[^}]*\})*)\}", body):
            for v in set(re.findall(r"\b(\w+): (\w+)\.\1\b", m.group(1))):
                if len(re.findall(rf"\b(\w+): {v[1]}\.\1\b", m.group(1))) > 1:
                    found["4 records copied field by field"].append(f.where())
                    break
    facts = defaultdict(set)
    runs = defaultdict(set)
    for f in every:
        crate = f.path.split("/")[1]
        for c in conjuncts(f.requires):
            facts[crate, c].add(f.where())
        names = re.findall(r"(\w+: [^,]+)", f.params)
        for n in (3, 4, 5):
            for i in range(len(names) - n + 1):
                runs[crate, tuple(names[i:i + n])].add(f.where())
    for (crate, c), fs in sorted(facts.items()):
        if len(fs) >= 3:
            found["5 facts in the contracts of three or more functions of a crate"].append(f"{crate}: {c} ({len(fs)})")
    for (crate, names), fs in sorted(runs.items()):
        if len(fs) >= 3 and not any(
            k[0] == crate and len(k[1]) > len(names) and set(names) <= set(k[1]) and len(g) >= 3 for k, g in runs.items()
        ):
            found["5 three or more parameters that travel together in three or more functions"].append(f"{crate}: {', '.join(names)} ({len(fs)})")
    for f in every:
        for m in re.finditer(rf"(?:&mut )?\[{INT}; \d+\]", f.params):
            found["6 buffers of a fixed length in signatures"].append(f.where())
            break
        if re.search(r"&(?:mut )?\[u8\], (?:\w+: usize, )?(?:n|count|names|len): (?:u16|u32|usize)", f.params):
            found["6 a number of entries beside their bytes"].append(f.where())
        if re.search(r"match \w+ \{(?:[^{}]*=> \w+(?:::\w+)*\([^()]*\),){4,}", " ".join(f.body.split())):
            found["7 switches on which step to run"].append(f.where())
    return found


def main():
    words = [w for w in sys.argv[1:] if w != "-v"]
    found = count(words[0] if words else None)
    for key in sorted(found):
        print(f"{len(found[key]):4} {key}")
        if "-v" in sys.argv:
            for place in found[key]:
                print(f"       {place}")


if __name__ == "__main__":
    main()
