#!/usr/bin/env python3
"""Respells the repository's own definitions and lemmas as today's Rattle does: words in snake case, where they were written with inner capitals or dashes.

usage: tools/respell.py           at the top, once, after /opt/rattle/port/port.py: rewrites crates/ by the names of tools/respelled-names
       tools/respell.py --names   writes tools/respelled-names anew, from what specs/ and proofs/ declare

A name that another word of specs/ and proofs/, or of a source file that cites it, already has (a function, a field, a variable) gets `_lem` behind it.
Only whole names are changed, in .antt files and in the clauses of .rt files; Rust code has no such name."""

import os
import re
import sys

ROOT = os.path.dirname(os.path.dirname(os.path.abspath(__file__)))
NAMES = os.path.join(ROOT, "tools", "respelled-names")
TOKEN = re.compile(r"[^\s(){}\[\],;.\"«»`]+")
WORD = re.compile(r"[A-Za-z_][A-Za-z0-9_]*")
DECLARED = re.compile(r"\s*(?:abbrev |unfoldable )?(?:pub )?(?:abbrev |unfoldable )?([a-z][\w'-]*)\s*:\s")
FOREIGN = re.compile(r"use ((?:Rattle\.std|mathlib|lib|borrow|denote|Prim|native)[\w.'+-]*)\.\{([^}]*)\}")
# a word of antt itself
KEPT_OUT = {"first_of", "do", "as", "in", "open", "data", "record", "let", "at", "from", "search", "ground", "assumption", "simp", "omega", "grind"}
GIVEN = {"first_of": "first_of_checks"}


def texts():
    for folder, dirs, files in os.walk(os.path.join(ROOT, "crates")):
        dirs[:] = sorted(d for d in dirs if d != "out")
        for f in sorted(files):
            if f.endswith((".antt", ".rt")):
                yield os.path.join(folder, f)


def snake(name):
    name = re.sub(r"([a-z0-9])([A-Z])", r"\1_\2", name)
    name = re.sub(r"([A-Z])([A-Z][a-z])", r"\1_\2", name)
    return name.lower().replace("-", "_") if name[0].islower() else name


def own(path):
    parts = os.path.relpath(path, os.path.join(ROOT, "crates")).split(os.sep)
    return path.endswith(".antt") and (parts[1] == "specs" or (parts[1] == "proofs" and len(parts) == 3))


def names():
    declared, taken, foreign, code = set(), set(), set(), []
    for path in texts():
        with open(path, encoding="utf-8") as f:
            text = f.read()
        if path.endswith(".rt"):
            code.append((set(TOKEN.findall(text)), set(WORD.findall(text))))
        else:
            taken |= {t for t in TOKEN.findall(text) if WORD.fullmatch(t)}
            for _, items in FOREIGN.findall(text):
                foreign |= {i.strip().split(" as ")[0] for i in items.split(",")}
        if own(path):
            declared |= {m.group(1) for line in text.split("\n") if (m := DECLARED.match(line))}
    old = sorted((n for n in declared - foreign if re.search(r"[A-Z]|-", n)), key=lambda n: ("-" in n, n))
    new = dict(GIVEN)
    for n in old:
        to = snake(n)
        beside = set().union(*(words for tokens, words in code if n in tokens))
        while to in taken or to in beside or to in new.values() or to in KEPT_OUT or to in foreign:
            to += "_lem"
        new[n] = to
    with open(NAMES, "w", encoding="utf-8") as f:
        f.writelines(f"{n} {to}\n" for n, to in sorted(new.items()))


def respell(text, new):
    return TOKEN.sub(lambda m: new.get(m.group(0), m.group(0)), text)


def main():
    if sys.argv[1:] == ["--names"]:
        return names()
    with open(NAMES, encoding="utf-8") as f:
        new = dict(line.split() for line in f)
    for path in texts():
        with open(path, encoding="utf-8") as f:
            text = f.read()
        to = respell(text, new)
        if to != text:
            with open(path, "w", encoding="utf-8") as f:
                f.write(to)


if __name__ == "__main__":
    main()
