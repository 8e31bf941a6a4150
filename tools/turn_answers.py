#!/usr/bin/env python3
"""Turns proofs/F/Proof.antt of the older form, with its answers handed to `tie.close`, into Invariants.antt and Answers.antt.

usage: turn_answers.py CRATE OLD   CRATE: the crate's folder, with the older proofs moved out of proofs/; OLD: the folder that they were moved to

The names of goals and steps, older and today's, come from `rt check --generated FOLDER --old-names`. Answers that only call `search` or `omega` are
left out: the check finds them."""

import json
import os
import re
import subprocess
import sys

DECL = re.compile(r"^(?:abbrev |pub |unfoldable )*([^\s:(){}]+) :(?= |$)")
PATH = re.compile(r"(?<![\w'.-])c((?:\.before)*)\.([\w'+-]+)")


with open(os.path.join(os.path.dirname(os.path.abspath(__file__)), "respelled-names"), encoding="utf-8") as names_file:
    BEFORE = {new: old for old, new in (line.split() for line in names_file)}


def plain(name):
    name = name.replace("_", "-")
    for a, b in (("loop-holds", "loop-init"), ("loop-less", "loop-smaller"), ("loop-again", "loop-preserved")):
        name = name.replace(a, b)
    return re.sub(r"^overflow-", "", re.sub(r"^slice-bounds-", "part-", name))


def generated(crate):
    to = "/tmp/gen-" + os.path.basename(crate)
    subprocess.run(["rm", "-rf", to])
    subprocess.run(["rt", "check", "--generated", to, "--old-names"], cwd=crate, stdout=subprocess.PIPE, stderr=subprocess.STDOUT)
    with open(os.path.join(to, "names.json")) as f:
        return json.load(f)


def clauses(root):
    """Of each function, by crate and path: the names of its requires and of its ensures, where it has several of a kind."""
    found = {}
    for folder, _, files in os.walk(root):
        for file in files:
            if not file.endswith(".rt") or "/src" not in folder:
                continue
            parts = os.path.relpath(os.path.join(folder, file), root).split(os.sep)
            module = [parts[0]] + [x[:-3] if x.endswith(".rt") else x for x in parts[2:] if x not in ("lib.rt", "main.rt")]
            name = None
            with open(os.path.join(folder, file), encoding="utf-8") as f:
                for line in f:
                    if m := re.match(r"\s*(?:pub )?(?:extern \"C\" )?fn (\w+)", line):
                        name = "::".join(module + [m.group(1)])
                        found[name] = {"requires": [], "ensures": []}
                    elif name and (m := re.match(r"\s+(requires|ensures) (\w+) \{", line)):
                        found[name][m.group(1)].append(m.group(2))
    return found


def blocks(text):
    """The head (comments and use lines), and the declarations as lists of lines, each with the comments above it."""
    head, found, pending = [], [], []
    for line in text.split("\n"):
        if not found and (line.startswith("use ") or (line.startswith("--") and not any(l.startswith("use ") for l in head))):
            head.append(line)
        elif m := DECL.match(line):
            found.append((m.group(1), pending + [line]))
            pending = []
        elif line.startswith("--"):
            pending.append(line)
        elif line.startswith("use "):
            head.append(line)
        elif found:
            found[-1][1].append(line)
    return head, found


def turn(crate, name, folder, entry, out, named):
    with open(os.path.join(folder, "Proof.antt"), encoding="utf-8") as f:
        text = f.read()
    head, found = blocks(text)
    steps = {}
    for _, _, (old, new), *_ in entry["places"]:
        if old:
            steps.setdefault(old, new)
            steps.setdefault(plain(old), new)
    for (old, new), _ in entry["loops"]:
        steps.setdefault(old, new)
    needs = {}
    for old, new in entry["needs"]:
        needs.setdefault(plain(old), new)
    loops = {old: (new, names) for (old, new), names in entry["loops"]}

    above = {place: (parent, step) for place, parent, step, *_ in entry["places"]}
    at_step = {}
    for place, _, (old, _), *_ in entry["places"]:
        if old and not place.startswith(("Then", "Else")):
            at_step.setdefault(plain(old), place)

    def arm(step):
        place = at_step.get(plain(step)) or at_step.get(plain(BEFORE.get(step, step)))
        while place and not re.match(r"At-match\d*-keys", place):
            place = above[place][0]
        return above[place][1][1] if place else None

    def told(m):
        found = arm(m.group(2))
        return f"c.{found}.is" if found else m.group(0)

    def bound(m):
        found = arm(m.group(2))
        return f"c.{found}.{re.sub('[0-9]+$', '', m.group(2))}" if found else m.group(0)

    callee = {new: full for _, _, (_, new), full, *_ in entry["places"] if full}
    whole = os.path.basename(crate) + "::" + name.replace("+", "")

    def parts(names, tail):
        """The clause that projections of a pair of pairs stand for, and the projections that are left."""
        if len(names) < 2:
            return None
        m = re.match(r"((?:\.1)*)(\.0)?", tail)
        i = min(len(m.group(1)) // 2, len(names) - 1)
        used = i * 2
        if i < len(names) - 1:
            if not m.group(2) or len(m.group(1)) != used:
                return None
            used += 2
        return "." + names[i] + tail[used:]

    def by_clause(m):
        step, kind, tail = m.groups()
        names = named.get(whole, {}).get("requires", []) if step == "" else named.get(callee.get(step, ""), {}).get("ensures", [])
        to = parts(names, tail)
        return m.group(0) if to is None else f"c.{step + '.' if step else ''}{kind}{to}"

    def by_param(m):
        params = entry["params"].get(callee.get(m.group(1), ""), [])
        return f"c.{m.group(1)}.{m.group(2)}.{params[int(m.group(3))]}" if int(m.group(3)) < len(params) else m.group(0)

    def as_record(names, tail):
        """A last tuple as a record by the names of the clauses."""
        depth, open_at = 0, None
        end = len(tail.rstrip())
        if len(names) < 2 or not tail.rstrip().endswith(")"):
            return tail
        for i in range(end - 1, -1, -1):
            depth += (tail[i] == ")") - (tail[i] == "(")
            if depth == 0:
                open_at = i
                break
        if open_at is None or not re.search(r"(=|\bin|^)\s*$", tail[:open_at]):
            return tail
        fields, inner = [], tail[open_at + 1:end - 1].strip().rstrip(",")
        while True:
            depth, cut = 0, None
            for i, ch in enumerate(inner):
                depth += (ch in "([{") - (ch in ")]}")
                if ch == "," and depth == 0:
                    cut = i
                    break
            if cut is None:
                fields.append(inner.strip())
                break
            fields.append(inner[:cut].strip())
            inner = inner[cut + 1:].strip().rstrip(",")
            if len(fields) < len(names) - 1 and inner.startswith("(") and inner.endswith(")") and "," in inner:
                inner = inner[1:-1].strip().rstrip(",")
        if len(fields) != len(names):
            return tail
        return tail[:open_at] + "record { " + "; ".join(f"{n} = {f}" for n, f in zip(names, fields)) + " }"

    def path(m):
        step = m.group(2)
        step = steps.get(step) or steps.get(plain(step)) or steps.get(plain(BEFORE.get(step, step))) or steps.get(plain(re.sub("_lem$", "", step).lower())) or step
        return "c." + step

    answers, invariants, said = [], [], []
    for decl, lines in found:
        lines = [l for l in lines]
        while lines and not lines[-1].strip():
            lines.pop()
        at = next(i for i, l in enumerate(lines) if DECL.match(l))
        comment, sign = lines[:at], lines[at]
        rest = lines[at + 1:]
        if "statement M" in sign:
            continue
        m = re.search(r": tie\.(invariant|decreases)-(\S+)", sign)
        if m:
            kind, loop = m.groups()
            new, names = loops.get(loop, (loop, []))
            body = "\n".join(rest)
            first, _, tail = body.partition("=")
            params = first.split()[1:]
            index = [i for i, l in enumerate(entry["loops"]) if l[0][0] == loop]
            changed = entry["changed"][index[0]] if index else []
            where = {}
            for v, ch, p in zip(names, changed, params):
                where[p] = f"l.initial.{v}" if ch else f"l.{v}"
            for v, p in zip([v for v, ch in zip(names, changed) if ch], params[len(names):]):
                where[p] = f"l.{v}"
            tail = re.sub(r"(?<![\w'.-])([^\s(){},.;]+)", lambda m: where.get(m.group(1), m.group(1)), tail)
            invariants += comment + [f"abbrev pub {kind}-{new} : goal.{kind}-{new}", f"{kind}-{new} l ={tail}", ""]
            continue
        m = re.search(r": tie\.Need-(\S+)", sign)
        if not m:
            answers += comment + [sign] + rest + [""]
            continue
        body = "\n".join(rest)
        unfolding = ""
        if body.startswith("unfolding "):
            unfolding, _, body = body.partition("\n")
        first, _, tail = body.partition("=")
        params = first.split()[1:]
        if tail.strip() in ("search rules", "omega arith"):
            continue
        new = needs.get(plain(m.group(1)))
        if new is None:
            said.append(f"{name}: no goal for {m.group(1)}; there are {sorted(needs.values())}")
            continue
        if "κs" in tail:
            said.append(f"{name}: κs")
        while m2 := re.search(r"\s*let ([\w'-]+) = c(?:\.before)+ in(?=\s)", tail):
            tail = tail[:m2.start()] + re.sub(r"(?<![\w'.-])" + re.escape(m2.group(1)) + r"(?=\.[\w'])", "c", tail[m2.end():])
        tail = re.sub(r"\((?:not-true|not-false) \S+ (c(?:\.[\w'-]+)+)\)", r"⟦\1⟧", tail)
        tail = re.sub(r"\b(?:not-true|not-false) \S+ (c(?:\.[\w'-]+)+)", r"⟦\1⟧", tail)
        tail = re.sub(PATH.pattern + r"\.given\.1(?![\w.])", told, tail)
        tail = re.sub(PATH.pattern + r"\.given\.0\.0(?![\w])", bound, tail)
        tail = PATH.sub(path, tail)
        tail = re.sub(r"(?<![⟦\w'.-])c\.if-not-([\w'-]+)\.(true|false)(?![\w'])", r"(ap not c.if-not-\1.\2)", tail)
        tail = tail.replace("⟦", "").replace("⟧", "")
        for o in re.findall(r"let ([\w'-]+) = c\.requires in", tail):
            tail = re.sub(r"\s*let " + re.escape(o) + r" = c\.requires in(?=\s)", "", tail)
            tail = re.sub(r"(?<![\w'.-])" + re.escape(o) + r"(?=\.[01])", "c.requires", tail)
        tail = re.sub(r"(?<![\w'.-])c\.([\w'-]+)\.(new|auto)\.(\d)", by_param, tail)
        tail = re.sub(r"(?<![\w'.-])c\.()(requires)((?:\.[01])+)", by_clause, tail)
        tail = re.sub(r"(?<![\w'.-])c\.([\w'-]+)\.(ensures)((?:\.[01])+)", by_clause, tail)
        if new.startswith("returns"):
            tail = as_record(named.get(whole, {}).get("ensures", []), tail)
        elif m2 := re.match(r"(.+)-requires(-.+)?$", new):
            full = callee.get(m2.group(1) + (m2.group(2) or "")) or next((f for st, f in callee.items() if st.startswith(m2.group(1))), "")
            tail = as_record(named.get(full, {}).get("requires", []), tail)
        tail = re.sub(r"(?<![\w'.-])(c\.args|a)\.([a-z]+(?:-[a-z0-9]+)+)", lambda m: m.group(1) + "." + m.group(2).replace("-", "_"), tail)
        answers += comment + [f"pub {new} : goal.{new}"] + ([unfolding] if unfolding else []) + [f"{new} {' '.join(p for p in params if p != 'κs')} ={tail}", ""]
    module = name.replace("::", ".")
    uses = [l for l in head if l.startswith("use ") and ".Tie as tie" not in l and ".Statement.{statement}" not in l]
    notes = [re.sub(r" Assumes nothing\.$", "", l) for l in head if l.startswith("--")]
    c = os.path.basename(crate)
    to = os.path.join(out, *name.split("::"))
    os.makedirs(to, exist_ok=True)
    if any("goal." in l for l in invariants):
        with open(os.path.join(to, "Invariants.antt"), "w", encoding="utf-8") as f:
            f.write("\n".join(notes + uses + [f"use Rattle.{c}.proofs.{module}.Given as goal", ""] + invariants))
    for word, module_of in (("ap", "mathlib.Core.Path"), ("not", "mathlib.Core.Bool")):
        if any("(ap not c." in l for l in answers) and not any(re.search(r"[{ ]" + word + r"[,}]", l) for l in uses):
            uses.append(f"use {module_of}.{{{word}}}")
    if any("goal." in l for l in answers):
        with open(os.path.join(to, "Answers.antt"), "w", encoding="utf-8") as f:
            f.write("\n".join(notes + uses + [f"use Rattle.{c}.proofs.{module}.Goals as goal", ""] + answers))
    if not os.listdir(to):
        os.rmdir(to)
    return said


def main():
    crate, old = os.path.abspath(sys.argv[1]), os.path.abspath(sys.argv[2])
    names = generated(crate)
    named = clauses(os.path.dirname(crate))
    c = os.path.basename(crate)
    for folder, _, files in os.walk(old):
        if "Proof.antt" in files:
            name = os.path.relpath(folder, old).replace(os.sep, "::")
            entry = names.get(f"Rattle-{c}-proofs.{name.replace('::', '.')}.Lts")
            if entry is None:
                print(f"{name}: no entry")
                continue
            for line in turn(crate, name, folder, entry, os.path.join(crate, "proofs"), named) or []:
                print(line)


if __name__ == "__main__":
    main()
