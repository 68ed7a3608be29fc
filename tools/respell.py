#!/usr/bin/env python3
"""Respells this repository's own names in specs/, proofs/ and clauses: words in snake case, types in camel case.

usage: python3 tools/respell.py      at the top of the repository, once, after the kit's port.py

A name is the repository's own if a line of one of its .antt files declares it and no `use` line brings it from
elsewhere. What Rattle makes of the sources (goals, steps, arms) keeps its dashes. It says which names fall together.
"""
import os
import re
import sys

IDENT = r"[A-Za-z_][\w'-]*"
TOKEN = re.compile(r"(?<![\w'-])" + IDENT)
DECLARED = re.compile(r"^[ \t|]*(?:pub |abbrev |unfoldable |private |record |data )*(%s)(?: \([^\n]*?\))* :(?=\s)([^\n]*)" % IDENT, re.M)
USE = re.compile(r"^\s*(?:ghost )?use ([^\s{;]+)(?:\.\{([^}]*)\})?", re.M)


def texts():
    for folder, dirs, files in os.walk("crates"):
        dirs[:] = sorted(d for d in dirs if d != "out")
        for f in sorted(files):
            if f.endswith((".antt", ".rt")):
                yield os.path.join(folder, f)


def respelt(name):
    if name[0].isupper():
        first, *rest = name.split("-")
        return first + "".join(w[0].upper() + w[1:] for w in rest)
    return name.replace("-", "_")


def own_names():
    crates = set(os.listdir("crates"))
    declared, foreign = set(), set()
    for p in texts():
        if not p.endswith(".antt"):
            continue
        s = open(p, encoding="utf-8").read()
        for m in USE.finditer(s):
            parts = m.group(1).split(".")
            if len(parts) < 2 or parts[0] != "Rattle" or parts[1] not in crates:
                foreign.update(n.strip().split(" as ")[0] for n in (m.group(2) or "").split(","))
        for m in DECLARED.finditer(s):
            if "goal." not in m.group(2) and "-" in m.group(1):
                declared.add(m.group(1))
    return declared - foreign


def turn(s, names):
    return TOKEN.sub(lambda m: names.get(m.group(0), m.group(0)), s)


def turn_source(s, names):
    out, depth = [], 0
    for line in s.split("\n"):
        starts = re.match(r"\s*(pub )?(ghost|requires|ensures)\b", line)
        if depth or starts:
            line = turn(line, names)
            depth += line.count("{") - line.count("}")
        out.append(line)
    return "\n".join(out)


def main():
    names = {n: respelt(n) for n in own_names()}
    together = {}
    for old, new in names.items():
        together.setdefault(new, []).append(old)
    for new, olds in sorted(together.items()):
        if len(olds) > 1:
            print("together: %s from %s" % (new, ", ".join(sorted(olds))))
    for p in texts():
        s = open(p, encoding="utf-8").read()
        there = set(TOKEN.findall(s))
        for old in sorted(there & set(names)):
            if names[old] in there:
                print("together: %s: %s is there beside %s" % (p, names[old], old))
        t = turn(s, names) if p.endswith(".antt") else turn_source(s, names)
        if t != s:
            open(p, "w", encoding="utf-8").write(t)
    print("%d names" % len(names), file=sys.stderr)


if __name__ == "__main__":
    main()
