#!/usr/bin/env python3
"""Respells, in proofs/F/ of each crate, the steps that Rattle names after the sources: a name of the source keeps its `_`.

usage: python3 tools/respell_steps.py [CRATE..]     at the top of the repository
"""
import os
import re
import sys

TOKEN = re.compile(r"(?<![\w'-])[A-Za-z_][\w'-]*")
WORDS = ["in_ok", "in_err", "in_default", "type_inv", "invariant_of", "overflow_cast", "overflow_add", "overflow_sub",
         "overflow_mul", "overflow_step", "slice_bounds", "from_residual", "as_bytes", "copy_from_slice", "saturating_add",
         "saturating_sub", "unsigned_abs", "as_str", "to_string", "well_formed"]


def source_words(crates):
    words = set(WORDS)
    for c in crates:
        for folder, _, files in os.walk(os.path.join("crates", c, "src")):
            for f in files:
                words.update(w for w in re.findall(r"[A-Za-z]\w*_\w+", open(os.path.join(folder, f)).read()))
    return sorted(words, key=len, reverse=True)


def main():
    crates = sys.argv[1:] or sorted(os.listdir("crates"))
    for c in crates:
        words = [(w.replace("_", "-"), w) for w in source_words([c])]
        for folder, _, files in os.walk(os.path.join("crates", c, "proofs")):
            for f in files:
                if f not in ("Answers.antt", "Invariants.antt", "Proof.antt"):
                    continue
                p = os.path.join(folder, f)
                s = open(p).read()

                def turn(m):
                    t = m.group(0)
                    if "-" not in t:
                        return t
                    if s[max(0, m.start() - 1):m.start()] != "." and not re.search(r"^\s*(pub |abbrev )*$", s[:m.start()].split("\n")[-1]) and not t.startswith(("in-", "then-", "else-", "returns-", "if-")):
                        return t
                    for dashed, word in words:
                        t = re.sub(r"(?<![A-Za-z0-9_])%s(?![A-Za-z0-9_])" % re.escape(dashed), word, t)
                    return t

                out = TOKEN.sub(turn, s)
                if out != s:
                    open(p, "w").write(out)
                    print(p)


main()
