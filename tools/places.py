#!/usr/bin/env python3
"""Counts the places of src/ that a pass over the design looks at.

    python3 tools/places.py [ROOT]          the counts, a line for each pattern
    python3 tools/places.py [ROOT] --list   each place too

The patterns find candidates by text; docs/DESIGN-PASS.md says what was done with each.
"""
import collections
import pathlib
import re
import sys

ARGS = [a for a in sys.argv[1:] if not a.startswith("--")]
ROOT = pathlib.Path(ARGS[0] if ARGS else ".")
LIST = "--list" in sys.argv

FILES = sorted(ROOT.glob("crates/*/src/**/*.rt"))
TEXTS = {f: "\n".join(l.split("//")[0] if l.lstrip().startswith("//") else l
                      for l in f.read_text().split("\n")) for f in FILES}

# row, what is looked for, pattern
PATTERNS = [
    # 1: own enums of the shape of Option or Result, a flag with a value, numbers for kinds
    ("1", "struct with a flag beside a value", r"struct \w+(?:<[^>]*>)? \{[^}]*: bool,[^}]*\}"),
    ("1", "enum of one bare case and one with a value", None),
    ("1", "question told by a bare number", r"\bquestion: \d+|no_to\(\d+|^\s*1[34]\n\s*\}"),
    ("1", "item or kind by a bare number", r"=> (?:8|41|42),|^\s*(?:8|41|42) =>|const (?:KIND|MARK): u16"),
    ("1", "case from a number, an Option by hand", r"fn numbered\("),
    ("1", "let Some .. else return None", r"let Some\([^=]*= [^;{]*? else \{\s*return None;\s*\}"),
    ("1", "let .. else return an Err", r"let [A-Z]\w*(?:::\w+)?\([^=]*= [^;{]*? else \{\s*return (?:Err|Ok)\([^;]*;\s*\}"),
    ("1", "match that maps an Option or Result by hand", r"Some\((\w+)\) => (?:Some|Ok|Err|if|\{?\s*\w+)[^;]*?,?\s*None => (?:None|Ok|Err|Some)|None => (?:None|Ok\(|Err\()|Ok\(\(\)\) => Ok\(\(\)\)|Err\(\w+\) => (?:return )?Err\("),
    ("1", "if .. Some .. else None", r"\{\s*Some\([^;{}]*(?:\{[^{}]*\})?\)\s*\} else (?:if [^{]*)?\{\s*None\s*\}"),
    # 3: loops that count an index
    ("3", "while with an index", r"while \w+ < "),
    ("3", "for over a range of places", r"for \w+ in \(?[\w.\[\]]+\.\."),
    ("3", "for with enumerate", r"for \(\w+, \w+\) in [^{]*enumerate\(\)"),
    ("3", "running place by hand", r"^\s*(?:at|i) \+= \d;|^\s*at = put_"),
    ("3", "search or test of all by hand", r"for \w+ in [^{]*\{\s*if [^{]*\{\s*return (?:true|false|Some\(\w+\));\s*\}\s*\}"),
    ("3", "elements 0, 1, 2 written out", r"(?:cell_at|put_cell)\([^;]*, [012](?:, [^;]*)?\)"),
    # 4: equality, order, copying, conversion, printing by hand
    ("4", "match to true and false", r"=> true,\s*_ => false|=> true,\s*\(_, _\) => false"),
    ("4", "two's complement by hand", r"0x1_0000\b|0x1_0000_0000"),
    ("4", "low and high byte by hand", r"% 256|/ 256|256 \* "),
    ("4", "bool to number by hand", r"\{ 1 \} else \{ 0 \}|\{\s*1\s*\} else \{\s*0\s*\}"),
    ("4", "case to number by a match", r"fn number\(self\)"),
    ("4", "matches! for a case without a value", r"matches!\([^)]*, \w+::\w+\)|matches!\([^;]*\), \w+::\w+\)"),
    ("4", "printing into a buffer by hand", r"fn put_(?:byte|bytes|text|natural|signed|two)\("),
    # 6: buffers with a length beside, parallel arrays, arenas
    ("6", "arrays side by side in a struct", r"struct \w+(?:<[^>]*>)? \{[^}]*: \[[^}]*: \[[^}]*\}"),
    ("6", "buffer with a place beside", r"\((?:out|buffer): &mut \[u\d+\],\s*(?:at|from): usize"),
    ("6", "history with a place beside", r"history: &(?:mut )?\[i32; 1024\],\s*first: usize"),
    ("6", "element or a stand-in past the end", r"if \w+ < \w+\.len\(\) \{"),
    # 7: a switch on which step to run
    ("7", "match that only calls another function in each arm", None),
]


def enums(text):
    for m in re.finditer(r"enum (\w+)(?:<[^>]*>)? \{(.*?)\n\}", text, re.S):
        cases = [l.strip() for l in m.group(2).split("\n") if l.strip() and not l.strip().startswith("//")]
        yield m, cases


def optional(text):
    for m, cases in enums(text):
        if len(cases) == 2 and sum("(" in c or "{" in c for c in cases) == 1:
            yield m


class Place:
    """A place found by lines, with what re.Match says of one."""

    def __init__(self, text, at):
        self.text, self.at = text, at

    def start(self):
        return self.at

    def group(self, _):
        return self.text


def switches(text):
    at = 0
    lines = text.split("\n")
    for n, line in enumerate(lines):
        m = re.match(r"( *)(?:\w+ = )?match (.*) \{$", line)
        if m:
            arms = []
            for arm in lines[n + 1:]:
                if arm.startswith(m.group(1) + "}"):
                    break
                arms.append(arm.strip())
            calls = [re.search(r"=> ([\w.:]+)\(", arm) for arm in arms]
            if len(arms) >= 4 and all(calls):
                names = {c.group(1).split("::")[-1] for c in calls}
                if all(name[0].islower() for name in names):
                    yield Place(line.strip(), at)
        at += len(line) + 1


def found(pattern, text, what):
    if what.startswith("enum of"):
        return optional(text)
    if what.startswith("match that only"):
        return switches(text)
    return re.finditer(pattern, text, re.M | re.S)


# 5: facts that stand in three or more functions, and parameters that travel together
def functions():
    for f, text in TEXTS.items():
        for m in re.finditer(r"^ *(?:pub(?:\(crate\))? )?(?:final )?fn (\w+)", text, re.M):
            at = text.find("(", m.end())
            depth, end = 0, at
            while end < len(text):
                depth += {"(": 1, ")": -1}.get(text[end], 0)
                end += 1
                if depth == 0:
                    break
            rest = text[end:end + 3000]
            stop = re.search(r"\n *\{\}?\n|\{\n|;\n", rest)
            yield f, m.start(), m.group(1), text[at + 1:end - 1], rest[:stop.start()] if stop else ""


def travelling():
    pairs, single = collections.Counter(), collections.Counter()
    for f, at, name, parameters, _ in functions():
        crate = f.relative_to(ROOT / "crates").parts[0]
        names = [re.sub(r"\s+", " ", p.strip()) for p in re.split(r",(?![^<\[(]*[>\])])", parameters) if ":" in p]
        names = sorted({re.sub(r"^mut ", "", p) for p in names})
        for n in names:
            single[n] += 1
        for i, a in enumerate(names):
            for b in names[i + 1:]:
                pairs[(a, b)] += 1
    for (a, b), n in sorted(pairs.items(), key=lambda p: -p[1]):
        if n >= 3 and n * 2 >= min(single[a], single[b]):
            yield f"{a} | {b}", n


def repeated():
    facts = collections.Counter()
    for _, _, _, _, contract in functions():
        for m in set(re.findall(r"requires (?:\w+ )?\{ (.*?) \}", contract)):
            facts[m] += 1
    for fact, n in sorted(facts.items(), key=lambda p: -p[1]):
        if n >= 3:
            yield fact, n


def main():
    print(f"{len(FILES)} files, {sum(t.count(chr(10)) for t in TEXTS.values())} lines")
    for row, what, pattern in PATTERNS:
        places = []
        for f, text in TEXTS.items():
            for m in found(pattern, text, what):
                line = text.count("\n", 0, m.start()) + 1
                if m.group(0).startswith("\n"):
                    line += 1
                first = m.group(0).strip().split("\n")[0][:90]
                places.append(f"    {f.relative_to(ROOT)}:{line}: {first}")
        print(f"{row}  {len(places):3}  {what}")
        if LIST:
            print("\n".join(places))
    proofs = sorted(ROOT.glob("crates/*/proofs/**/*.antt"))
    answers = [f for f in proofs if f.name == "Answers.antt"]
    lines = [f.read_text() for f in proofs]
    print(f"8  {len(proofs):3}  files of proofs, {sum(t.count(chr(10)) for t in lines)} lines")
    print(f"8  {len(answers):3}  files of answers")
    bare = [f for f in answers if re.search(r"\bc = search rules$", f.read_text(), re.M)]
    print(f"8  {len(bare):3}  files with an answer that is `search rules` alone")
    if LIST:
        print("\n".join(f"    {f.relative_to(ROOT)}" for f in bare))
    for what, rows in (("a requires that stands in three functions or more", list(repeated())),
                       ("two parameters that travel together in three functions or more", list(travelling()))):
        print(f"5  {len(rows):3}  {what}")
        if LIST:
            print("\n".join(f"    {n} × {r}" for r, n in rows))


if __name__ == "__main__":
    main()
