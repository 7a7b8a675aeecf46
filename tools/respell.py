#!/usr/bin/env python3
"""Brings the names of the repository's own definitions and lemmas to today's spelling: words in
snake case, types in camel case, a prime as an apostrophe.

usage: python3 tools/respell.py [--list]       at the top of the repository

Run once, behind the toolchain's own port script. It reads every signature of specs/ and of the
lemma files of proofs/ (the files that answer goals keep the goals' names), and writes each name
anew wherever it stands in a .antt file or in the ghost text of a .rt file. Names of functions,
strings and what the toolchain makes itself (behind `c.`, `l.` and `goal.`) stay.
"""
import collections
import os
import re
import sys

ANSWERS = {"Answers.antt", "Invariants.antt", "Choices.antt", "Proof.antt"}
# What a name is made of; a part that is no letter, digit, dash, prime or underscore ends it.
NAME = re.compile(r"[^\s(){}\[\],;.:@λ|\"∷⌜⌝«»]+")
SIGNATURE = re.compile(r"^\s*(?:(?:abbrev|unfoldable|pub)\s+)*(?:(record|data)\s+)?([^\s(){}\[\],;.:@λ|\"]+)(?:\s+[({].*)?\s+:\s")
# A name that would fall together with another one takes the one that stands here.
OTHER = {
    "size-of": "size_at_mark",
    "rule-said": "rule_as_said",
}


def files():
    for folder, dirs, names in os.walk("crates"):
        dirs[:] = sorted(d for d in dirs if d not in ("out", "must-fail"))
        for n in sorted(names):
            if n.endswith((".antt", ".rt")):
                yield os.path.join(folder, n)


def respelt(name):
    if name in OTHER:
        return OTHER[name]
    name = name.replace("′", "'")
    parts = re.split(r"[-_]", name)
    if parts[0][:1].isupper() and len(re.sub(r"[^A-Za-z]", "", parts[0])) > 1:
        return "".join(p[:1].upper() + p[1:] for p in parts) if len(parts) > 1 else name
    words = []
    for p in parts:
        words.append(re.sub(r"(?<=[a-z0-9])([A-Z])", lambda m: "_" + m.group(1), p).lower())
    return "_".join(w for w in words if w)


def old(name):
    return "-" in name or "′" in name or bool(re.match(r"[a-z]\w*[A-Z]", name))


def declared():
    found = collections.defaultdict(list)
    for p in files():
        if not p.endswith(".antt") or os.path.basename(p) in ANSWERS:
            continue
        for line in open(p, encoding="utf-8"):
            if line.lstrip().startswith("--"):
                continue
            m = SIGNATURE.match(line)
            if m and old(m.group(2)) and not m.group(2).startswith(("module", "where")):
                found[m.group(2)].append(p)
            m = re.match(r"^\s*(?:(?:abbrev|unfoldable|pub)\s+)*(?:record|data)\s+([^\s(){}\[\],;.:@λ|\"]+)", line)
            if m and old(m.group(1)):
                found[m.group(1)].append(p)
    return found


def turn(text, names, ghost_only):
    out, i = [], 0
    # strings of the code stay; the rest of a .rt file is turned name by name
    skip = re.compile(r'"(?:[^"\\]|\\.)*"') if ghost_only else None
    while i < len(text):
        if skip:
            m = skip.match(text, i)
            if m:
                out.append(m.group(0))
                i = m.end()
                continue
        m = NAME.match(text, i)
        if not m:
            out.append(text[i])
            i += 1
            continue
        w = m.group(0)
        before = text[max(0, i - 5):i]
        made = re.search(r"(?:^|[^\w'-])(?:c|l|goal)\.$", before)
        out.append(names[w] if w in names and not made else w)
        i = m.end()
    return "".join(out)


def main():
    found = declared()
    names = {n: respelt(n) for n in sorted(found)}
    tokens = collections.Counter()
    for p in files():
        for w in NAME.findall(open(p, encoding="utf-8").read()):
            tokens[w] += 1
    back = collections.defaultdict(list)
    for n, new in names.items():
        back[new].append(n)
    for new, olds in sorted(back.items()):
        if len(olds) > 1 or tokens[new]:
            print("together:", ", ".join(olds), "->", new, "(there", tokens[new], "times)", file=sys.stderr)
    if "--list" in sys.argv:
        for n, new in names.items():
            print(n, new)
        return
    for p in files():
        t = open(p, encoding="utf-8").read()
        u = turn(t, names, p.endswith(".rt"))
        if u != t:
            open(p, "w", encoding="utf-8").write(u)


main()
