#!/usr/bin/env python3
"""facts.py [COMMIT]: the facts that stand in the clauses of three or more functions, told apart from .old, .new and .now.
Without a commit it reads the files as they lie."""
import collections
import re
import subprocess
import sys
from pathlib import Path


def sources(commit):
    if commit is None:
        for path in sorted(Path("crates").glob("*/src/**/*.rt")):
            yield str(path), path.read_text()
        return
    names = subprocess.run(["git", "ls-tree", "-r", "--name-only", commit, "crates"], capture_output=True, text=True, check=True).stdout
    for name in names.split("\n"):
        if "/src/" in name and name.endswith(".rt"):
            yield name, subprocess.run(["git", "show", f"{commit}:{name}"], capture_output=True, text=True, check=True).stdout


def main():
    facts = collections.defaultdict(set)
    for name, text in sources(sys.argv[1] if len(sys.argv) > 1 else None):
        function = None
        for line in text.split("\n"):
            if m := re.search(r"\bfn (\w+)", line):
                function = m.group(1)
            if m := re.match(r"\s*(requires|ensures)\s*\w*\s*\{ (.*) \}", line):
                fact = re.sub(r"\.(old|new|now)\b", "", m.group(2))
                facts[m.group(1), fact].add(f"{name.split('/')[1]}/{function}")
    for (kind, fact), where in sorted(facts.items(), key=lambda x: (-len(x[1]), x[0])):
        if len(where) >= 3:
            print(len(where), kind, fact, ": " + " ".join(sorted(where)))


main()
