#!/usr/bin/env python3
"""Brings the repository's own definitions and lemmas to today's spelling: words in snake case, types in upper camel case.

Run once, at the top of the repository, after /opt/rattle/port/port.py. The names are those that specs/ and the lemma files
of proofs/ declare: definitions, lemmas, fields and constructors. Functions, exported names, strings, inputs and outputs
keep their names. With --list it prints the names that change, and those that would fall together.
"""
import collections
import glob
import re
import sys

LETTER = r"[^\s(){}\[\].,;:λ⌜⌝]"
NAME = re.compile(r"(?<!%s)%s+(?!%s)" % (LETTER, LETTER, LETTER))
TOP = re.compile(r"^(?:pub |unfoldable |abbrev |mutual |record |data )*([^\s:{(.,]+)(?=\s*[({:]|\s+[^=]*:|\s*$)")
INNER = re.compile(r"^\s+(?:pub |unfoldable |abbrev |record |data )*([^\s:{(.,]+)(?= : | :$|$)")
SKIPPED = ("--", "use ", "pub use ", "mod ", "pub mod ")


def declared():
    names = collections.defaultdict(set)
    for path in sorted(glob.glob("crates/*/specs/*.antt") + glob.glob("crates/*/proofs/*.antt")):
        for line in open(path):
            if line.lstrip().startswith(SKIPPED):
                continue
            found = INNER.match(line) if line.startswith(" ") else TOP.match(line)
            if found:
                names[found.group(1)].add(path)
    return names


def new(name):
    if name[0].isupper():
        return "".join(p[:1].upper() + p[1:] for p in re.split("[-_]", name))
    word = re.sub(r"([a-z0-9])([A-Z])", lambda m: m.group(1) + "_" + m.group(2).lower(), name)
    return re.sub(r"(?<=[^\W_])-(?=[^\W_])", "_", word)


def turned(text, change):
    return NAME.sub(lambda m: change.get(m.group(0), m.group(0)), text)


# In a source file only ghost lines and clauses are ours to turn; a name with a dash stands in nothing else.
def turned_source(text, change):
    dashed = {n: w for n, w in change.items() if "-" in n}
    lines = []
    for line in text.split("\n"):
        if re.match(r"\s*(ghost|requires|ensures)\b", line):
            line = turned(line, change)
        elif not line.lstrip().startswith("//"):
            line = turned(line, dashed)
        lines.append(line)
    return "\n".join(lines)


def main():
    names = declared()
    change = {n: new(n) for n in names if new(n) != n}
    if "--list" in sys.argv:
        together = collections.defaultdict(set)
        for n in sorted(names):
            together[change.get(n, n)].add(n)
            if n in change:
                print(n, change[n])
        for n, olds in sorted(together.items()):
            if len(olds) > 1:
                print("together:", n, *sorted(olds))
        return
    paths = glob.glob("crates/**/*.antt", recursive=True) + glob.glob("crates/**/*.rt", recursive=True)
    for path in paths:
        text = open(path).read()
        result = turned_source(text, change) if path.endswith(".rt") else turned(text, change)
        if result != text:
            open(path, "w").write(result)


main()
