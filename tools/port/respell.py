#!/usr/bin/env python3
"""Brings this repository's own definitions and lemmas to today's spelling: words in snake case, a dash only where two lemmas or a lemma and a
definition would fall together otherwise. names.tsv has each old name and its new one.

usage: python3 tools/port/respell.py [FOLDER]     once, after port.py, at the top of a checkout (or in FOLDER)

It goes by whole names, in crates/ (sources, definitions, proofs, edits) and, between backticks, in the pages.
"""
import glob
import os
import re
import sys

HERE = os.path.dirname(os.path.realpath(__file__))
ROOT = sys.argv[1] if len(sys.argv) > 1 else "."
NAMES = dict(line.rstrip("\n").split("\t") for line in open(os.path.join(HERE, "names.tsv"), encoding="utf-8"))
NAME = re.compile(r"[^\s(){}\[\];,.:→λ\"`|⟨⟩]+")


def turned(text, source=False):
    """In a source no name gets a dash: such a name is a function's there."""
    return NAME.sub(lambda m: m.group(0) if source and "-" in NAMES.get(m.group(0), "") else NAMES.get(m.group(0), m.group(0)), text)


def main():
    changed = 0
    crates = [p for p in glob.glob(os.path.join(ROOT, "crates/*/**/*"), recursive=True)
              if p.endswith((".rt", ".antt", ".edit")) and "/out/" not in p]
    pages = glob.glob(os.path.join(ROOT, "*.md")) + glob.glob(os.path.join(ROOT, "docs/*.md")) + glob.glob(os.path.join(ROOT, "host/*.md"))
    for p in sorted(crates + pages):
        with open(p, encoding="utf-8") as f:
            old = f.read()
        new = re.sub(r"`[^`\n]*`", lambda m: turned(m.group(0)), old) if p.endswith(".md") else turned(old, p.endswith(".rt"))
        if new != old:
            changed += 1
            with open(p, "w", encoding="utf-8") as f:
                f.write(new)
    print(f"respell: {changed} files changed")


main()
