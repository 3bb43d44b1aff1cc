#!/usr/bin/env python3
"""Counts the lines of specs/ that a reader must believe: neither blank, nor a comment, nor an import, nor a list of modules,
and outside the folders inside/, which no promise to a caller cites.

    tools/spec_count.py
"""
import re
from pathlib import Path

CRATES = Path(__file__).resolve().parent.parent / "crates"
APART = re.compile(r"\s*($|--|(pub |unfoldable pub )?use |pub mod )")


def lines(crate, inside):
    files = sorted((crate / "specs").rglob("*.antt"))
    chosen = [f for f in files if ("inside" in f.relative_to(crate / "specs").parts) == inside]
    return sum(not APART.match(line) for f in chosen for line in f.read_text().splitlines())


total = [0, 0]
for crate in sorted(c for c in CRATES.iterdir() if (c / "specs").exists()):
    counts = [lines(crate, False), lines(crate, True)]
    total = [a + b for a, b in zip(total, counts)]
    print(f"{crate.name:14} {counts[0]:5} {counts[1]:5}")
print(f"{'all':14} {total[0]:5} {total[1]:5}")
