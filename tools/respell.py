#!/usr/bin/env python3
"""Brings this repository's own definitions and lemmas to one spelling: words in snake case, types in camel case.

usage: python3 tools/respell.py [--list]        at the top of the repository, once, right after the upgrade scripts

It takes the names that specs/ and proofs/ declare, but for those of generated goals, and turns each whole word in antt files and in the ghost
lines and clauses of .rt files. It stops where two names would fall together.
"""
import os
import re
import sys

WORD = re.compile(r"(?<![\w'\u00b7\u25cc-])[A-Za-z][\w']*(?:-[\w'+\u25cc]+)*")
DECLARED = re.compile(r"^\s*(?:(?:abbrev|unfoldable|pub|record|data)\s+)*([A-Za-z][\w'-]*(?:\s+[A-Za-z][\w'-]*)*)\s+(?:\([^)]*\)\s*|\{[^}]*\}\s*)*:(?!=)")
BOUND = re.compile(r"[({]([A-Za-z][\w'-]*(?:\s+[A-Za-z][\w'-]*)*)\s+:")
KEYWORDS = {"abbrev", "unfoldable", "pub", "record", "data", "module", "let", "in", "where", "use", "as", "at", "elim", "rw", "simp"}


def files(root):
    for folder, dirs, names in os.walk(os.path.join(root, "crates")):
        dirs[:] = sorted(d for d in dirs if d != "out")
        for n in sorted(names):
            if n.endswith((".rt", ".antt")):
                yield os.path.join(folder, n)


def is_goal_file(path):
    return os.path.basename(path) in ("Answers.antt", "Invariants.antt")


def turned(name):
    if name[0].isupper():
        return "".join(p[:1].upper() + p[1:] for p in name.split("-"))
    name = re.sub(r"([a-z0-9])([A-Z])", lambda m: m[1] + "_" + m[2].lower(), name)
    return name.replace("-", "_")


def declared(path, text):
    found = set()
    for line in text.splitlines():
        line = line.split("--")[0] if line.lstrip().startswith("--") else line
        m = DECLARED.match(line)
        if m and not (is_goal_file(path) and re.search(r":\s*goal\.", line)):
            found.update(m[1].split())
        for m in BOUND.finditer(line):
            found.update(m[1].split())
    return found - KEYWORDS


def ghost_spans(text):
    """The parts of a .rt file that are ghost: whole `ghost` lines and what stands in the braces of clauses."""
    for m in re.finditer(r"(?m)^\s*(?:pub )?ghost\b.*$|\b(?:requires|ensures)\*?(?: \w+)? \{", text):
        start, end = m.start(), m.end()
        if text[end - 1] == "{" and "ghost" not in m[0]:
            deep = 1
            while deep:
                deep += {"{": 1, "}": -1}.get(text[end], 0)
                end += 1
        yield start, end


def respell(text, names, spans=None):
    def one(m):
        return names.get(m[0], m[0])

    if spans is None:
        return WORD.sub(one, text)
    out, at = [], 0
    for start, end in spans:
        if start < at:
            continue
        out += [text[at:start], WORD.sub(one, text[start:end])]
        at = end
    return "".join(out + [text[at:]])


def main():
    texts = {}
    for p in files("."):
        with open(p, encoding="utf-8") as f:
            texts[p] = f.read()
    own = set()
    for p, t in texts.items():
        if p.endswith(".antt"):
            own |= declared(p, t)
    kept = {n for n in own if turned(n) == n}
    names = {n: turned(n) for n in own if turned(n) != n}
    back = {}
    for old, new in sorted(names.items()):
        back.setdefault(new, []).append(old)
    together = {new: olds for new, olds in back.items() if len(olds) > 1 or new in kept}
    if "--list" in sys.argv:
        for old, new in sorted(names.items()):
            print(old, new, "TOGETHER" if new in together else "")
        return 0
    for new, olds in sorted(together.items()):
        print(f"look: {', '.join(olds)} and {new}")
    for p, t in texts.items():
        new = respell(t, names) if p.endswith(".antt") else respell(t, names, ghost_spans(t))
        if new != t:
            with open(p, "w", encoding="utf-8") as f:
                f.write(new)
    print(f"{len(names)} names respelled")
    return 0


if __name__ == "__main__":
    raise SystemExit(main())
