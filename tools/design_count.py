#!/usr/bin/env python3
"""Counts, point by point, the places in crates/*/src that docs/DESIGN-PASS.md is about.

    python3 tools/design_count.py [-l] [FOLDER]     -l lists the lines too
"""
import collections
import glob
import os
import re
import sys

LINES = {
    "1a own enums": r"^\s*(pub(\(crate\))? )?enum \w+",
    "1b a flag from a call that changes something": r"fn \w+(<.*>)?\(.*&mut .*\) -> bool",
    "1c a number for a kind, a list or a refusal": r"\b(list|number|function): u32\b",
    "1d a number that stands for nothing": r"(None|_) => (0|\"unknown\")|=> 0,$|\blist: 0",
    "3a a loop over a range of numbers": r"\bfor \w+ in \(?(0|\w+)\.\.",
    "3b while": r"\bwhile\b",
    "3c a count by hand": r"saturating_add\(1\)|\+= (1|4)\b",
    "4a an option or a reference copied by hand": r"Some\(\*?(\w+)\) => (Some\(\*?\1|\*\1)|None => None|Ok\(_\) => Ok|Err\((\w+)\) => Err\(\3",
    "4b text from a function": r"-> &'static str",
    "4c conversions": r"^impl From<",
    "4d the library's then_some, matches or any by hand": r"(Some\(\w+\)|true) \} else \{ (None|false) \}|_ => (false|None),",
    "6a an array of a fixed length": r": \[[\w\[\]]+(; \d+\])+,|\[\w+; \d+\]",
    "6b a length beside": r"\b(count|words|width)\(?\)?: usize|fn words\(\)",
    "7a a choice of the test to run": r"\brule: Rule\b|match \(?rule",
    "7b a choice by text": r"\bis\(\w+, \"|as_str\(\) ==|command == ",
}


def sources(root):
    for path in sorted(glob.glob(os.path.join(root, "crates/*/src/**/*.rt"), recursive=True)):
        with open(path) as f:
            yield os.path.relpath(path, root), f.read()


def functions(text):
    for m in re.finditer(r"fn (\w+)(<[^>]*>)?\(([^)]*)\)", text):
        yield m.group(1), [p.strip() for p in m.group(3).replace("\n", " ").split(",") if p.strip()]


def main():
    listing = "-l" in sys.argv
    rest = [a for a in sys.argv[1:] if a != "-l"]
    root = rest[0] if rest else "."
    texts = list(sources(root))
    for name, pattern in LINES.items():
        hits = [
            (p, i + 1, l.strip())
            for p, t in texts
            for i, l in enumerate(t.split("\n"))
            if re.search(pattern, l) and not l.strip().startswith(("//", "ghost use"))
        ]
        print(f"{name}: {len(hits)}")
        for h in hits if listing else []:
            print("    %s:%d: %s" % h)
    together = collections.Counter()
    for p, t in texts:
        for _, params in functions(t):
            named = [q for q in params if ":" in q]
            for i, a in enumerate(named):
                for b in named[i + 1 :]:
                    together[(p.split("/")[1], a, b)] += 1
    groups = {k: n for k, n in together.items() if n >= 3}
    print(f"5a pairs of parameters that three or more functions of a crate take together: {len(groups)}")
    for k, n in sorted(groups.items()) if listing else []:
        print("    %s: (%s, %s) in %d" % (*k, n))
    facts = collections.Counter()
    for p, t in texts:
        for f in set(re.findall(r"requires(?: \w+)? \{ (.*) \}", t)):
            facts[(p.split("/")[1], re.sub(r"\b\w+\.(old|now|entry)\b", "_", f))] += len(
                re.findall(re.escape(f), t)
            )
    many = {k: n for k, n in facts.items() if n >= 3}
    print(f"5b facts that three or more contracts of a crate ask: {len(many)}")
    for k, n in sorted(many.items()) if listing else []:
        print("    %s: %s in %d" % (*k, n))
    answers = lemmas = lines = 0
    for path in glob.glob(os.path.join(root, "crates/*/proofs/**/*.antt"), recursive=True):
        with open(path) as f:
            t = f.read()
        lines += t.count("\n")
        if path.endswith("Answers.antt"):
            answers += len(re.findall(r"^pub [\w-]+ : goal\.", t, re.M))
        elif not path.endswith(("Lib.antt", "Invariants.antt", "Measures.antt")):
            lemmas += len(re.findall(r"^\s*(?:pub )?[\w']+(?:-[\w']+)* : ", t, re.M))
    print(f"8 answers {answers}, statements in lemma files {lemmas}, lines of proofs {lines}")


main()
