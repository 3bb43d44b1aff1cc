#!/usr/bin/env python3
"""Writes crates/firing/src/kiln.rt, the image of the module that the program `firing` runs.

    python3 tools/kiln.py > crates/firing/src/kiln.rt
"""
import struct

MEMORY, DEPTH = 16, 4

# Number, function, a pointer to it (a segment), a pointer to a segment (a place in the table), a pointer to a number.
TYPES = ((0, 0, 0), (2, 0, 0), (3, 1, 0), (3, 2, 0), (3, 0, 0))
NUMBER, _, SEGMENT, PLACE, NUMBERS = range(5)

GLOBALS = {"degrees": (NUMBER, 1), "table": (SEGMENT, 4)}

OPS = "set add subtract less cast jump branch function global allocate move field load store call through return".split()

FIRING = {"k": NUMBER, "segment": SEGMENT, "place": PLACE, "one": NUMBER, "segments": NUMBER, "more": NUMBER}
MADE = {"n": NUMBER, "degrees": NUMBERS, "left": NUMBER, "one": NUMBER, "by": NUMBER, "notes": NUMBERS}

# Each with its locals and its code. A word with a colon names the place that follows.
FUNCTIONS = {
    # Fills the table, is off, and goes through the first three segments.
    "firing": (FIRING, """
        set one 1
        global place table
        function segment ramp
        store segment place
        move place place one
        function segment hold
        store segment place
        move place place one
        function segment off
        store segment place
        move place place one
        function segment full_power
        store segment place
        call off
        set segments 3
    next:
        less more k segments
        branch more go
        return
    go:
        global place table
        move place place k
        load segment place
        through segment
        add k k one
        jump next"""),
    # Twice 300 degrees up.
    "ramp": (MADE, """
        set left 2
        set one 1
        set by 300
        global degrees degrees
    again:
        load n degrees
        add n n by
        store n degrees
        subtract left left one
        branch left again
        return"""),
    # Notes the degrees twice, in words of the heap.
    "hold": (MADE, """
        set left 2
        set one 1
        allocate notes left
        global degrees degrees
    again:
        load n degrees
        store n notes
        move notes notes one
        subtract left left one
        branch left again
        return"""),
    "off": (MADE, """
        global degrees degrees
        store n degrees
        return"""),
    "full_power": (MADE, """
        set n 1300
        global degrees degrees
        store n degrees
        return"""),
}


def number(op, place, word, locals_, labels):
    """What a word behind an instruction's name stands for."""
    if op in ("jump", "branch") and word in labels:
        return labels[word]
    if place and op == "function" or op == "call":
        return list(FUNCTIONS).index(word)
    if place and op == "global":
        return list(GLOBALS).index(word)
    return list(locals_).index(word) if word in locals_ else int(word)


def assembled(locals_, text):
    lines, labels = [], {}
    for line in text.split("\n"):
        if line.strip().endswith(":"):
            labels[line.strip()[:-1]] = len(lines)
        elif line.strip():
            lines.append(line.split())
    for op, *words in lines:
        told = [number(op, place, word, locals_, labels) for place, word in enumerate(words)]
        yield (OPS.index(op), *told, 0, 0, 0)[:4]


def image(memory, depth, *lists):
    head, at = [1, memory, depth], 60
    for width, records in zip((3, 1, 2, 1, 4, 4), lists):
        head += [at, len(records)]
        at += 4 * width * len(records)
    return b"".join(struct.pack("<I", w) for w in head + [w for records in lists for r in records for w in r])


def kiln():
    functions, locals_, code, first = [], [], [], {}
    for named, text in FUNCTIONS.values():
        if id(named) not in first:
            first[id(named)] = len(locals_)
            locals_ += [(kind,) for kind in named.values()]
        made = list(assembled(named, text))
        functions.append((len(code), len(made), first[id(named)], len(named)))
        code += made
    return image(MEMORY, DEPTH, TYPES, [], list(GLOBALS.values()), locals_, functions, code)


def written(data):
    def word(at):
        return "".join(f"\\x{b:02x}" if b else "\\0" for b in data[at:at + 4])

    rows = ["".join(map(word, range(at, min(at + 16, len(data)), 4))) for at in range(0, len(data), 16)]
    return " \\\n    ".join(rows).replace(" \\\n", "\\\n")


if __name__ == "__main__":
    data = kiln()
    print("// The image of the kiln module, written by tools/kiln.py.\n")
    print(f'pub(crate) const KILN: &[u8; {len(data)}] = b"{written(data)}";')
