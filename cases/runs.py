#!/usr/bin/env python3
"""Replay lines about runs, and what they have to write.

Each line stands beside its answer, which was worked out by hand.
`runs.py script` writes the lines, `runs.py transcript FIRST` the answers, where
FIRST is the number of the first of the lines.
"""
import sys

from images import F, N, P, RET, image

WORDS = ["p:0"] * 8


def hexed(*parts):
    return "image " + image(*parts).hex()


def frame(function, place, *values):
    return " ".join(["frame", str(function), str(place), *values, *WORDS[len(values):]])


def events(*told):
    return ["event " + e for e in told]


# Function 0 puts function 1's address at 0 and 1, calls it through what it loads
# from 1, and returns; function 1 doubles the word at 2.
TABLE = hexed(
    8,
    2,
    [N, F, P(1), P(2), P(0)],
    [],
    [(2, 2), (0, 3)],
    [(2,), (3,), (0,), (0,), (4,)],
    [(0, 11, 0, 3), (11, 5, 3, 2)],
    [
        (7, 0, 1, 0),
        (8, 1, 0, 0),
        (13, 0, 1, 0),
        (0, 2, 1, 0),
        (10, 1, 1, 2),
        (13, 0, 1, 0),
        (12, 0, 1, 0),
        (15, 0, 0, 0),
        (6, 2, 10, 0),
        (5, 9, 0, 0),
        RET,
        (8, 1, 1, 0),
        (12, 0, 1, 0),
        (1, 0, 0, 0),
        (13, 0, 1, 0),
        RET,
    ],
)
TO_THE_MOVE = events("0 0", "0 0", "0 0", "0 0", "6 1")
INSIDE = events("0 0", "0 0", "0 0", "0 0", "3 0", "5 1", "4 0")
MOVED = frame(0, 5, "c:1", "d:1:0:2", "p:1")
BOTH = ["entries 2", "entry 0 c:1", "entry 1 c:1"]

# Allocates two words, keeps their address in global 0, branches both ways, and
# calls through a word that the panel wrote.
BLOCK = hexed(
    4,
    1,
    [N, F, P(1), P(2), P(3)],
    [],
    [(3, 1)],
    [(0,), (3,), (4,), (2,)],
    [(0, 11, 0, 4)],
    [
        (0, 0, 2, 0),
        (9, 1, 0, 0),
        (8, 2, 0, 0),
        (13, 1, 2, 0),
        (6, 0, 6, 0),
        (5, 4, 0, 0),
        (0, 0, 0, 0),
        (6, 0, 5, 0),
        (12, 3, 1, 0),
        (15, 3, 0, 0),
        RET,
    ],
)

LINES = [
    ("# no run, and a memory of no words", []),
    ("step", ["no run"]),
    ("go 4", ["no run"]),
    ("frames", ["no run"]),
    ("entries", ["no run"]),
    ("status", ["no run"]),
    ("peek 0", ["outside"]),
    ("poke 0 1", ["outside"]),
    ("digest", ["digest 0"]),
    ("# a run that ends, on an array store, which it drops below the memory size and keeps", []),
    (TABLE, ["accepted"]),
    ("store array 8", ["store made"]),
    ("put 0 code 9", ["put"]),
    ("begin", ["begun"]),
    ("get 0", ["no store"]),
    ("begin", ["no store"]),
    ("status", ["running"]),
    ("step", ["refused 12"]),
    ("memory 7", ["memory 7"]),
    ("go 3", ["refused 12"]),
    ("go 0", ["refused 12"]),
    ("memory 9", ["memory 9"]),
    ("step", ["refused 12"]),
    ("memory 8", ["memory 8"]),
    ("digest", ["digest 0"]),
    ("poke 2 21", ["poked 2 21"]),
    ("poke 8 1", ["outside"]),
    ("peek 2", ["word 21"]),
    ("peek 8", ["outside"]),
    ("digest", ["digest 63"]),
    ("entries", ["entries 0"]),
    ("frames", ["frames 1", frame(0, 0)]),
    ("step", ["event 0 0"]),
    ("go 0", ["made 0 full"]),
    ("go 4", ["made 4 full", *TO_THE_MOVE[1:]]),
    ("frames", ["frames 1", MOVED]),
    ("entries", ["entries 1", "entry 0 c:1"]),
    ("step", ["event 0 0"]),
    ("entries", BOTH),
    ("# what the panel writes where a pointer is kept isn't called", []),
    ("poke 1 0", ["poked 1 0"]),
    ("poke 0 7", ["poked 0 7"]),
    ("step", ["event 0 0"]),
    ("step", ["event 2 1"]),
    ("frames", ["frames 2", frame(0, 8, "c:1", "d:1:0:2", "p:1"), frame(1, 0)]),
    ("poke 2 4294967295", ["poked 2 4294967295"]),
    ("go 100", ["made 7 ended", *INSIDE]),
    ("status", ["ended"]),
    ("frames", ["frames 0"]),
    ("entries", BOTH),
    ("peek 2", ["word 4294967294"]),
    ("digest", ["digest 1"]),
    ("step", ["refused 11"]),
    ("go 5", ["refused 11"]),
    ("go 0", ["refused 11"]),
    ("memory 0", ["memory 0"]),
    ("step", ["refused 11"]),
    ("begin", ["no store"]),
    ("status", ["ended"]),
    ("# a hash store with one slot: the second address isn't taken", []),
    ("memory 8", ["memory 8"]),
    ("store hash 1", ["store made"]),
    ("begin", ["begun"]),
    ("status", ["running"]),
    ("go 65536", ["made 5 stopped 27", *TO_THE_MOVE]),
    ("status", ["stopped"]),
    ("step", ["refused 11"]),
    ("go 0", ["refused 11"]),
    ("frames", ["frames 1", MOVED]),
    ("entries", ["entries 1", "entry 0 c:1"]),
    ("# windows: one that shows one address, and one that shows enough", []),
    ("store window 1 1 array 3", ["store made"]),
    ("begin", ["begun"]),
    ("go 5", ["made 5 full", *TO_THE_MOVE]),
    ("step", ["stopped 27"]),
    ("step", ["refused 11"]),
    ("status", ["stopped"]),
    ("store window 100 8 hash 9", ["store made"]),
    ("begin", ["begun"]),
    ("go 15", ["made 15 ended", *TO_THE_MOVE, *events("0 0", "0 0", "2 1"), *INSIDE]),
    ("entries", BOTH),
    ("# a block, data in the store, and a word that isn't code", []),
    ("store array 4", ["store made"]),
    (BLOCK, ["accepted"]),
    ("status", ["ended"]),
    ("begin", ["begun"]),
    ("memory 4", ["memory 4"]),
    ("poke 1 5", ["poked 1 5"]),
    ("go 8", ["made 8 full", *events("0 0", "7 2", "0 0", "0 0", "5 1", "0 0", "5 0", "0 0")]),
    ("frames", ["frames 1", frame(0, 9, "p:0", "d:1:1:3", "d:0:0:1", "p:5")]),
    ("entries", ["entries 1", "entry 0 d:1:1:3"]),
    ("step", ["stopped 24"]),
    ("go 1", ["refused 11"]),
    ("# the largest memory that may be asked for, and lines with faults, which change nothing", []),
    ("memory 65537", ["memory 65537"]),
    ("poke 65536 3", ["poked 65536 3"]),
    ("digest", ["digest 196611"]),
    ("begin now", "wrong count of words"),
    ("memory", "wrong count of words"),
    ("memory 65538", "number beyond its limit"),
    ("poke 1", "wrong count of words"),
    ("poke x 1", "not a number"),
    ("peek 4294967296", "number beyond its limit"),
    ("peek 1 2", "wrong count of words"),
    ("digest 0", "wrong count of words"),
    ("step 1", "wrong count of words"),
    ("go", "wrong count of words"),
    ("go 65537", "number beyond its limit"),
    ("frames all", "wrong count of words"),
    ("entries 0", "wrong count of words"),
    ("status -", "wrong count of words"),
    ("Status", "unknown word"),
    ("digest", ["digest 196611"]),
    ("  status  ", ["stopped"]),
]


def main():
    if sys.argv[1] == "script":
        print("\n".join(line for line, _ in LINES))
        return
    first = int(sys.argv[2])
    for number, (_, told) in enumerate(LINES, first):
        if isinstance(told, str):
            told = ["error line %d: %s" % (number, told)]
        for line in told:
            print(line)


if __name__ == "__main__":
    main()
