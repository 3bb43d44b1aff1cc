#!/usr/bin/env python3
"""The images that bench/run measures. Each leaves its result in the first word of the memory.

    python3 bench/images.py FOLDER     writes NAME.bin for each of them, and the list `images`: a line for each, its name,
                                       its memory size, and how many slots its array store and its hash store have
"""
import importlib.util
import sys
from pathlib import Path

HERE = Path(__file__).resolve().parent
spec = importlib.util.spec_from_file_location("cases", HERE.parent / "cases" / "images.py")
cases = importlib.util.module_from_spec(spec)
spec.loader.exec_module(cases)

OPS = "set add subtract less cast jump branch function global allocate move field load store call through return".split()

# number, function, a pointer to it, a pointer to that; a record of a number, a pointer to the next one and a pointer to a
# function; a pointer to it, a pointer to that, and a pointer to a number
NUMBER, _, CODE, TABLE, _, NODE, NODES, NUMBERS = range(8)
TYPES = [(0, 0, 0), (2, 0, 0), (3, 1, 0), (3, 2, 0), (4, 0, 3), (3, 4, 0), (3, 5, 0), (3, 0, 0)]
FIELDS = [(NUMBER,), (NODE,), (CODE,)]


def assembled(names, text):
    """Lines `op word ..`, where a word is a local, a place (`name:` stands before it) or a number."""
    lines, places = [], {}
    for line in text.split("\n"):
        if line.strip().endswith(":"):
            places[line.strip()[:-1]] = len(lines)
        elif line.strip():
            lines.append(line.split())

    def told(word):
        if word in places:
            return places[word]
        return names.index(word) if word in names else int(word)

    return [(OPS.index(op), *map(told, words), 0, 0, 0)[:4] for op, *words in lines]


def module(memory, globals_, *functions):
    """Functions are pairs of locals, by name, and text."""
    lists = [TYPES, FIELDS, globals_, [], [], []]
    for locals_, text in functions:
        code = assembled(list(locals_), text)
        lists[4].append((len(lists[5]), len(code), len(lists[3]), len(locals_)))
        lists[3] += [(kind,) for kind in locals_.values()]
        lists[5] += code
    return cases.image(memory, 0, *lists)


def numbers(*names):
    return {name: NUMBER for name in names}


IDLE = ({}, "return")

LOOP = (numbers("i", "n", "one", "more", "a", "b") | {"p": NUMBERS}, """
    set n {n}
again:
    less more i n
    branch more on
    add a a b
    global p 0
    store a p
    return
on:
    set one 1
    add a a i
    subtract b a b
    add i i one
    jump again""")


def loop(n, memory=64, functions=1):
    """Seven steps each time round; as the only function, or as the last one, which the first calls."""
    locals_, text = LOOP
    body = (locals_, text.format(n=n))
    others = [] if functions == 1 else [({}, f"call {functions - 1}\nreturn")] + [IDLE] * (functions - 2)
    return module(memory, [(NUMBER, 1)], *others, body)


def mix(n, memory=64):
    """Two of twenty steps are sensitive: a load and a store of a function's address."""
    locals_ = numbers("i", "one", "a", "b", "c") | {"q": NUMBERS, "t": TABLE, "f": CODE}
    return module(memory, [(NUMBER, 1), (CODE, 1)], (locals_, f"""
        set i {n}
        set one 1
        global q 0
        global t 1
        function f 1
        store f t
    again:
        add a a i
        subtract b a b
        load c q
        add c c a
        less b c b
        load f t
        add b b c
        store c q
        subtract i i one
        branch i on
        return
    on:
        add a a one
        subtract b b a
        load c q
        add c c b
        store f t
        less a c a
        add a a i
        store c q
        add c c a
        jump again"""), IDLE)


def dispatch(n, memory=64):
    """Fifteen of seventeen steps call through a table of four functions: move, load, call through, return."""
    locals_ = numbers("i", "one", "two", "three") | {"t": TABLE, "p": TABLE, "f": CODE, "q": NUMBERS}
    fill = "".join(f"""
        function f {k + 1}
        store f p
        move p p one""" for k in range(4))
    return module(memory, [(NUMBER, 1), (CODE, 4)], (locals_, f"""
        set one 1
        set two 2
        set three 3
        global t 1
        cast p t{fill}
        set i {n}
    again:
        load f t
        through f
        move p t one
        load f p
        through f
        move p t two
        load f p
        through f
        move p t three
        load f p
        through f
        subtract i i one
        branch i again
        global q 0
        store three q
        return"""), *[IDLE] * 4)


def walk(n, nodes=1000):
    """A ring of sensitive records is made, and walked: seven steps each time, three of them sensitive."""
    build = numbers("i", "one") | {"p": NODE, "q": NODES, "v": NUMBERS, "first": NODE, "fresh": NODE}
    stroll = numbers("i", "one", "x", "a") | {"p": NODE, "q": NODES, "v": NUMBERS}
    return module(4096, [(NUMBER, 1), (NODE, 1)], (build, f"""
        set one 1
        set i {nodes - 1}
        allocate first one
        cast p first
    again:
        allocate fresh one
        field v fresh 0
        store i v
        field q p 1
        store fresh q
        cast p fresh
        subtract i i one
        branch i again
        field q p 1
        store first q
        global q 1
        store first q
        call 1
        return"""), (stroll, f"""
        set one 1
        set i {n}
        global q 1
        load p q
    again:
        field q p 1
        load p q
        field v p 0
        load x v
        add a a x
        subtract i i one
        branch i again
        global v 0
        store a v
        return"""))


def heap(memory=65536):
    """Records are allocated until the memory is full, and two of their fields written."""
    locals_ = numbers("i", "one") | {"p": NODE, "f": CODE, "t": TABLE, "v": NUMBERS}
    return module(memory, [(NUMBER, 1)], (locals_, f"""
        set one 1
        set i {(memory - 1) // 3}
        function f 1
    again:
        allocate p one
        field v p 0
        store i v
        field t p 2
        store f t
        subtract i i one
        branch i again
        cast i p
        global v 0
        store i v
        return"""), IDLE)


def shared():
    """64 functions that share 1,024 instructions."""
    code = [(1, k % 8, (k + 3) % 8, (k + 5) % 8) for k in range(1023)] + [cases.RET]
    return cases.image(65536, 16, [cases.N], [], [], [(0,)] * 8, [(0, 1024, 0, 8)] * 64, code)


def images():
    """Each with its name, its memory size, and the slots of its array store and of its hash store."""
    yield "loop", loop(3_000_000), 64, 64, 8
    yield "mix", mix(1_000_000), 64, 64, 8
    yield "dispatch", dispatch(1_000_000), 64, 64, 8
    yield "walk", walk(3_000_000), 4096, 4096, 2048
    yield "heap", heap(), 65536, 65536, 65536
    yield "loop-65536", loop(3_000_000, memory=65536), 65536, 65536, 8
    yield "loop-64-functions", loop(3_000_000, functions=64), 64, 64, 8
    yield "mix-65536", mix(1_000_000, memory=65536), 65536, 65536, 8
    yield "begin", module(65536, [], IDLE), 65536, 65536, 65536
    yield "smallest", cases.FRESH, 1, 1, 1
    yield "largest", cases.image(65536, 16, *cases.largest()), 65536, 65536, 65536
    yield "shared", shared(), 65536, 65536, 65536


def main():
    folder = Path(sys.argv[1])
    folder.mkdir(parents=True, exist_ok=True)
    rows = []
    for name, data, memory, array, hashed in images():
        cases.judge(data)
        (folder / f"{name}.bin").write_bytes(data)
        rows.append(f"{name} {memory} {array} {hashed}\n")
    (folder / "images").write_text("".join(rows))


if __name__ == "__main__":
    main()
