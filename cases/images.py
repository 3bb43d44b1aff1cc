#!/usr/bin/env python3
"""Replay lines about images, and what they have to write.

An implementation of docs/IMAGE.md that shares nothing with the crates:
`images.py script` writes a replay script, `images.py transcript` what it has to
write, `images.py files DIR` stores some of its images, each under its answer,
`images.py show FILE` writes what `k4 show FILE` has to write, and `images.py
state FILE` all of `k4 state FILE` but its last line, from docs/INTEGRITY.md.
"""
import random
import struct
import sys
from pathlib import Path

WIDTHS = (3, 1, 2, 1, 4, 4)
COUNTS = ((1, 64), (0, 256), (0, 64), (0, 256), (1, 64), (1, 1024))
NUMBER, VOID, FUNCTION, POINTER, RECORD = range(5)
USED = (2, 3, 3, 3, 2, 1, 2, 2, 2, 2, 3, 3, 2, 2, 1, 1, 0)
JUMP, BRANCH, ADDRESS, CALL, RETURN = 5, 6, 7, 14, 16
BIG = 2**32 - 1


def spell(words):
    return b"".join(struct.pack("<I", w) for w in words)


def image(memory, depth, *lists):
    """The image of six lists of records, each record a tuple of words."""
    head, at = [1, memory, depth], 60
    for width, records in zip(WIDTHS, lists):
        head += [at, len(records)]
        at += 4 * width * len(records)
    return spell(head + [w for records in lists for r in records for w in r])


class Refused(Exception):
    pass


def parse(data):
    if len(data) < 60:
        raise Refused(1, 0, 0)
    head = struct.unpack_from("<15I", data)
    if head[0] != 1:
        raise Refused(2, 0, 0)
    counts = head[4::2]
    if not (1 <= head[1] <= 65536 and head[2] <= 16) or any(
        not lo <= n <= hi for n, (lo, hi) in zip(counts, COUNTS)
    ):
        raise Refused(3, 0, 0)
    at, places = 60, []
    for width, n in zip(WIDTHS, counts):
        places.append(at)
        at += 4 * width * n
    if list(head[3::2]) != places or len(data) != at:
        raise Refused(4, 0, 0)
    lists = [
        [struct.unpack_from("<%dI" % w, data, p + 4 * w * k) for k in range(n)]
        for w, n, p in zip(WIDTHS, counts, places)
    ]
    return head[1], head[2], lists


def formed(which, r):
    if which == 0:
        kind, a, b = r
        if kind == RECORD:
            return 1 <= b <= 64
        return kind < 4 and b == 0 and (kind == POINTER or a == 0)
    if which == 2:
        return 1 <= r[1] <= 4096
    if which == 4:
        return r[1] >= 1 and r[3] <= 8
    if which == 5:
        return r[0] <= 16 and not any(r[1 + USED[r[0]]:])
    return True


class Judge:
    def __init__(self, lists):
        self.types, self.fields, self.globals, self.locals, self.functions, self.code = lists

    def names(self, which, r):
        if which == 0:
            kind, a, b = r
            if kind == POINTER:
                return a < len(self.types)
            return kind != RECORD or a + b <= len(self.fields)
        if which == 4:
            first, n, low, m = r
            return first + n <= len(self.code) and low + m <= len(self.locals)
        return r[0] < len(self.types)

    def typed(self, which, r):
        if which in (1, 3):
            return self.types[r[0]][0] in (NUMBER, POINTER)
        if which == 2:
            return self.types[r[0]][0] in (NUMBER, POINTER, RECORD)
        return True

    def place_names(self, f, i):
        op, a, b, c = self.code[f[0] + i]
        x = lambda v: v < f[3]
        if op in (1, 2, 3, 10):
            return x(a) and x(b) and x(c)
        if op in (4, 9, 11, 12, 13):
            return x(a) and x(b)
        if op == JUMP:
            return a < f[1]
        if op == BRANCH:
            return x(a) and b < f[1]
        if op == 7:
            return x(a) and b < len(self.functions)
        if op == 8:
            return x(a) and b < len(self.globals)
        if op == 14:
            return a < len(self.functions)
        return op == RETURN or x(a)

    def place_typed(self, f, i):
        op, a, b, c = self.code[f[0] + i]
        kind = lambda v: self.locals[f[2] + v][0]
        number = lambda v: self.types[kind(v)][0] == NUMBER

        def to(v):
            t = self.types[kind(v)]
            return t[1] if t[0] == POINTER else None

        def to_kind(v):
            return None if to(v) is None else self.types[to(v)][0]

        sized = lambda v: to_kind(v) in (NUMBER, POINTER, RECORD)
        if i == f[1] - 1 and op not in (JUMP, RETURN):
            return False
        if op in (0, BRANCH):
            return number(a)
        if op in (1, 2, 3):
            return number(a) and number(b) and number(c)
        if op in (7, 15):
            return to_kind(a) == FUNCTION
        if op == 8:
            return to(a) == self.globals[b][0]
        if op == 9:
            return sized(a) and number(b)
        if op == 10:
            return kind(a) == kind(b) and sized(a) and number(c)
        if op == 11:
            if to_kind(b) != RECORD:
                return False
            _, first, n = self.types[to(b)]
            return c < n and to(a) == self.fields[first + c][0]
        if op in (12, 13):
            return to(b) == kind(a)
        return True

    def size(self, t):
        return self.types[t][2] if self.types[t][0] == RECORD else 1

    def sensitive(self):
        marks = {t for t, r in enumerate(self.types) if r[0] in (VOID, FUNCTION)}
        while True:
            more = {
                t
                for t, (kind, a, b) in enumerate(self.types)
                if kind == POINTER and a in marks
                or kind == RECORD and any(self.fields[a + k][0] in marks for k in range(b))
            }
            if more <= marks:
                return sorted(marks)
            marks |= more


def judge(data):
    memory, _, lists = parse(data)
    for which, records in enumerate(lists):
        for k, r in enumerate(records):
            if not formed(which, r):
                raise Refused(5, which, k)
    j = Judge(lists)
    for number, record, place in ((6, j.names, j.place_names), (7, j.typed, j.place_typed)):
        for which, records in enumerate(lists[:5]):
            for k, r in enumerate(records):
                if not record(which, r):
                    raise Refused(number, which, k)
        for f in j.functions:
            for i in range(f[1]):
                if not place(f, i):
                    raise Refused(number, 5, f[0] + i)
    if sum(j.size(t) * n for t, n in j.globals) > memory:
        raise Refused(8, 0, 0)
    return j


RET = (RETURN, 0, 0, 0)
N, V, F = (NUMBER, 0, 0), (VOID, 0, 0), (FUNCTION, 0, 0)


def P(t):
    return (POINTER, t, 0)


def R(a, b):
    return (RECORD, a, b)


FRESH = image(1, 1, [N], [], [], [], [(0, 1, 0, 0)], [RET])

# types: 0 number, 1 void, 2 function, 3 *function, 4 *number, 5 record(number, *function), 6 *record, 7 **function
TYPES = [N, V, F, P(2), P(0), R(0, 2), P(5), P(3)]
FIELDS = [(0,), (3,)]
GLOBALS = [(0, 1), (5, 2), (3, 3)]
LOCALS = [(0,), (0,), (3,), (4,), (6,), (7,), (0,), (3,)]
FUNCTIONS = [(0, 17, 0, 8), (16, 1, 0, 0), (14, 3, 0, 8)]
CODE = [
    (0, 0, 7, 0), (1, 0, 1, 6), (2, 0, 1, 6), (3, 0, 1, 6), (4, 2, 0, 0), (6, 0, 8, 0),
    (7, 2, 1, 0), (8, 4, 1, 0), (9, 4, 0, 0), (10, 4, 4, 0), (11, 5, 4, 1), (12, 2, 5, 0),
    (13, 2, 5, 0), (11, 3, 4, 0), (15, 2, 0, 0), (14, 1, 0, 0), RET,
]
WHOLE = [TYPES, FIELDS, GLOBALS, LOCALS, FUNCTIONS, CODE]


def whole(memory=20, depth=3, **changed):
    """The module above with some lists or records changed: name=list or name_k=record."""
    lists = dict(zip(("types", "fields", "globals", "locals", "functions", "code"), map(list, WHOLE)))
    for key, value in changed.items():
        name, _, k = key.partition("_")
        if k:
            lists[name][int(k)] = value
        else:
            lists[name] = value
    return image(memory, depth, *lists.values())


def patched(data, at, word):
    return data[:at] + struct.pack("<I", word) + data[at + 4:]


def largest():
    types = [P((k + 1) % 64) for k in range(62)] + [N, R(192, 64)]
    fields = [(62,)] * 256
    globals_ = [(63, 16)] * 64
    locals_ = [(62,)] * 256
    functions = [(0, 1024, 8 * (k % 32), 8) for k in range(64)]
    code = [(1, k % 8, (k + 3) % 8, (k + 5) % 8) for k in range(1023)] + [(JUMP, 1023, 0, 0)]
    return [types, fields, globals_, locals_, functions, code]


def headers():
    for n in (0, 1, 4, 56, 59, 60, 61, 64, 103, 105, 108):
        yield (FRESH + bytes(8))[:n]
    for version in (0, 2, 256, BIG):
        yield patched(FRESH, 0, version)
    for m in (0, 1, 2, 65536, 65537, BIG):
        yield patched(FRESH, 4, m)
    for d in (0, 1, 15, 16, 17, BIG):
        yield patched(FRESH, 8, d)
    for which, (lo, hi) in enumerate(COUNTS):
        for n in (lo - 1, lo, hi, hi + 1, BIG):
            if n >= 0:
                yield patched(FRESH, 16 + 8 * which, n)
        for start in (0, 59, 61, 71, 73, 76, BIG):
            yield patched(whole(), 12 + 8 * which, start)
    data = whole()
    for cut in (1, 2, 3, 4, 16):
        yield data[:-cut]
        yield data + bytes(cut)
    yield patched(patched(FRESH, 0, 2), 4, 0)
    yield patched(patched(FRESH, 4, 0), 12, 64)
    yield patched(FRESH, 4, 0)[:59]
    yield patched(patched(FRESH, 12, 64), 60, 9)
    yield patched(FRESH, 0, 2)[:59]


def one_fault():
    """Each list's records with words of every sort, at the first and the last record."""
    for name, rows in zip(("types", "fields", "globals", "locals", "functions", "code"), WHOLE):
        for k in (0, 1, len(rows) - 1):
            for w in range(len(rows[k])):
                for word in (0, 1, 2, 5, 8, 17, 65, 4097, BIG):
                    r = list(rows[k])
                    r[w] = word
                    yield whole(**{"%s_%d" % (name, k): tuple(r)})


def records():
    for b in (0, 1, 2, 3, 64, 65, BIG):
        for a in (0, 1, 2, 3, BIG - 1, BIG):
            yield whole(types_5=R(a, b), code=[RET], functions=[(0, 1, 0, 0)], globals=[])
    for first in (0, 1, 16, 17, 18, BIG):
        for n in (0, 1, 2, 17, BIG, BIG - first + 1):
            yield whole(functions_2=(first, n & BIG, 0, 8))
    for low in (0, 1, 7, 8, 9, BIG):
        for n in (0, 1, 7, 8, 9, BIG):
            yield whole(functions_1=(16, 1, low, n))
    yield image(1, 1, [N], [], [], [], [(0, 1, 1, 0)], [RET])
    yield image(1, 1, [N], [], [], [(0,)], [(0, 1, 1, 0)], [RET])
    for n in (0, 1, 4096, 4097):
        yield image(4096, 1, [N], [], [(0, n)], [], [(0, 1, 0, 0)], [RET])
        yield image(4095, 1, [N], [], [(0, n)], [], [(0, 1, 0, 0)], [RET])
    yield image(65536, 1, [N, R(0, 64)], [(0,)] * 64, [(1, 1024)], [], [(0, 1, 0, 0)], [RET])
    yield image(65535, 1, [N, R(0, 64)], [(0,)] * 64, [(1, 1024)], [], [(0, 1, 0, 0)], [RET])
    yield image(65536, 1, [N, R(0, 64)], [(0,)] * 64, [(1, 4096)] * 64, [], [(0, 1, 0, 0)], [RET])
    for m in (13, 8, 7, 1):
        yield whole(memory=m)


def instructions():
    """Every op on locals of every type, in place of an instruction that is not last, and last."""
    for op in range(18):
        for a in (0, 2, 4, 8):
            for b in (0, 4, 5, 17):
                for c in (0, 1):
                    yield whole(code_4=(op, a, b, c))
        yield whole(code_16=(op, 2, 0, 0))
        yield whole(code_16=(op, 0, 0, 0))
    for op in (1, 2, 3, 10, 11):
        for z in (0, 1, 2, 6, 7, 8):
            yield whole(code_9=(op, 4, 4, z))
            yield whole(code_9=(op, 0, 0, z))


def shared():
    """An instruction that is right in one function and wrong in another."""
    two = [(0,), (3,)]
    code = [(0, 0, 5, 0), RET]
    for fs in ([(0, 2, 0, 1), (0, 2, 1, 1)], [(0, 2, 1, 1), (0, 2, 0, 1)], [(0, 2, 0, 1), (1, 1, 1, 1)]):
        yield image(1, 1, [N, V, F, P(2)], [], [], two, fs, code)
    yield image(1, 1, [N], [], [], [(0,)], [(2, 1, 0, 0)], [(0, 9, 9, 0), (14, 9, 0, 0), RET, (1, 0, 0, 0)])
    yield image(1, 1, [N], [], [], [], [(2, 1, 0, 0)], [(0, 9, 9, 1), (14, 9, 0, 0), RET])
    yield image(1, 1, [N], [], [], [], [(1, 1, 0, 0), (0, 1, 0, 0)], [(JUMP, 1, 0, 0), (JUMP, 1, 0, 0)])
    yield image(1, 1, [N], [], [], [], [(1, 1, 0, 0), (0, 2, 0, 0)], [(JUMP, 1, 0, 0), (JUMP, 0, 0, 0)])


def two_faults():
    """Two faults of the numbers 5 to 8 at once, in every order of lists."""
    wrong = {
        5: dict(types_1=(9, 0, 0), globals_1=(0, 0), functions_1=(16, 0, 0, 0), code_3=(17, 0, 0, 0)),
        6: dict(types_4=P(8), fields_0=(8,), globals_0=(8, 1), locals_7=(8,), functions_2=(14, 4, 0, 8), code_2=(2, 8, 1, 1)),
        7: dict(fields_1=(1,), globals_2=(1, 1), locals_6=(5,), code_1=(1, 2, 0, 0), code_16=(0, 0, 0, 0)),
    }
    items = [(n, k, v) for n, rows in wrong.items() for k, v in rows.items()]
    for i, (_, k1, v1) in enumerate(items):
        for _, k2, v2 in items[i + 1:]:
            if k1 != k2:
                yield whole(**{k1: v1, k2: v2})
        yield whole(memory=1, **{k1: v1})


def chains():
    yield image(1, 1, [P(0)], [], [], [], [(0, 1, 0, 0)], [RET])
    yield image(1, 1, [P(1), P(0)], [], [], [], [(0, 1, 0, 0)], [RET])
    yield image(1, 1, [N, R(0, 2), P(1)], [(0,), (2,)], [], [], [(0, 1, 0, 0)], [RET])
    yield image(1, 1, [N, F, P(1), R(0, 2), P(3)], [(0,), (2,)], [], [], [(0, 1, 0, 0)], [RET])
    yield image(1, 1, [V, P(0), P(1), P(2), N, P(4)], [], [], [], [(0, 1, 0, 0)], [RET])
    yield image(1, 1, [P(k + 1) for k in range(63)] + [V], [], [], [], [(0, 1, 0, 0)], [RET])
    yield image(1, 1, [P(k + 1) for k in range(63)] + [P(0)], [], [], [], [(0, 1, 0, 0)], [RET])
    yield image(1, 1, [N] + [P(k) for k in range(63)], [], [], [], [(0, 1, 0, 0)], [RET])
    # a record in a circle with itself, whose second field leads to void
    yield image(1, 1, [P(1), R(0, 2), V, P(2)], [(0,), (3,)], [], [], [(0, 1, 0, 0)], [RET])


def randoms(rng, n):
    base = whole()
    for _ in range(n):
        data = bytearray(base)
        for _ in range(rng.choice((1, 1, 2, 3))):
            at = 4 * rng.randrange(len(data) // 4)
            word = rng.choice((0, 1, 2, 3, 4, 5, 6, 7, 8, 16, 60, 65536, BIG, rng.randrange(20)))
            data[at:at + 4] = struct.pack("<I", word)
        yield bytes(data)


def cases():
    yield FRESH
    yield whole()
    for group in (headers(), one_fault(), records(), instructions(), shared(), two_faults(), chains()):
        yield from group
    big = largest()
    yield image(65536, 16, *big)
    for which in range(6):
        rows = [list(r) for r in big]
        rows[which][-1] = tuple([BIG] * WIDTHS[which])
        yield image(65536, 16, *rows)
    big[5] = big[5][:-1] + [(1, 0, 0, 0)]
    yield image(65536, 0, *big)
    yield from randoms(random.Random(4), 200)


def lines(unique):
    """Pairs of a script line and what it writes."""
    module, marks, seen = FRESH, judge(FRESH).sensitive(), set()
    for count, data in enumerate(cases()):
        if data in seen and unique:
            continue
        seen.add(data)
        try:
            j = judge(data)
            module, marks, answer = data, j.sensitive(), "accepted"
        except Refused as e:
            answer = "refused %d %d %d" % e.args
        yield "image " + data.hex(), answer
        if answer == "accepted" or count % 50 == 0:
            yield "sensitive", " ".join(["sensitive"] + [str(t) for t in marks])
        if count % 40 == 0 and len(module) < 2000:
            for n in (len(module) - 1, len(module), len(module) + 3):
                out = bytearray(b"\xa5" * n)
                if n < len(module):
                    told = "refused 9 0 0"
                else:
                    out[:len(module)] = module
                    told = "wrote %d" % len(module)
                yield "write %d" % n, told + "\nbytes " + out.hex()


def files(folder):
    folder.mkdir(parents=True, exist_ok=True)
    seen = {}
    for data in cases():
        try:
            judge(data)
            n = 0
        except Refused as e:
            n = e.args[0]
        k = seen.get(n, 0)
        if k < 6:
            (folder / ("%d-%d.bin" % (n, k))).write_bytes(data)
            seen[n] = k + 1
    (folder / "0-largest.bin").write_bytes(image(65536, 16, *largest()))


WORDS = (
    "x{0} = {1}",
    "x{0} = x{1} + x{2}",
    "x{0} = x{1} - x{2}",
    "x{0} = x{1} < x{2}",
    "x{0} = cast x{1}",
    "jump to {0}",
    "jump to {1} if x{0}",
    "x{0} = address of function {1}",
    "x{0} = address of global {1}",
    "x{0} = allocate x{1}",
    "x{0} = x{1} moved by x{2}",
    "x{0} = address of field {2} of x{1}",
    "x{0} = load x{1}",
    "store x{0} at x{1}",
    "call function {0}",
    "call through x{0}",
    "return",
)


def kind_words(kind, a, b):
    plain = {NUMBER: "number", VOID: "void", FUNCTION: "function"}
    if kind in plain:
        return plain[kind]
    if kind == POINTER:
        return "pointer to type %d" % a
    return "record of %d fields from field %d" % (b, a)


def show(data):
    """The lines of an accepted image for a person to read."""
    memory, depth, lists = parse(data)
    types, fields, globals_, locals_, functions, code = lists
    module = Judge(lists)
    marked = set(module.sensitive())
    mark = lambda t: ", sensitive" if t in marked else ""
    yield "memory: %d words" % memory
    yield "depth: %d, so %d frames" % (depth, depth or 16)
    for t, (kind, a, b) in enumerate(types):
        yield "type %d: %s%s" % (t, kind_words(kind, a, b), mark(t))
        for k in range(b if kind == RECORD else 0):
            yield "  field %d: type %d" % (k, fields[a + k][0])
    at = 0
    for g, (t, n) in enumerate(globals_):
        low, at = at, at + n * module.size(t)
        yield "global %d: %d of type %d, from address %d up to %d" % (g, n, t, low, at)
    yield "heap: from address %d" % at
    for number, (first, n, low, m) in enumerate(functions):
        yield "function %d: from instruction %d of the code" % (number, first)
        for x in range(m):
            t = locals_[low + x][0]
            yield "  x%d: type %d%s" % (x, t, mark(t))
        body = code[first:first + n]
        targets = {r[1] for r in body if r[0] == JUMP} | {r[2] for r in body if r[0] == BRANCH}
        for i, (op, *words) in enumerate(body):
            yield "%s %d: %s" % (">" if i in targets else " ", i, WORDS[op].format(*words))


def state(data):
    """Which functions of an accepted image can be entered, and why, by a search from function 0."""
    functions, code = parse(data)[2][4:]
    found, waiting, calls, addresses = {0}, [0], {}, {}
    while waiting:
        f = waiting.pop()
        first, n = functions[f][:2]
        for i, (op, a, b, _) in enumerate(code[first:first + n]):
            if op in (CALL, ADDRESS):
                g, sites = (a, calls) if op == CALL else (b, addresses)
                sites.setdefault(g, []).append((f, i))
                if g not in found:
                    found.add(g)
                    waiting.append(g)
    for g in range(len(functions)):
        why = ["every run begins in it"] if g == 0 else []
        if g in calls:
            why.append("function %d calls it at place %d" % min(calls[g]))
        if g in addresses:
            why.append("through a pointer, as function %d takes its address at place %d" % min(addresses[g]))
        yield "function %d can%s be entered%s" % (g, "" if why else "'t", ": " + "; ".join(why) if why else "")


def main():
    what = sys.argv[1:]
    if what == ["script"] or what == ["transcript"]:
        for line, answer in lines(True):
            print(line if what == ["script"] else answer)
    elif len(what) == 2 and what[0] == "files":
        files(Path(what[1]))
    elif len(what) == 2 and what[0] in ("show", "state"):
        tell = show if what[0] == "show" else state
        for line in tell(Path(what[1]).read_bytes()):
            print(line)
    else:
        sys.exit(__doc__)


if __name__ == "__main__":
    main()
