"""Orders to a store, as the programs that bench/run measures read them: words of 65,536 times 0 for get, 1 for put, 2 for
drop, and an address, which is below 65,536."""
import random
import sys
from array import array

GET, PUT, DROP = (65536 * k for k in range(3))


class Held:
    """Addresses below `span` that are held, and those that aren't, drawn by chance."""

    def __init__(self, span, count, seed):
        self.random = random.Random(seed)
        self.span = span
        self.list = self.random.sample(range(span), count)
        self.set = set(self.list)

    def other(self):
        while True:
            a = self.random.randrange(self.span)
            if a not in self.set:
                return a

    def turned(self):
        """One address is dropped and another put: the two orders."""
        k = self.random.randrange(len(self.list))
        old, new = self.list[k], self.other()
        self.list[k] = new
        self.set.remove(old)
        self.set.add(new)
        return DROP + old, PUT + new


def filled(span, count, history, seed):
    """Orders after which so many addresses are held, once by puts alone, and once with so many drops and puts between; and
    what is held after either, which is the same."""
    held = Held(span, count, seed)
    old = array("I", (PUT + a for a in held.list))
    for _ in range(history // 2):
        old.extend(held.turned())
    fresh = [PUT + a for a in held.list]
    held.random.shuffle(fresh)
    return array("I", fresh), old, held


def asked(held, what, count):
    """So many orders that leave as many addresses held: gets, gets of what isn't held, puts, or drops with a put of the same."""
    pick = lambda: held.list[held.random.randrange(len(held.list))]
    if what == "get":
        return array("I", (GET + pick() for _ in range(count)))
    if what == "miss":
        return array("I", (GET + held.other() for _ in range(count)))
    if what == "put":
        return array("I", (PUT + pick() for _ in range(count)))
    if what == "fill":
        return array("I")
    return array("I", (w for _ in range(count // 2) for a in (pick(),) for w in (DROP + a, PUT + a)))


def written(file, orders):
    if sys.byteorder != "little":
        orders = array("I", orders)
        orders.byteswap()
    file.write_bytes(orders.tobytes())
