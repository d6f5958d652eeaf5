"""Random traces, drawn from a seed: the calls, what of them the original is given, and bad ends. Assumes tests/reading, which says in what order a walk goes and what is refused for want of room."""

import struct
from dataclasses import dataclass

from compare.original import WALK
from reading import trace
from reading.draw import Draw
from reading.rules import BOOLEAN, LARGEST, NOTHING, NUMBER, SMALLEST, STRING, WORD, integer, number
from reading.table import LAST, NO_ROOM, Table

SPANS = (3, 6, 12, 30, 80, 250, 700)
# How many calls, from and to, and how often of a hundred.
COUNTS = (((0, 0), 1), ((1, 9), 15), ((10, 59), 50), ((60, 299), 29), ((300, 1499), 4), ((1500, 5000), 1))
# Of a hundred sets, how many set Nil.
CLEARS = (0, 5, 20, 40, 60)
NANS = [(NUMBER, word) for word in (0x7FF8000000000000, 0xFFF8000000000000, 0x7FF0000000000001, WORD - 1)]
ODD_NUMBERS = [number(x) for x in (-0.0, 0.0, 2.0**63, -(2.0**63), 2.0**64, -(2.0**64), 2.0**53, 0.1, 5e-324, 1e300, float("inf"), float("-inf"))]
ODD_INTEGERS = [integer(n) for n in (0, -1, LARGEST, LARGEST - 1, SMALLEST, SMALLEST + 1, 1024, 1025, 65536, 65537)]
ODD_VALUES = ODD_NUMBERS + NANS
ODD_KEYS = [NOTHING, (BOOLEAN, 0), (BOOLEAN, 1)] + NANS + ODD_NUMBERS + ODD_INTEGERS
UNKNOWN_KINDS = (0, 6, 256, 257, 511, 65535)
UNDECODABLE = ((10, 0), (255, 7), (0, 1), (0, WORD - 1), (BOOLEAN, 2), (BOOLEAN, WORD - 1))


@dataclass
class Step:
    """A call, or a whole walk, which is passed Nil and the keys in our order."""

    name: str
    passed: tuple
    refused: bool = False  # for want of room, by the reading

    def size(self):
        """How many records it is here."""
        return len(self.passed) if self.name == "walk" else 1

    def ours(self):
        if self.name == "walk":
            return b"".join(trace.next(key) for key in self.passed)
        return getattr(trace, self.name)(*self.passed)

    def originals(self):
        """A refused call changes nothing here and is unknown there: the original is not given it."""
        if self.refused:
            return b""
        return trace.record(WALK) if self.name == "walk" else self.ours()


@dataclass
class Trace:
    seed: int
    steps: list
    end: bytes = b""  # a record with a fault, and what comes after it

    def given(self):
        return b"".join(step.ours() for step in self.steps) + self.end

    def originals(self):
        return b"".join(step.originals() for step in self.steps)


class Calls:
    """Steps in the making, and the table that they leave."""

    def __init__(self):
        self.table, self.steps = Table(trace.ROOM, trace.ENTRY_ROOM), []

    def call(self, name, *passed):
        answer = getattr(self.table, name)(*passed)
        refused = {"set": (NO_ROOM, NOTHING), "reserve": NO_ROOM}
        self.steps.append(Step(name, passed, name in refused and answer == refused[name]))
        return answer

    def walk(self):
        keys, found = [NOTHING], self.table.next(NOTHING)
        while found != LAST:
            keys.append(found[0])
            found = self.table.next(found[0])
        self.steps.append(Step("walk", tuple(keys)))

    def pairs(self):
        return len(self.table.array) + len(self.table.entries)


def remade(steps):
    """The same calls made again, where some before them may have been left out."""
    calls = Calls()
    for step in steps:
        if step.name == "walk":
            calls.walk()
        else:
            calls.call(step.name, *step.passed)
    return calls.steps


def drawn_object(draw, span):
    """An object of any kind: one handle under two kinds is two objects."""
    n = draw.below(span)
    handle = draw.of((1 + n, 1 + n, 0x500000000000 + 48 * n, WORD - 1 - n))
    return STRING + draw.below(6), handle


def drawn_value(draw):
    sort = draw.below(6)
    if sort == 0:
        return BOOLEAN, draw.below(2)
    if sort == 1:
        return drawn_object(draw, 20)
    if sort == 2:
        return draw.of(ODD_VALUES)
    return (NUMBER, draw.word()) if sort == 3 else integer(draw.word() >> draw.below(64))


class Keys:
    """Keys near each other: of at most three sorts, some odd ones, and those used before."""

    def __init__(self, draw):
        self.draw, self.span, self.count, self.used = draw, draw.of(SPANS), 0, [NOTHING]
        sorts = (self.rising, self.falling, self.dense, self.around, self.whole, self.half, self.power, self.object, self.object)
        self.sorts = [draw.of(sorts) for _ in range(1 + draw.below(3))]

    def rising(self):
        self.count += 1
        return integer(self.count)

    def falling(self):
        self.count += 1
        return integer(self.span - self.count % self.span)

    def dense(self):
        return integer(1 + self.draw.below(self.span))

    def around(self):
        return integer(self.draw.below(self.span) - self.span // 2)

    def whole(self):
        return number(float(self.draw.below(self.span) - 2))

    def half(self):
        return number(self.draw.below(self.span) + 0.5)

    def power(self):
        n = min(2 ** self.draw.below(64), LARGEST)
        return self.draw.of((integer(n), integer(n), integer(n + 1), integer(n - 1), number(float(n))))

    def object(self):
        return drawn_object(self.draw, self.span)

    def any(self):
        chance = self.draw.below(100)
        if chance < 4:
            return self.draw.of(ODD_KEYS)
        return self.draw.of(self.sorts)() if chance < 70 else self.draw.of(self.used)

    def to_set(self):
        key = self.any()
        self.used.append(key)
        return key


class DrawnCalls(Calls):
    """Calls drawn one after the other."""

    def __init__(self, draw):
        super().__init__()
        self.draw, self.keys, self.clears = draw, Keys(draw), draw.of(CLEARS)
        # The original panics soon where objects are cleared, and is not compared from there on.
        self.clears_objects = draw.below(3) == 0

    def put(self, key, new):
        """The call; a value that is no Nil where an object is not to be cleared."""
        if new == NOTHING and key[0] >= STRING and not self.clears_objects:
            new = drawn_value(self.draw)
        self.call("set", key, new)

    def set(self):
        clears = self.draw.below(100) < self.clears
        self.put(self.keys.to_set(), NOTHING if clears else drawn_value(self.draw))

    def get(self):
        self.call("get", self.keys.any())

    def next(self):
        self.call("next", self.keys.any())

    def length(self):
        self.call("length")

    def reserve(self):
        few, chance = self.draw.below(12), self.draw.below(40)
        most = {0: trace.ENTRY_ROOM + few, 1: 2**32 - 1 - few, 2: self.draw.below(trace.ENTRY_ROOM + 1)}
        self.call("reserve", most.get(chance, few))

    def whole_walk(self):
        if self.pairs() < 40 or self.draw.below(20) == 0:
            self.walk()

    def disturbed_walk(self):
        """At most so many steps, with gets, overwrites and clears between them."""
        found, steps = self.call("next", NOTHING), 0
        while found != LAST and steps < 40:
            self.disturb(found[0])
            found, steps = self.call("next", found[0]), steps + 1

    def disturb(self, key):
        chance, other = self.draw.below(10), self.draw.of(self.keys.used)
        if chance < 3:
            self.put(key, NOTHING)
        elif chance < 5:
            self.put(other, NOTHING)
        elif chance < 6:
            self.call("set", key, drawn_value(self.draw))
        elif chance < 7:
            self.call("get", other)

    def one(self):
        rare = ((self.reserve, 3), (self.whole_walk, 4), (self.disturbed_walk, 1))
        self.draw.weighed(((self.set, 60), (self.get, 14), (self.length, 10), (self.next, 8)) + rare)()


def filled(calls):
    """More keys that no array takes than there is room for entries; some are cleared on the way."""
    for i in range(trace.ENTRY_ROOM + calls.draw.below(80)):
        key = calls.draw.of((number(i + 0.5), number(i + 0.5), integer(-i), (STRING + i % 6, i)))
        calls.keys.used.append(key)
        calls.put(key, drawn_value(calls.draw))
        if calls.draw.below(30) == 0:
            calls.put(calls.draw.of(calls.keys.used), NOTHING)


def doubled(calls):
    """Every power of two and the largest integer, so that a length doubles to the end."""
    calls.call("reserve", 64 + calls.draw.below(8))
    for n in [2**k for k in range(63)] + [LARGEST]:
        calls.call("set", integer(n), drawn_value(calls.draw))
    calls.keys.used += [integer(LARGEST), number(2.0**63), integer(2 ** calls.draw.below(63))]
    calls.call("length")


def bad_end(draw):
    """A record with a fault, and what may come after it."""
    key = draw.of(ODD_KEYS)
    good = draw.of((trace.get(key), trace.set(key, key), trace.length(), trace.next(key), trace.reserve(draw.below(9))))
    kind, after = struct.unpack_from("<H", good, 2)[0], draw.of((b"", good, b"\0"))
    wrong, other = draw.of(UNDECODABLE), draw.of(UNDECODABLE + (key,))
    junk = struct.pack("<Q", draw.word())[: draw.below(9)]
    return draw.of(
        (
            good[: 1 + draw.below(len(good) - 1)],
            struct.pack("<H", draw.below(2)) + after,
            trace.record(kind, good[4:] + b"\0" + junk) + after,
            trace.record(kind, good[4:-1]) + after if len(good) > 4 else trace.record(kind, junk + b"\0"),
            trace.record(draw.of(UNKNOWN_KINDS), junk) + after,
            draw.of((trace.get(wrong), trace.next(wrong), trace.set(wrong, other), trace.set(other, wrong))) + after,
        )
    )


def drawn_trace(seed):
    draw = Draw(seed)
    calls, theme = DrawnCalls(draw), draw.below(100)
    if theme < 2:
        filled(calls)
    elif theme < 4:
        doubled(calls)
    least, most = draw.weighed(COUNTS)
    for _ in range(least + draw.below(most - least + 1)):
        calls.one()
    return Trace(seed, calls.steps, bad_end(draw) if draw.below(8) == 0 else b"")
