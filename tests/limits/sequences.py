"""Sequences of calls, each on a fresh store: 01's 'Sequences to try', refusals, the limits of lent room, and others where the rules turn."""

from reading.rules import BOOLEAN, INTEGER, LARGEST, NOTHING, NUMBER, SMALLEST, STRING, WORD, integer, number, string

YES = (BOOLEAN, 1)
NAN = (NUMBER, 0x7FF8000000000000)
OTHER_NAN = (NUMBER, 0xFFF00000DEADBEEF)
ARRAY_LIMIT, ENTRY_LIMIT = 65536, 32768
MOST = 100000  # more steps than any walk here takes

LENGTH, CHECK, WALK = ("length",), ("check",), ("walk", MOST)


def sets(keys, value=YES):
    return [("set", key, value) for key in keys]


def clears(keys):
    return sets(keys, NOTHING)


def gets(keys):
    return [("get", key) for key in keys]


def nexts(keys):
    return [("next", key) for key in keys]


def integers(*numbers):
    return [integer(n) for n in numbers]


def strings(*handles):
    return [string(h) for h in handles]


def fills(kind, start, end):
    """A thousand at a time, with a check after each."""
    return [call for i in range(start, end, 1000) for call in (("fill", kind, i, min(i + 1000, end)), CHECK)]


def lent(a, e):
    """The lengths of three slices: room for a values and e entries, and the shortest index."""
    index = 2
    while index < 2 * e:
        index *= 2
    return 2 * a, 4 * e, index


def every_call(key):
    """A call of each sort."""
    return [("get", key), ("set", key, YES), ("next", key), LENGTH, ("reserve", 0), WALK, CHECK]


FOUR = strings(1, 2, 3, 4)
POWERS = integers(*(2**k for k in range(63)), LARGEST)
FULL = sets(integers(1, 2) + FOUR)

SEQUENCES = [
    ("P1", lent(16, 16), sets(integers(1, 2, 3, 4, 5)) + [LENGTH, WALK, CHECK]),
    (
        "P2, P3",
        lent(16, 16),
        sets(integers(3, 2, 1, 4))
        + nexts([NOTHING] + integers(3, 2, 1, 4))
        + [LENGTH, CHECK]
        + sets([integer(5)])
        + nexts([NOTHING] + integers(1, 2, 3, 4, 5))
        + [LENGTH, CHECK],
    ),
    (
        "P4, P5",
        lent(0, 4),
        sets(FOUR)
        + [CHECK]
        + sets([string(5)])
        + [CHECK]
        + clears([string(2)])
        + sets([string(5)])
        + nexts([string(2), NOTHING] + strings(1, 3, 4, 5))
        + [CHECK],
    ),
    ("P6", lent(0, 4), sets(FOUR) + sets([string(1)], integer(7)) + nexts([NOTHING] + FOUR) + [CHECK]),
    (
        "P7, P8, P9",
        lent(16, 16),
        sets([number(-0.0)]) + gets([integer(0)]) + [CHECK] + clears([NAN]) + gets([NOTHING]) + [CHECK],
    ),
    (
        "P10, P11",
        lent(0, 64),
        [("reserve", 64)] + sets(POWERS) + [LENGTH, CHECK] + clears([integer(LARGEST)]) + [LENGTH, WALK, CHECK],
    ),
    (
        "refusals, which change nothing, and wrong records",
        lent(2, 4),
        FULL
        + [CHECK]
        + sets([NOTHING, NAN, OTHER_NAN, string(5), integer(3), integer(0)])
        + [("reserve", 1), ("reserve", WORD - 1), LENGTH, WALK, CHECK]
        + [("record", 2, 3, 4)]
        + every_call(string(1))
        + [("record", 3, 4, 4)]
        + every_call(integer(1))
        + [("record", 2, 5, 4)]
        + every_call(NAN)
        + [("record", 2, 4, 4), LENGTH, WALK, CHECK],
    ),
    ("an index of no power of two", (4, 4, 3), every_call(string(1))),
    ("an index too short", (0, 16, 4), every_call(NOTHING)),
    ("half a value", (3, 4, 2), every_call(integer(1))),
    ("half an entry", (4, 6, 4), every_call(string(1))),
    (
        "growth drops a cleared entry and moves two others",
        lent(8, 8),
        sets([string(1), integer(2), string(2), integer(3)])
        + clears([string(1)])
        + sets([integer(1)])
        + nexts([NOTHING, number(3.0), string(2), string(1)])
        + [CHECK],
    ),
    (
        "2L < M and 2L = M",
        lent(0, 16),
        [("fill", STRING, 1, 9)]
        + clears(strings(1, 2, 4, 6, 8))
        + sets([string(9)])
        + [("fill", STRING, 10, 14)]
        + clears(strings(3, 5, 7, 9))
        + sets([string(14)])
        + [WALK, CHECK],
    ),
    ("S = a", lent(4, 4), sets(integers(1, 2, 3, 5, 4)) + clears([integer(3), integer(4)]) + [LENGTH, CHECK]),
    ("a is no power of two", lent(15, 8), [("fill", INTEGER, 1, 12), LENGTH, CHECK]),
    (
        "reserve",
        lent(0, 8),
        [("reserve", 4)]
        + sets(strings(1, 2))
        + clears([string(1)])
        + [("reserve", 2), ("next", string(1)), ("reserve", 8), CHECK, ("reserve", 7), ("next", string(1)), CHECK],
    ),
    (
        "Numbers as keys",
        lent(16, 16),
        sets([number(2.0**63)], NAN)
        + sets([number(-(2.0**63)), number(1.5), number(1.0), number(float("inf"))], OTHER_NAN)
        + gets([integer(LARGEST), integer(SMALLEST), integer(1)])
        + nexts([NOTHING, number(1.0), number(2.0**63), number(1.5), NAN])
        + [WALK, CHECK],
    ),
    (
        "65,536 array values and one more, with no entry",
        lent(ARRAY_LIMIT, 0),
        fills(INTEGER, 1, ARRAY_LIMIT + 1)
        + [LENGTH, WALK, CHECK]
        + sets([integer(ARRAY_LIMIT + 1)])
        + gets(integers(1, 32768, 32769, ARRAY_LIMIT, ARRAY_LIMIT + 1))
        + [LENGTH, WALK, CHECK]
        + clears([integer(ARRAY_LIMIT)])
        + [LENGTH, WALK, CHECK],
    ),
    (
        "32,768 entries and one more",
        lent(0, ENTRY_LIMIT),
        fills(STRING, 1, ENTRY_LIMIT + 1)
        + [LENGTH, WALK, CHECK]
        + sets([string(ENTRY_LIMIT + 1)])
        + [WALK, CHECK]
        + clears([string(1000)])
        + sets([string(ENTRY_LIMIT + 1)])
        + gets(strings(1, 1000, ENTRY_LIMIT, ENTRY_LIMIT + 1))
        + nexts(strings(999, 1000, ENTRY_LIMIT, ENTRY_LIMIT + 1))
        + [LENGTH, WALK, CHECK],
    ),
    (
        "both limits",
        lent(ARRAY_LIMIT, ENTRY_LIMIT),
        [("fill", INTEGER, 1, ARRAY_LIMIT + 1)]
        + sets([integer(ARRAY_LIMIT + 1)])
        + [LENGTH, ("fill", STRING, 1, ENTRY_LIMIT + 1), WALK, CHECK]
        + clears([integer(ARRAY_LIMIT + 1)])
        + sets([string(ENTRY_LIMIT)])
        + nexts([integer(ARRAY_LIMIT), integer(ARRAY_LIMIT + 1)])
        + [LENGTH, WALK, CHECK],
    ),
    ("small again, in what the largest left", lent(1, 1), sets([integer(1), string(1), string(2)]) + [WALK, CHECK]),
]
