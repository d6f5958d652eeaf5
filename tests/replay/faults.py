"""Inputs with a fault: every fault, in every record where it can be, as the first record, after one and after many; and two faults at once, so that the order of the tests shows."""

import struct
from itertools import product

from compare.traces import UNDECODABLE, UNKNOWN_KINDS
from reading import trace
from reading.rules import BOOLEAN, LARGEST, NOTHING, NUMBER, integer, number, string

YES, NAN = (BOOLEAN, 1), (NUMBER, 0x7FF8000000000000)
RIGHT = {
    "get": trace.get(integer(1)),
    "set": trace.set(integer(1), YES),
    "length": trace.length(),
    "next": trace.next(NOTHING),
    "reserve": trace.reserve(3),
}
MANY = [trace.set(key, YES) for key in (integer(1), integer(2), string(7), number(0.5), integer(LARGEST), NAN, NOTHING)]
MANY += [trace.get(string(7)), trace.set(string(7), NOTHING), trace.next(NOTHING), trace.next(NAN), trace.next(integer(LARGEST))]
MANY += [trace.reserve(513), trace.reserve(512), trace.reserve(500), trace.length(), trace.get(NOTHING)]
# The fault is in the first record, after one, and after many.
BEFORE = (b"", RIGHT["set"], b"".join(MANY))
LENGTHS = range(25)  # of bodies: past the longest that is right
LONGEST = 65536 - 4  # of a body, in an input of 65,536 bytes


def cuts():
    yield from ((f"cut {name}", record[:size]) for name, record in RIGHT.items() for size in range(1, len(record)))
    # A record of which there is only the length, and one far too long.
    yield "cut", struct.pack("<H", 65535)
    yield "cut", struct.pack("<HH", 65535, trace.GET) + bytes(9)


def too_short():
    for size, after in product((0, 1), (b"", b"\0", b"\1\0", RIGHT["length"])):
        yield "length below 2", struct.pack("<H", size) + after


def wrong_lengths():
    for (name, kind), size in product(trace.KINDS.items(), LENGTHS):
        if size != trace.BODY[kind]:
            yield f"wrong length of {name}", trace.record(kind, (RIGHT[name][4:] + bytes(LENGTHS.stop))[:size])


def unknown_kinds():
    for kind, body in product(UNKNOWN_KINDS, (b"", b"\0", bytes(4), trace.value(YES), 2 * trace.value(YES), bytes(100))):
        yield "unknown kind", trace.record(kind, body)


def undecodable():
    for wrong, right in product(UNDECODABLE, (YES, NOTHING, NAN)):
        yield "undecodable key", trace.set(wrong, right)
        yield "undecodable value", trace.set(right, wrong)
    for wrong in UNDECODABLE:
        yield "undecodable", trace.get(wrong)
        yield "undecodable", trace.next(wrong)
        yield "undecodable, both", trace.set(wrong, wrong)


def two_at_once():
    wrong = UNDECODABLE[0]
    yield "cut and unknown", trace.record(6, bytes(9))[:-1]
    yield "cut and undecodable", trace.get(wrong)[:-1]
    yield "cut and wrong length", trace.record(trace.GET, bytes(18))[:-1]
    yield "length 1, which the end cuts", struct.pack("<H", 1)
    yield "unknown and undecodable", trace.record(6, trace.value(wrong))
    yield "wrong length and undecodable", trace.record(trace.GET, trace.value(wrong)[:-1])
    yield "wrong length and undecodable", trace.record(trace.GET, trace.value(wrong) + b"\0")
    yield "wrong length and undecodable", trace.record(trace.NEXT, trace.value(wrong) + b"\0")
    yield "wrong length and undecodable", trace.record(trace.SET, trace.value(wrong))
    yield "wrong length and undecodable", trace.record(trace.LENGTH, trace.value(wrong))
    yield "wrong length and undecodable", trace.record(trace.RESERVE, trace.value(wrong))


def goes_on(what):
    """Whether more records may follow without becoming a part of this one."""
    return not what.startswith(("cut", "length"))


def bad_records():
    for sort in (cuts, too_short, wrong_lengths, unknown_kinds, undecodable, two_at_once):
        yield from sort()


def inputs():
    """What each trace is of, and its input. What follows a fault is not answered."""
    for what, bad in bad_records():
        after = RIGHT["get"] if goes_on(what) else b""
        yield from ((what, before + bad + after) for before in BEFORE)
    yield "wrong length of set, the longest", trace.record(trace.SET, bytes(LONGEST))
