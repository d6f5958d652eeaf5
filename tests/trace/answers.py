"""Makes crates/trace/stdin, one trace of several reads, and crates/trace/stdout, what tests/reading answers. Prints what is in them."""

import sys
from collections import Counter
from pathlib import Path

sys.dont_write_bytecode = True  # nothing but the two files is to be left behind
TESTS = Path(__file__).resolve().parents[1]
sys.path.append(str(TESTS))

from limits.sequences import YES, clears, gets, nexts, sets
from reading import trace
from reading.rules import INTEGER, NOTHING, STRING, integer, number, string
from replay.whole import ANSWER, EXAMPLE, FULL, LENGTH, WALK, made, sizes

CRATE = TESTS.parent / "crates/trace"
# The bytes that the program has room for (INPUT of its source): the most that it asks for at once. A file gives as many as there are.
MOST_READ = 131072

# 01's whole example first, so that the gate runs what the paper shows.
BEGINNING = sets([number(2.0)], YES) + gets([integer(2)])
# 513 values make A 1,024: a room of fewer values answers `next` and `length` otherwise, and puts what comes after among the entries.
VALUES = [("fill", INTEGER, 1, 513), LENGTH] + sizes(512) + [("fill", INTEGER, 513, 701), LENGTH] + sizes(1024)
# 512 entries, and the 513th refused with 3, as a set and as a reserve: a room of one entry fewer refuses one sooner.
ENTRIES = [("fill", STRING, 1, 513), ("reserve", 0), ("reserve", 1)] + sets([string(513), integer(1025)]) + gets(FULL[-2:]) + [LENGTH, WALK]
# Every other entry is cleared, so that the next sets drop what was cleared and go on in the same room.
CLEARED = clears(FULL[::2]) + [("reserve", 257), ("reserve", 256)] + [("fill", STRING, 600, 857)] + nexts(FULL[:2]) + [WALK]
# The last record of all. Its last byte is a read of its own, so that its answer hangs on what was held and on one byte more.
END = gets([string(512)])


def mixed(count):
    """Calls of every kind over keys that are there, were there and never were."""
    calls = []
    for i in range(count):
        key = integer(1 + 7 * i % 1100) if i % 3 else string(1 + 5 * i % 900)
        calls += sets([key], integer(i) if i % 5 else NOTHING) + gets([key]) + nexts([key])
        if i % 20 == 0:
            calls += [LENGTH, ("reserve", i % 300)]
    return calls


def size_of(calls):
    return sum(len(getattr(trace, name)(*passed)) for name, *passed in calls)


def filling(left):
    """Gets and lengths that take just so many bytes."""
    get, length = size_of(gets([NOTHING])), size_of([LENGTH])
    count = next(n for n in range(length) if (left - n * get) % length == 0)
    return gets([integer(1024)]) * count + [LENGTH] * ((left - count * get) // length)


def records():
    """As many mixed calls as leave one byte of the end for the second read."""
    before = BEGINNING + VALUES + ENTRIES + CLEARED
    left = MOST_READ + 1 - len(made(before)) - size_of(END)
    calls = mixed(next(n for n in range(left) if size_of(mixed(n + 1)) > left - 100))
    return made(before + calls + filling(left - size_of(calls)) + END)


def ends(data):
    """Where each record ends."""
    at = 0
    for _, body in trace.records(data):
        at += 4 + len(body)
        yield at


def reads(data):
    """How many bytes each read gets, by what is held before it: what is left of a record that is not yet whole."""
    sizes, held = [], 0
    while not sizes or sizes[-1] > 0:
        come = sum(sizes)
        sizes.append(min(MOST_READ - held, len(data) - come))
        come += sizes[-1]
        held = come - max(end for end in ends(data) if end <= come)
    return sizes


def told(names, data):
    return ", ".join(f"{count} {name}" for name, count in sorted(Counter(names[kind] for kind, _ in trace.records(data)).items()))


def main():
    data = records()
    out = trace.answer(data)
    assert data.startswith(EXAMPLE) and out.startswith(ANSWER), "01's whole example is not first"
    assert reads(data) == [MOST_READ, 1, 0], "the last read that gets anything does not get one byte"
    (CRATE / "stdin").write_bytes(data)
    (CRATE / "stdout").write_bytes(out)
    calls = {kind: name for name, kind in trace.KINDS.items()}
    refused = sum(body[0] == 3 for kind, body in trace.records(out) if trace.REPLIES[kind] in ("set", "reserve"))
    print(f"{told(calls, data)}; {refused} refused for want of room; reads of {reads(data)} bytes")
    print(f"{len(data)} bytes of input, {len(out)} of output")


main()
