"""01's whole example, empty input, and sequences of calls in a trace's room of 1,024 values and 512 entries. Assumes tests/limits, which has the sequences of 01 in rooms of their own."""

from compare.traces import Calls
from limits.sequences import SEQUENCES, clears, gets, integers, nexts, sets, strings
from reading import trace
from reading.rules import INTEGER, NOTHING, STRING, integer, right_lengths, string

EXAMPLE = bytes.fromhex("14000200" + "030000000000000040" + "010100000000000000" + "0B000100" + "020200000000000000")
ANSWER = bytes.fromhex("0C000201" + "00" + "000000000000000000" + "0B000101" + "010100000000000000")
LENGTH, WALK = ("length",), ("walk",)
FULL = strings(*range(1, trace.ENTRY_ROOM + 1))


def sizes(size):
    """Whether A is this is told by `next`: the key of the last place in the array is known, even cleared, and the one after it is not."""
    return nexts(integers(size, size + 1))


# P1 with A shown, and in this room, which is larger than P4's, P4 to P6 and 01's limits.
OWN = [
    ("P1: A is 1, 2, 4, 4, 8", [call for n, size in zip(range(1, 6), (1, 2, 4, 4, 8)) for call in sets([integer(n)]) + sizes(size) + [LENGTH]]),
    ("P3: A is 8", sets(integers(3, 2, 1, 4, 5)) + sizes(8) + [WALK]),
    ("P4, full with 512 Strings", sets(FULL) + sets(strings(513)) + [WALK]),
    ("P5, full", sets(FULL) + sets(strings(513)) + clears(strings(2)) + sets(strings(513)) + nexts(strings(2, 1, 512, 513)) + [WALK]),
    ("P6, full", sets(FULL) + sets(strings(1), integer(7)) + gets(strings(1)) + [WALK]),
    ("reserve of all room, of more, and of what is left", [("reserve", 513), ("reserve", 512)] + sets(strings(1)) + [("reserve", 512), ("reserve", 511), LENGTH, WALK]),
    ("reserve keeps the larger M", sets(strings(*range(1, 9))) + clears(strings(*range(1, 7))) + [("reserve", 1)] + sets(strings(9)) + clears(strings(9)) + sets(strings(10)) + nexts(strings(1, 9)) + [WALK]),
    ("1,024 array values and one more", [("fill", INTEGER, 1, 1026), LENGTH] + sizes(1024) + clears([integer(1024)]) + [LENGTH] + nexts(integers(1023, 1024, 1025, 1026))),
    ("1,024 array values and 512 entries, and one more of each", [("fill", INTEGER, 1, 1025), ("fill", STRING, 1, 513)] + sets([integer(1025), string(513)]) + [LENGTH] + nexts([integer(1024), string(512)])),
]


def made(calls):
    """The records of these calls. The check of a store and its record are not a trace's to say."""
    steps = Calls()
    for name, *passed in calls:
        if name == "walk":
            steps.walk()
        elif name == "fill":
            fill(steps, *passed)
        elif name != "check":
            steps.call(name, *passed)
    return b"".join(step.ours() for step in steps.steps)


def fill(steps, kind, start, end):
    for n in range(start, end):
        steps.call("set", (kind, n), integer(n))


def sayable(lengths, calls, most):
    """Whether a trace of so many bytes can say them: not where lengths or records are wrong, nor thousands of keys."""
    names = [name for name, *_ in calls]
    filled = sum(passed[2] - passed[1] for name, *passed in calls if name == "fill")
    return right_lengths(*lengths) and "record" not in names and len(trace.set(NOTHING, NOTHING)) * (filled + len(calls)) < most


def inputs(most):
    """What each trace is of, and its input."""
    assert trace.answer(EXAMPLE) == ANSWER, "the reading does not give 01's own answer"
    yield "01's whole example", EXAMPLE
    yield "empty", b""
    fitting = [(what, calls) for what, lengths, calls in SEQUENCES if sayable(lengths, calls, most)]
    yield from ((what, made(calls)) for what, calls in fitting + OWN)
