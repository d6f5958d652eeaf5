"""Drawn traces for the files `random` and `original`: the first from a seed on that fit. Assumes tests/compare, which draws them and compares them with the original."""

from collections import Counter
from itertools import groupby

from compare import original
from compare.agreement import Agreement, Meaning, theirs_to
from compare.traces import Step, Trace, drawn_trace, remade
from reading import trace
from reading.rules import LARGEST, NOTHING, integer


def records(one):
    return sum(step.size() for step in one.steps)


def has_full_room(one):
    """A set is refused for want of room, and a later one is done."""
    refused = [step.refused for step in one.steps if step.name == "set"]
    return True in refused and not refused[-1]


def has_largest(one):
    return any(step.name == "set" and step.passed[0] == integer(LARGEST) for step in one.steps)


# What is wanted of the traces, how many, and from which seed on.
RANDOM = (
    ("thousands of records", lambda one: 2000 <= records(one) <= 2500, 1, 1_000_000),
    ("a full room", lambda one: records(one) <= 800 and has_full_room(one), 3, 2_000_000),
    ("the largest integer as a key", lambda one: records(one) <= 200 and has_largest(one), 10, 3_000_000),
    ("a bad end", lambda one: records(one) <= 40 and one.end, 25, 4_000_000),
    ("any", lambda one: records(one) <= 120, 120, 5_000_000),
)
ORIGINAL = (
    (lambda one: 300 <= records(one) <= 700, 8, 6_000_000),
    (lambda one: 20 <= records(one) <= 140, 80, 7_000_000),
)


def picked(fits, count, seed):
    found = []
    while len(found) < count:
        one = drawn_trace(seed)
        if fits(one):
            found.append(one)
        seed += 1
    return found


def random():
    """What each trace is of, and its input."""
    return [(what, one.given()) for what, *wanted in RANDOM for one in picked(*wanted)]


def comparable(one):
    """The trace without what is not compared literally: steps of a walk by themselves, lengths where there is more than one border, calls refused for want of room. It ends in a walk."""
    meaning, steps = Meaning(), []
    for step in one.steps:
        if step.refused or step.name == "next" or step.name == "length" and len(meaning.borders) > 1:
            continue
        if step.name == "set":
            meaning.set(*step.passed)
        steps.append(step)
    return Trace(one.seed, remade(steps + [Step("walk", ())]))


def agrees(one, out):
    """Whether the original answered to the end, and as the reading does where the two are compared."""
    counts = Counter()
    apart = Agreement(counts).compared(one.steps, trace.answer(one.given()), out)
    assert apart is None, f"seed {one.seed}: the reading and the original disagree: {apart}"
    return not any("of the original" in name for name in counts)


def chained(one, out):
    """The input whose walks feed back the original's keys in its own order."""
    replies, given = trace.records(out), b""
    for step in one.steps:
        theirs = theirs_to(step, replies)
        if step.name == "walk":
            keys = [NOTHING] + [trace.values(body[1:])[0] for _, body in theirs[:-1]]
            given += b"".join(trace.next(key) for key in keys)
        else:
            given += step.ours()
    return given


def settled(out):
    """The replies as they are compared: those to a run of `next` calls in any order."""
    replies = []
    for is_next, run in groupby(trace.records(out), lambda reply: reply[0] == trace.REPLY + trace.NEXT):
        replies += sorted(run) if is_next else run
    return replies


def answered_by_original(wanted):
    """Inputs and what the original answers to them."""
    traces = [comparable(one) for one in picked(*wanted)]
    for one, out in zip(traces, original.answers(traces)):
        if agrees(one, out):
            given = chained(one, out)
            assert settled(trace.answer(given)) == settled(out)
            yield given, out


def by_original():
    return [pair for wanted in ORIGINAL for pair in answered_by_original(wanted)]
