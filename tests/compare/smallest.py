"""Every sequence of a few calls over a few keys, by the original and by tests/reading: how few calls show each row of docs/DIFFERENCES.md, and whether a reply differs that no row accounts for.

    python3 tests/compare/smallest.py

Wants the oracle (tests/compare/oracle/build). A sequence is an opening, of calls that change a table or step through it, and a call that asks. In an opening Strings come in their order, halves too, and only what has a value is cleared.
"""

import re
import sys
from copy import copy
from dataclasses import dataclass
from itertools import islice
from pathlib import Path

sys.dont_write_bytecode = True
sys.path.append(str(Path(__file__).resolve().parents[1]))

from compare.calls import by_original, calls_of, key_of, record_of, reply_text, sizes_text
from compare.differences import rows
from compare.manual import Manual
from reading import trace
from reading.rules import INTEGER, LAST_KIND, NOTHING, STRING, canonical
from reading.table import Table

# Keys to set and clear, reserves, keys to step from, keys that are only asked for, and the most calls of an opening.
SPACES = (
    ("s1 s2 1 2 4 0.5 2.0^63", (1, 3, 513), "", "3 5 I 1.0 t1 nan", 4),
    ("s1 s2 s3 s4", (3,), "", "t1", 5),
    ("0.5 1.5 2.5 3.5", (3,), "", "nan", 6),
    ("s1 s2 s3", (), "nil s1 s2 s3", "", 5),
)
SEEDS = (0, 64)
BATCH = 2000
SIZES = ("sizes",)
NOT_FOUND, PANIC = "not found", "panic: all keys must be live when table is grown"


@dataclass
class Seen:
    """The last call of a sequence: its replies, the canonical keys that had a value before it and ever, and array, entries and room before and after the last call of the opening."""

    name: str
    key: tuple
    theirs: str
    ours: str
    allowed: bool  # the original's reply, by the manual
    had: set
    ever: set
    there: list
    here: list

    def overwrites(self):
        return self.name == "set" and self.key in self.had

    def parts(self, name):
        """Whether this call is answered in two ways."""
        return self.name == name and self.theirs != self.ours

    def cleared(self):
        return self.parts("next") and self.key in self.ever - self.had

    def never(self, least, most):
        """Of these kinds, and never with a value."""
        return self.key is not None and least <= self.key[0] <= most and self.key not in self.ever


def needed(keys):
    """S for these keys."""
    indices = [payload - 1 for kind, payload in keys if kind == INTEGER and 0 < payload < 2**16]
    return max((2**k for k in range(17) if sum(i < 2**k for i in indices) > 2**k // 2), default=0)


def grew(before, after):
    """The map, and not the array."""
    return after[0] == before[0] and after[2] > before[2]


SHOWS = {
    "a full map grows": lambda s: s.overwrites() and grew(*s.there),
    "a key is counted twice": lambda s: s.overwrites() and s.there[1][0] > s.there[0][0] >= needed(s.had),
    "an overwrite disturbs a walk": lambda s: s.parts("next") and s.allowed is False and s.key in s.had and s.theirs != "I",
    "a cleared String is rehashed": lambda s: s.theirs == PANIC and s.never(STRING, LAST_KIND),
    "a cleared String is rehashed, though no key is new": lambda s: s.theirs == PANIC and s.key in s.ever,
    "another cleared key is kept": lambda s: s.cleared() and s.ours == NOT_FOUND and grew(*s.there) and grew(*s.here),
    "the array's size": lambda s: s.name == "sizes" and s.there[1][0] != s.here[1][0],
    "the array's size, seen by next": lambda s: s.parts("next") and s.never(INTEGER, INTEGER),
    "the array's size, seen by length": lambda s: s.parts("length"),
    "M": lambda s: s.name == "sizes" and s.there[1][2] != s.here[1][2],
    "M, a cleared key dropped sooner there": lambda s: s.cleared() and s.theirs == NOT_FOUND,
    "M, a cleared key dropped sooner here": lambda s: s.cleared() and s.ours == NOT_FOUND,
    "entry order": lambda s: s.parts("next") and (s.key is None or s.key in s.ever) and NOT_FOUND not in (s.theirs, s.ours),
    "lent room, in a reserve": lambda s: s.parts("reserve"),
    "2^63 is found as the largest integer": lambda s: s.name == "get" and s.allowed is False,
    "and is walked as that": lambda s: s.name == "next" and s.allowed is False and s.key is None,
}


def openings(words, more, most, calls=(), live=frozenset()):
    """All of at most so many calls: sets, clears, and whichever more there are."""
    yield calls
    if len(calls) == most:
        return
    used = {call[1] for call in calls if call[0] == "set"}
    new = [word for word in words if key_of(word) not in used]
    late = {word for sort in ("s", ".5") for word in [word for word in new if sort in word][1:]}
    for word in words:
        key = key_of(word)
        if word not in late:
            yield from openings(words, more, most, (*calls, *calls_of(f"set {word}")), live | {key})
        if key in live:
            yield from openings(words, more, most, (*calls, *calls_of(f"clear {word}")), live - {key})
    for call in more:
        yield from openings(words, more, most, (*calls, call), live)


def by_reading(calls):
    """The texts that calls.py makes of tests/reading's replies."""
    table, replies = Table(trace.ROOM, trace.ENTRY_ROOM), []
    for call in calls:
        if call == SIZES:
            size, allowance, count = table.record()
            replies.append(sizes_text(size, count, allowance))
        else:
            ((kind, body),) = trace.records(record_of(call))
            replies.append(reply_text(trace.REPLY + kind, trace.reply(table, kind, body)))
    return replies


def sizes(replies, opening):
    """Before the last call of an opening and after it. There are sizes before each call, and after the last."""
    last = 2 * len(opening)
    return [[int(n) for n in re.findall(r"\d+", text)] for text in (replies[max(last - 2, 0)], replies[last])]


def key_in(call):
    """The canonical key that a call is passed; None where it is passed none, or what is no key."""
    return canonical(call[1]) if call[0] in ("get", "set", "next") else None


def seen(opening, asks, theirs, ours):
    """What the last call of an opening shows, and each call that asks after it."""
    had, ever, manual, last = set(), set(), Manual(), 2 * len(opening)
    for call, reply in zip(opening, theirs[1::2]):
        before, old, allowed = set(had), ever, manual.allows(call, reply)
        if call[0] == "set":
            (had.discard if call[2] == NOTHING else had.add)(key_in(call))
        ever = ever | had
    panics = theirs[-1] == PANIC
    if panics and len(theirs) < last:
        return
    there, here = sizes(theirs + theirs[-2:-1] if panics else theirs, opening), sizes(ours, opening)
    if opening:
        yield opening, Seen(call[0], key_in(call), theirs[last - 1], ours[last - 1], allowed, before, old, there, here)
    for call, its, mine in zip((SIZES, *asks), theirs[last:], ours[last:]):
        yield (*opening, call), Seen(call[0], key_in(call), its, mine, copy(manual).allows(call, its), had, ever, there, here)


def count_of(calls):
    """Sizes are no call."""
    return sum(call != SIZES for call in calls)


def searched(space, least, strange):
    """Lowers the least number of calls for each row, gathers what no row accounts for, and counts the openings."""
    words, reserves, steps, asked, most = space
    more = [("reserve", n) for n in reserves] + [("next", key_of(word)) for word in steps.split()]
    asks = calls_of("; ".join(["length"] + [f"{name} {word}" for name in ("next", "get") for word in f"nil {words} {asked}".split()]))
    everything, count = openings(words.split(), more, most), 0
    while batch := list(islice(everything, BATCH)):
        count += len(batch)
        played = [(SIZES, *(call for one in opening for call in (one, SIZES)), *asks) for opening in batch]
        ours = [by_reading(calls) for calls in played]
        for seed in SEEDS:
            for opening, mine, its in zip(batch, ours, by_original([(seed, calls) for calls in played])):
                for calls, one in seen(opening, asks, its, mine):
                    shown = [name for name in SHOWS if SHOWS[name](one)]
                    least.update({name: min(count_of(calls), least.get(name, count_of(calls))) for name in shown})
                    if one.theirs != one.ours and not shown:
                        strange.append((seed, calls, one))
    return count


def main():
    least, strange = {}, []
    for space in SPACES:
        print(f"{searched(space, least, strange):9,} openings over {space[0]}, of at most {space[-1]} calls")
    listed = {row.name: count_of(row.calls()) for row in rows()}
    wrong = [f"{name}: listed with {listed.get(name)} calls, shown by {least.get(name)}" for name in SHOWS if listed.get(name) != least.get(name)]
    wrong += [f"by no row: {one}" for one in strange[:5]]
    print("".join(line + "\n" for line in wrong) + f"{len(least)} rows with the least number of calls, {len(strange)} replies that no row accounts for")
    sys.exit(1 if wrong else 0)


if __name__ == "__main__":
    main()
