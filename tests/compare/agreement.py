"""Demand 2 between our replies and the original's to the same calls: which must be equal, and what is asked of the others. Assumes nothing of either side: what a table holds is told by the sets alone."""

import struct

from compare.original import PANIC
from reading import trace
from reading.rules import INTEGER, LARGEST, NOTHING, array_index, canonical, integer

FAR = 2**20  # no array here is so long


class Meaning:
    """The map that the sets so far mean, its borders, and the keys that ever had a value."""

    def __init__(self):
        self.values, self.borders, self.ever = {}, {0}, set()

    def set(self, key, new):
        key = canonical(key)
        if key is None:
            return
        if new == NOTHING:
            self.values.pop(key, None)
        else:
            self.values[key] = new
            self.ever.add(key)
        if array_index(key) is not None:
            self.mark(key[1] - 1)
            self.mark(key[1])

    def has(self, n):
        return (INTEGER, n) in self.values

    def mark(self, n):
        """A change of key n or n + 1 may have made n a border, or none."""
        if (n == 0 or self.has(n)) and (n == LARGEST or not self.has(n + 1)):
            self.borders.add(n)
        else:
            self.borders.discard(n)

    def was_never_a_key(self, key):
        """Nor is its place in an array."""
        index = None if key is None else array_index(key)
        return key not in self.ever and (index is None or index >= FAR)


def pairs_of(replies):
    """The pairs of a walk's replies, or None where these are no walk to its end."""
    if replies[-1][1] != bytes([trace.LAST_BYTE]) or any(body[0] != trace.FOUND_BYTE for _, body in replies[:-1]):
        return None
    return [tuple(trace.values(body[1:])) for _, body in replies[:-1]]


class Agreement:
    """Of one trace. What was compared is counted."""

    def __init__(self, counts):
        self.meaning, self.counts = Meaning(), counts

    # Whether the replies to a call agree, ours and theirs.

    def get(self, key, ours, theirs):
        return ours == theirs

    def set(self, key, new, ours, theirs):
        self.meaning.set(key, new)
        return ours == theirs

    def reserve(self, n, ours, theirs):
        return ours == theirs

    def length(self, ours, theirs):
        """Both are borders, and so equal where there is one. The original answers the largest integer even where that is cleared."""
        meant, n, m = self.meaning, *(struct.unpack("<Q", body)[0] for _, body in ours + theirs)
        if m == LARGEST and m not in meant.borders and integer(m) in meant.ever:
            self.counts["lengths of the original at the cleared largest integer"] += 1
            return n in meant.borders
        self.counts["lengths where there is one border"] += len(meant.borders) == 1
        return n in meant.borders and m in meant.borders

    def next(self, key, ours, theirs):
        return self.stepped(key, ours[0][1]) and self.stepped(key, theirs[0][1])

    def stepped(self, key, reply):
        """Whether one side may answer so. Each has its own order, so a pair that is there will do; NotFound is for what was never a key, and not for a key with a value."""
        meant, told = self.meaning, canonical(key)
        if key != NOTHING and meant.was_never_a_key(told):
            return reply[0] == trace.NOT_FOUND_BYTE
        if reply[0] == trace.FOUND_BYTE:
            found, value = trace.values(reply[1:])
            return meant.values.get(found) == value
        if key == NOTHING:
            return reply[0] == trace.LAST_BYTE and not meant.values
        return reply[0] == trace.LAST_BYTE or told not in meant.values

    def walk(self, *keys_and_replies):
        """The same pairs, each once: those of the map."""
        *_, ours, theirs = keys_and_replies
        meant = sorted(self.meaning.values.items())
        return all(pairs is not None and sorted(pairs) == meant for pairs in (pairs_of(ours), pairs_of(theirs)))

    def agrees(self, step, ours, theirs):
        kind = trace.REPLY + trace.KINDS["next" if step.name == "walk" else step.name]
        if any(reply is None or reply[0] != kind for reply in ours + theirs):
            return False
        self.counts["compared " + step.name] += 1
        return getattr(self, step.name)(*step.passed, ours, theirs)

    def compared(self, steps, ours, original):
        """The number of the first record where they disagree, its step and the replies; None where there is no such."""
        ours, original, number = trace.records(ours), trace.records(original), 1
        for step in steps:
            mine = [next(ours, None) for _ in range(step.size())]
            theirs = [] if step.refused else theirs_to(step, original)
            if theirs and theirs[-1] is not None and theirs[-1][0] == PANIC:
                self.counts["panics of the original: " + theirs[-1][1].decode()] += 1
                return None
            if not step.refused and not self.agrees(step, mine, theirs):
                return number, step, mine, theirs
            number += step.size()
        return None


def theirs_to(step, original):
    """The original's replies to a step: those of a walk go to its Last."""
    replies = [next(original, None)]
    while step.name == "walk" and replies[-1] is not None and replies[-1][1][0] == trace.FOUND_BYTE:
        replies.append(next(original, None))
    return replies
