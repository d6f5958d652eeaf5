"""What the Lua 5.4 manual allows: the fields of a table (§2.1), raw equality of keys (§3.4.4), borders (§3.4.7) and `next` (§6.1), over the texts of calls.py, where a reply that is no value and not 'last' has a space. Assumes nothing of either side."""

import struct
from fractions import Fraction

from compare.calls import key_of, word_of
from reading.rules import INTEGER, LARGEST, NIL, NOTHING, NUMBER


def raw(key):
    """What raw equal keys have in common: a number's exact value, or the key itself. None where it is no key."""
    kind, payload = key
    if kind == INTEGER:
        return Fraction(struct.unpack("<q", struct.pack("<Q", payload))[0])
    if kind != NUMBER:
        return None if kind == NIL else key
    x = struct.unpack("<d", struct.pack("<Q", payload))[0]
    return None if x != x else x if x in (float("inf"), float("-inf")) else Fraction(x)


class Manual:
    """The fields so far, and the walk that one side is on: the fields it has handed out, None where there is no walk."""

    def __init__(self):
        self.fields, self.walked, self.at = {}, None, None

    def allows(self, call, reply):
        """Whether the manual allows this reply to the next call; None where it says nothing."""
        name, *passed = call
        if name in ("get", "set", "next", "length"):
            return getattr(self, name)(*passed, reply)
        return None

    def get(self, key, reply):
        return reply == word_of(self.fields.get(raw(key), NOTHING))

    def set(self, key, new, reply):
        """It does not say what a table has room for."""
        key = raw(key)
        if reply == "refused 3":
            return None
        if key is None:
            return reply in ("refused 1", "refused 2")
        if new == NOTHING:
            self.fields.pop(key, None)
        else:
            self.walked = self.walked if key in self.fields else None
            self.fields[key] = new
        return reply == "done"

    def length(self, reply):
        if " " in reply:
            return False
        n = key_of(reply)[1]
        border = n == 0 or Fraction(n) in self.fields
        return border and (n == LARGEST or Fraction(n + 1) not in self.fields)

    def next(self, key, reply):
        """In a walk each field once and then the end. A step from elsewhere says only that its key has a field."""
        told = None if reply == "last" or " " in reply else raw(key_of(reply))
        if key == NOTHING:
            self.walked, self.at = set(), None
        elif self.walked is None or raw(key) != self.at:
            self.walked = None
            if raw(key) not in self.fields:
                return None
            return reply == "last" or told in self.fields
        left = self.fields.keys() - self.walked
        if told is not None:
            self.walked, self.at = self.walked | {told}, told
        return told in left if left else reply == "last"


def verdict(calls, theirs, ours):
    """Of the last replies of the original and of ours, in the words of docs/DIFFERENCES.md."""
    sides = Manual(), Manual()
    for call, *replies in zip(calls, theirs, ours, strict=True):
        its, mine = (side.allows(call, reply) for side, reply in zip(sides, replies))
    if its is None or mine is None:
        return "is silent"
    return "allows " + {(True, True): "both", (False, True): "ours", (True, False): "the original's", (False, False): "neither"}[its, mine]
