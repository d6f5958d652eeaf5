"""Makes crates/limits/stdin, the records of the sequences, and crates/limits/stdout, their lines. Prints what each sequence is of."""

import struct
import sys
from pathlib import Path

sys.dont_write_bytecode = True  # nothing but the two files is to be left behind
TESTS = Path(__file__).resolve().parents[1]
sys.path.append(str(TESTS))

from reading.rules import INTEGER, NOTHING, Store, right_lengths, right_shape, sound
from reading.table import DONE, LAST, WRONG_SHAPE, Table
from sequences import SEQUENCES

CRATE = TESTS.parent / "crates/limits"
FIELDS = 5
KINDS = {"get": 1, "set": 2, "length": 3, "next": 4, "reserve": 5, "fresh": 6, "record": 7, "check": 8, "fill": 9, "walk": 10}
# The program has room for so many words of each slice, and lends it to one sequence after the other.
ROOM = 131080


def digest(words, number=0):
    """A number that goes by every word and by their order."""
    for word in words:
        number = (16807 * number + word) % (2**31 - 1)
    return number


def flat(parts):
    """Numbers and words, of values and pairs too, in one list."""
    return [x for part in parts for x in (flat(part) if isinstance(part, tuple) else [part])]


def shown(*parts):
    return " ".join(str(part) for part in flat(parts))


class Lent:
    """Slices that are lent to the calls, the table in them, and the record that the next call is passed."""

    def __init__(self, lengths, left):
        self.lengths, self.left, self.passed = lengths, left, (0, 0, 0)
        self.table = Table(lengths[0] // 2, lengths[1] // 4) if right_lengths(*lengths) else None

    def words(self):
        """What the slices hold; where no store was made, what was left there."""
        if self.table is None:
            return tuple(words[:length] for words, length in zip(self.left, self.lengths))
        return self.table.words(self.lengths[2])

    def leaves(self):
        return tuple(words + left[len(words) :] for words, left in zip(self.words(), self.left))

    def store(self):
        return Store(*self.words(), *self.passed)

    def soundness(self):
        return "sound" if sound(self.store()) else "unsound"

    def refused(self):
        """Whether the shape is wrong. A record that is wrong otherwise is passed to no call: 01 does not say what comes of it."""
        wrong = not right_shape(self.store())
        assert wrong or self.passed == self.table.record()
        return wrong

    def after(self, refusal, *answer):
        """A refusal number, the answer of a call that is done, and the record after the call."""
        if refusal == DONE:
            self.passed = self.table.record()
            return f"{shown(refusal, *answer)}, {shown(self.passed)}"
        return f"{refusal}, {shown(self.passed)}"

    # What each call writes after its name and what it is passed.

    def fresh(self, *lengths):
        return self.after(WRONG_SHAPE if self.table is None else DONE)

    def record(self, *sizes):
        self.passed = sizes
        return shown(sizes)

    def get(self, key):
        return shown(WRONG_SHAPE) if self.refused() else shown(DONE, self.table.get(key))

    def next(self, key):
        return shown(WRONG_SHAPE) if self.refused() else shown(DONE, self.table.next(key))

    def length(self):
        return shown(WRONG_SHAPE) if self.refused() else shown(DONE, self.table.length())

    def set(self, key, value):
        return self.after(WRONG_SHAPE) if self.refused() else self.after(*self.table.set(key, value))

    def reserve(self, n):
        return self.after(WRONG_SHAPE) if self.refused() else self.after(self.table.reserve(n))

    def fill(self, kind, start, end):
        for n in range(start, end):
            refusal, _ = self.table.set((kind, n), (INTEGER, n))
            if refusal != DONE:
                break
        self.passed = self.table.record()
        return f"{refusal}, {shown(self.passed)}"

    def walk(self, most):
        if self.refused():
            return "astray"
        pairs, number, found = 0, 0, self.table.next(NOTHING)
        while found != LAST:
            pairs, number = pairs + 1, digest(flat(found), number)
            found = self.table.next(found[0])
        assert pairs < most
        return shown(DONE, pairs, number)

    def check(self):
        number = 0
        for words in self.words():
            number = digest(words, number)
        return shown(number, self.soundness())


def record_of(name, *passed):
    words = [KINDS[name]] + flat(passed)
    return words + [0] * (FIELDS - len(words))


def sequence(lent, number, calls):
    """Each record, with its lines."""
    for name, *passed in calls:
        answer = getattr(lent, name)(*passed)
        line = f"{shown(name, *passed)}: {answer}"
        if name == "fresh":
            yield record_of(name, *passed, number), [f"sequence {number}", line]
        elif name == "record":
            yield record_of(name, *passed), [f"record, {answer}"]
        else:
            yield record_of(name, *passed), [line]


def records():
    left = tuple([0] * ROOM for _ in range(3))
    for number, (what, lengths, calls) in enumerate(SEQUENCES, 1):
        lent = Lent(lengths, left)
        yield from sequence(lent, number, [("fresh", *lengths)] + calls)
        left = lent.leaves()
        print(f"{number:3} {len(calls):4} calls: {what}")
    yield [max(KINDS.values()) + 1, 0, 0, 0, 0], ["unknown"]
    yield record_of("fresh", 0, 0, ROOM + 1), ["too long"]
    yield record_of("length"), ["no sequence"]


def main():
    words, lines = [], []
    for record, answer in records():
        words += record
        lines += answer
    (CRATE / "stdin").write_bytes(struct.pack(f"<{len(words)}Q", *words))
    (CRATE / "stdout").write_text("".join(f"{line}\n" for line in lines))
    print(f"{len(lines)} lines, {8 * len(words)} bytes of input")


main()
