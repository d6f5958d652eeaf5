"""Makes crates/checks/stdin, records of stores and lengths, and crates/checks/stdout, the line of each. Prints how often each answer is given."""

import struct
import sys
from collections import Counter
from pathlib import Path

sys.dont_write_bytecode = True  # nothing but the two files is to be left behind
TESTS = Path(__file__).resolve().parents[1]
sys.path.append(str(TESTS))

from reading.draw import Draw
from reading.rules import right_lengths, sound
from stores import all_stores

CRATE = TESTS.parent / "crates/checks"
CHECK, FRESH = 1, 2
# The program has room for so many words of each slice of a fresh store.
ROOM = 131080


def check_record(store):
    header = [CHECK, len(store.array), len(store.entries), len(store.index), store.size, store.allowance, store.count]
    return header + store.array + store.entries + store.index


def check_line(store):
    return "sound" if sound(store) else "unsound"


def fresh_line(lengths):
    if max(lengths) > ROOM:
        return "fresh too long"
    return "fresh 0 zero 0 0 0 sound" if right_lengths(*lengths) else "fresh 4 unchanged unsound"


def all_lengths():
    """Right lengths, with each of the three changed in turn."""
    others = (
        (0, 1, 2, 3, 8, 131070, 131071, 131072, 131073, 131074, ROOM, ROOM + 1),
        (0, 1, 2, 3, 4, 6, 12, 131068, 131071, 131072, 131073, 131076, ROOM, ROOM + 1),
        (0, 1, 2, 3, 4, 6, 8, 16, 32768, 65535, 65536, 65537, 131072, ROOM + 1, 2**64 - 1),
    )
    found = []
    for right in ((0, 0, 2), (8, 8, 4), (131072, 0, 2), (0, 0, 65536), (131072, 131072, 65536)):
        for i in range(3):
            found += [right[:i] + (other,) + right[i + 1 :] for other in others[i]]
    return dict.fromkeys(found)


def records():
    """Words, line and what the record is of."""
    for name, store in all_stores(Draw(2024), 11):
        yield check_record(store), check_line(store), name
    for kind in (0, 3, 2**63):
        yield [kind], "unknown", "kind"
    for lengths in all_lengths():
        yield [FRESH, *lengths], fresh_line(lengths), "fresh"
    # Lengths whose sum is 0 modulo 2^64: what a check that wraps takes for a whole record.
    yield [CHECK, 2, 2**64 - 2, 0, 0, 0, 0], "cut", "cut"


def main():
    words, lines, answers = [], [], Counter()
    for record, line, name in records():
        words += record
        lines.append(line)
        answers[name, line] += 1
    (CRATE / "stdin").write_bytes(struct.pack(f"<{len(words)}Q", *words))
    (CRATE / "stdout").write_text("".join(f"{line}\n" for line in lines))
    for (name, line), count in answers.items():
        print(f"{count:5} {line:28} {name}")
    for line, count in Counter(lines).items():
        print(f"{count:5} {line}")
    print(f"{len(lines):5} records, {8 * len(words)} bytes")


main()
