"""How many index words a search visits, by the pattern of the host's handles: 30,000 keys in 65,536 index words, under 01's index rule."""

import sys
from pathlib import Path

sys.dont_write_bytecode = True
sys.path.append(str(Path(__file__).resolve().parents[1] / "tests"))

from reading.rules import NUMBER, STRING, WORD, bits, home

KEYS, LENGTH = 30_000, 65_536


def mixed(i):
    """splitmix64."""
    x = 0x9E3779B97F4A7C15 * i % WORD
    x = (x ^ (x >> 30)) * 0xBF58476D1CE4E5B9 % WORD
    x = (x ^ (x >> 27)) * 0x94D049BB133111EB % WORD
    return x ^ (x >> 31)


# key number i, as kind and payload
PATTERNS = [
    ("one counter", lambda i: (STRING, i)),
    ("one counter for Strings and Tables in turn", lambda i: (STRING + i % 2, i)),
    ("one counter for all six kinds, at random", lambda i: (STRING + mixed(i) % 6, i)),
    ("addresses, 48 bytes apart", lambda i: (STRING, 0x5000_0000_0000 + 48 * i)),
    ("addresses, 48 bytes apart, all six kinds", lambda i: (STRING + mixed(i) % 6, 0x5000_0000_0000 + 48 * i)),
    ("mixed: splitmix64 of a counter", lambda i: (STRING, mixed(i))),
    ("Numbers, i + 0.5", lambda i: (NUMBER, bits(i + 0.5))),
    ("a counter for each of Strings and Tables", lambda i: (STRING + i % 2, i // 2)),
    ("a counter for each of six kinds", lambda i: (STRING + i % 6, i // 6)),
    ("a counter, and one of ten generations at bit 32", lambda i: (STRING, i // 10 + (i % 10 << 32))),
    ("multiples of 2^16 - 1", lambda i: (STRING, (2**16 - 1) * i)),
    ("multiples of 2^16 + 1", lambda i: (STRING, (2**16 + 1) * i)),
    ("multiples of 2^32 - 1", lambda i: (STRING, (2**32 - 1) * i)),
    ("multiples of 2^32 + 1", lambda i: (STRING, (2**32 + 1) * i)),
]


def free_from(free, place):
    """The first free place from this one on: where the steps free[p] end, which are made shorter on the way."""
    while free[place] != place:
        free[place] = free[free[place]]
        place = free[place]
    return place


def visits(pattern):
    """Mean and most words that a search for a key visits, keys put in one after the other."""
    free, counts = list(range(LENGTH)), []
    for i in range(1, KEYS + 1):
        start = home(pattern(i), LENGTH)
        end = free_from(free, start)
        counts.append((end - start) % LENGTH + 1)
        free[end] = (end + 1) % LENGTH
    return sum(counts) / KEYS, max(counts)


print(f"{'':50} {'mean':>9} {'most':>7}")
for name, pattern in PATTERNS:
    mean, most = visits(pattern)
    print(f"{name:50} {mean:>9.1f} {most:>7}")
