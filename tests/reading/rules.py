"""What 01 says of a store ('Values and keys', 'The store', the index rule), read straight off: values as pairs of words, canonical keys, shape, soundness."""

import struct
from dataclasses import dataclass
from fractions import Fraction

NIL, BOOLEAN, INTEGER, NUMBER, STRING = range(5)
LAST_KIND = 9
WORD = 2**64
SMALLEST, LARGEST = -(2**63), 2**63 - 1
NOTHING = (NIL, 0)


def bits(x):
    return struct.unpack("<Q", struct.pack("<d", x))[0]


def integer(n):
    return INTEGER, n % WORD


def number(x):
    return NUMBER, bits(x)


def string(handle):
    return STRING, handle


@dataclass
class Store:
    array: list
    entries: list
    index: list
    size: int
    allowance: int
    count: int


def decodes(kind, payload):
    if kind == NIL:
        return payload == 0
    if kind == BOOLEAN:
        return payload in (0, 1)
    return kind <= LAST_KIND


def canonical(key):
    """The canonical key, or None where there is none."""
    kind, payload = key
    if kind == NIL:
        return None
    if kind != NUMBER:
        return key
    x = struct.unpack("<d", struct.pack("<Q", payload))[0]
    if x != x:
        return None
    if x in (float("inf"), float("-inf")):
        return key
    exact = Fraction(x)
    if exact == 2**63:
        return integer(LARGEST)
    if exact.denominator == 1 and SMALLEST <= exact <= LARGEST:
        return integer(exact.numerator)
    return key


def array_index(key):
    """The array index of a canonical key, or None where it has none."""
    kind, payload = key
    if kind == INTEGER and 0 < payload <= LARGEST:
        return payload - 1
    return None


def home(key, length):
    kind, payload = key
    x = (payload + 0x9E3779B97F4A7C15 * kind) % WORD
    x = x ^ (x >> 32)
    x = x ^ (x >> 16)
    return x % length


def inserted(keys, length):
    """The index got by inserting these keys in turn."""
    index = [0] * length
    for position, key in enumerate(keys):
        place = home(key, length)
        while index[place] != 0:
            place = (place + 1) % length
        index[place] = position + 1
    return index


def values(words):
    return list(zip(words[0::2], words[1::2]))


def keys(store):
    return values(store.entries)[0 : 2 * store.count : 2]


def right_lengths(array, entries, index):
    room, entry_room = array // 2, entries // 4
    if array != 2 * room or entries != 4 * entry_room:
        return False
    if room > 65536 or entry_room > 32768:
        return False
    return index in [2**k for k in range(1, 17)] and index >= 2 * entry_room


def right_shape(store):
    if not right_lengths(len(store.array), len(store.entries), len(store.index)):
        return False
    return store.size <= len(store.array) // 2 and store.count <= store.allowance <= len(store.entries) // 4


def sound(store):
    if not right_shape(store):
        return False
    if store.size != 0 and store.size not in [2**k for k in range(17)]:
        return False
    if not all(decodes(*value) for value in values(store.array) + values(store.entries)):
        return False
    if any(canonical(key) != key for key in keys(store)):
        return False
    if len(set(keys(store))) != store.count:
        return False
    if any(array_index(key) is not None and array_index(key) < store.size for key in keys(store)):
        return False
    if any(store.array[2 * store.size :]) or any(store.entries[4 * store.count :]):
        return False
    return store.index == inserted(keys(store), len(store.index))
