"""Small stores: sound ones of every kind of key and value, and copies of them with something changed. Drawn from a fixed seed."""

from collections import Counter
from copy import deepcopy

from reading.draw import NoChoice
from reading.rules import BOOLEAN, INTEGER, LARGEST, NIL, NUMBER, WORD, Store, bits, home, inserted, keys, number

# Numbers that are their own keys, Numbers that become Integers as keys, and NaNs.
PROPER = [bits(x) for x in (0.5, -0.5, 0.1, 1e300, 2.0**64, -(2.0**64), 5e-324, float("inf"), float("-inf"))]
WHOLE = [bits(x) for x in (1.0, -0.0, 0.0, -1.0, 3.0, 2.0**53, 2.0**62, 2.0**63, -(2.0**63), 1024.0)]
NANS = [0x7FF8000000000000, 0xFFF8000000000000, 0x7FF0000000000001, 0x7FFCDEADBEEFCAFE, WORD - 1]
UNDECODABLE = [(10, 0), (10, 7), (NIL, 1), (NIL, 2**63), (BOOLEAN, 2), (BOOLEAN, WORD - 1), (2**32 + INTEGER, 5), (WORD - 1, 0)]
# Keys to put in place of others.
FIXED_KEYS = {
    "Nil": (NIL, 0),
    "quiet NaN": (NUMBER, NANS[0]),
    "signalling NaN": (NUMBER, NANS[2]),
    **{f"Number {x}": number(x) for x in (1.0, -0.0, 2.0**53, 2.0**63, -(2.0**63), 0.5, float("inf"))},
    "Integer 0": (INTEGER, 0),
    "Integer -1": (INTEGER, WORD - 1),
}
# What is not 0 in unused words: values, and what does not decode.
NOT_ZERO = [(BOOLEAN, 0), (INTEGER, 5), (4, 0)] + UNDECODABLE


def drawn_value(draw):
    kind = draw.below(10)
    if kind == NIL:
        return (NIL, 0)
    if kind == BOOLEAN:
        return (BOOLEAN, draw.below(2))
    if kind == NUMBER:
        return (NUMBER, draw.of(PROPER + WHOLE + NANS))
    return (kind, draw.of([draw.word(), draw.below(8), WORD - 1]))


def drawn_key(draw, size):
    """A canonical key with no array index below the size."""
    kind = draw.of([BOOLEAN, INTEGER, INTEGER, INTEGER, NUMBER, NUMBER, 4, 4, 5, 6, 7, 8, 9])
    if kind == BOOLEAN:
        return (BOOLEAN, draw.below(2))
    if kind == INTEGER:
        drawn = [size + 2 + draw.below(9), 65536 + draw.word() % 2**62, WORD - 1 - draw.below(4)]
        return (INTEGER, draw.of([0, size + 1, LARGEST, LARGEST + 1] + drawn))
    if kind == NUMBER:
        return (NUMBER, draw.of(PROPER))
    return (kind, draw.of([draw.word(), draw.below(4), 0, WORD - 1]))


def made(draw, room, size, entry_room, allowance, count, length, lowest_home=0):
    """A sound store. No key's home is below the place given, so that keys may be made to meet at the end of the index and go round it."""
    store = Store([0] * (2 * room), [0] * (4 * entry_room), [0] * length, size, allowance, count)
    for i in range(size):
        store.array[2 * i : 2 * i + 2] = drawn_value(draw)
    for i in range(count):
        key = drawn_key(draw, size)
        while key in keys(store)[:i] or home(key, length) < lowest_home:
            key = drawn_key(draw, size)
        store.entries[4 * i : 4 * i + 4] = key + drawn_value(draw)
    again(store)
    return store


def sound_stores(draw):
    yield made(draw, 0, 0, 0, 0, 0, 2)
    yield made(draw, 4, 4, 0, 0, 0, 2)
    yield made(draw, 4, 0, 6, 0, 0, 16)
    for size in (0, 1, 2, 4):
        for count, entry_room, length in ((1, 1, 2), (2, 2, 4), (3, 4, 8), (4, 4, 8), (5, 6, 16), (6, 8, 16)):
            yield made(draw, size + count % 2, size, entry_room, entry_room, count, length, length - 2)
    for _ in range(36):
        size = draw.of([0, 1, 2, 4])
        room = draw.of(range(size, 5))
        entry_room = draw.of([0, 1, 2, 3, 4, 4, 5, 6])
        allowance = draw.of([draw.below(entry_room + 1), entry_room])
        count = draw.of([draw.below(allowance + 1), allowance])
        length = draw.of([n for n in (2, 4, 8, 16, 32) if n >= 2 * entry_room][:2])
        yield made(draw, room, size, entry_room, allowance, count, length)


# Changes. Each is made to a copy; whether the copy is sound is for the rules to say.


def again(store):
    """The index is made anew."""
    store.index = inserted(keys(store), len(store.index))


def flip(words, draw, width, places=None):
    words[draw.of(range(len(words)) if places is None else places)] ^= 1 << draw.below(width)


def flip_record(store, draw):
    name = draw.of(["size", "allowance", "count"])
    setattr(store, name, getattr(store, name) ^ 1 << draw.of([0, 1, 2, draw.below(64)]))


def swap(words, draw, places, width=1):
    """Two groups of words, not equal, change places."""
    i = draw.of(places)
    j = draw.of([p for p in places if words[p : p + width] != words[i : i + width]])
    words[i : i + width], words[j : j + width] = words[j : j + width], words[i : i + width]


def used(store):
    return [i for i, word in enumerate(store.index) if word]


def one_off(store, draw):
    i = draw.below(len(store.index))
    store.index[i] = (store.index[i] + draw.of([1, -1])) % 65536


def extra_word(store, draw):
    place = draw.of([i for i, word in enumerate(store.index) if not word])
    store.index[place] = draw.of([1, store.count + 1, 65535])


def missing_word(store, draw):
    store.index[draw.of(used(store))] = 0


def turned(store, draw):
    """The entries put in from the last to the first."""
    back = inserted(keys(store)[::-1], len(store.index))
    store.index = [store.count + 1 - word if word else 0 for word in back]


def another_rule(store, draw):
    """Homes of keys whose kind does not count, or counts once more."""
    more = draw.of([lambda kind: 0, lambda kind: kind + 1])
    store.index = inserted([(more(kind), payload) for kind, payload in keys(store)], len(store.index))


def another_length(store, draw):
    """An index that is right but for its length, where the entries fit."""
    store.index = [0] * draw.of([0, 1, 2, 3, 4, 5, 6, 7, 8, 12, 15, 17, 24, 32])
    if store.count < len(store.index):
        again(store)


def put(words, draw, places, value):
    place = draw.of(places)
    words[place : place + 2] = value


def put_key(store, draw, key):
    put(store.entries, draw, range(0, 4 * store.count, 4), key)
    again(store)


def fixed_key(key):
    return lambda store, draw: put_key(store, draw, key)


def same_key(store, draw):
    i = draw.below(store.count)
    j = draw.of([p for p in range(store.count) if p != i])
    store.entries[4 * i : 4 * i + 2] = store.entries[4 * j : 4 * j + 2]
    again(store)


def reordered(store, draw):
    swap(store.entries, draw, range(0, 4 * store.count, 4), 4)
    again(store)


def last_dropped(store, draw):
    """The last entry's words are set to 0; its index word may stay."""
    store.count = draw.of([n for n in [store.count - 1] if n >= 0])
    store.entries[4 * store.count :] = [0] * (len(store.entries) - 4 * store.count)
    if draw.below(2):
        again(store)


def size_three(store, draw):
    store.size = 3
    store.array.extend([0] * (6 - len(store.array)))


def index_doubled(store, draw):
    """Twice as many words, put in anew or as they were."""
    store.index.extend([0] * len(store.index))
    if draw.below(2):
        again(store)


CHANGES = {
    # one bit
    "array bit": lambda s, d: flip(s.array, d, d.of([4, 64])),
    "entry bit": lambda s, d: flip(s.entries, d, d.of([4, 64])),
    "entry value's bit": lambda s, d: flip(s.entries, d, 64, range(3, 4 * s.count, 4)),
    "index bit": lambda s, d: flip(s.index, d, d.of([2, 3, 16])),
    "record bit": flip_record,
    # the index
    "two index words swapped": lambda s, d: swap(s.index, d, range(len(s.index))),
    "two used index words swapped": lambda s, d: swap(s.index, d, used(s)),
    "index word one off": one_off,
    "index word more": extra_word,
    "index word missing": missing_word,
    "index put in from the last": turned,
    "index by another rule": another_rule,
    "index of another length": another_length,
    "index doubled": index_doubled,
    # entries and keys
    "entries swapped": lambda s, d: swap(s.entries, d, range(0, 4 * s.count, 4), 4),
    "entries swapped, index anew": reordered,
    "last entry dropped": last_dropped,
    "one key twice": same_key,
    **{f"key {name}": fixed_key(key) for name, key in FIXED_KEYS.items()},
    "key Number": lambda s, d: put_key(s, d, (NUMBER, d.of(PROPER + WHOLE + NANS))),
    "key with index below A": lambda s, d: put_key(s, d, (INTEGER, 1 + d.below(s.size))),
    "key A + 1": lambda s, d: put_key(s, d, (INTEGER, s.size + 1)),
    "key undecodable": lambda s, d: put_key(s, d, d.of(UNDECODABLE)),
    # values and unused words
    "array value": lambda s, d: put(s.array, d, range(0, 2 * s.size, 2), drawn_value(d)),
    "array value undecodable": lambda s, d: put(s.array, d, range(0, 2 * s.size, 2), d.of(UNDECODABLE)),
    "array unused not 0": lambda s, d: put(s.array, d, range(2 * s.size, len(s.array), 2), d.of(NOT_ZERO)),
    "entry value": lambda s, d: put(s.entries, d, range(2, 4 * s.count, 4), drawn_value(d)),
    "entry cleared": lambda s, d: put(s.entries, d, range(2, 4 * s.count, 4), (NIL, 0)),
    "entry value undecodable": lambda s, d: put(s.entries, d, range(2, 4 * s.count, 4), d.of(UNDECODABLE)),
    "entry unused not 0": lambda s, d: put(s.entries, d, range(4 * s.count, len(s.entries), 2), d.of(NOT_ZERO)),
    # the record and the lengths
    "A 3": size_three,
    "A another": lambda s, d: setattr(s, "size", d.below(6)),
    "A > a": lambda s, d: setattr(s, "size", d.of([2**k for k in range(64) if 2**k > len(s.array) // 2])),
    "M another": lambda s, d: setattr(s, "allowance", d.below(len(s.entries) // 4 + 1)),
    "M > e": lambda s, d: setattr(s, "allowance", d.of([len(s.entries) // 4 + 1, 2**62, WORD - 1])),
    "E > M": lambda s, d: setattr(s, "count", d.of([s.allowance + 1, s.allowance + 4, WORD - 1])),
    "array room more": lambda s, d: s.array.extend([0] * 2),
    "entry room more": lambda s, d: s.entries.extend([0] * 4),
    "array length odd": lambda s, d: s.array.extend([0] * d.of([1, 3])),
    "entry length no multiple of 4": lambda s, d: s.entries.extend([0] * d.of([1, 2, 3])),
}


def changed(store, name, draw):
    """A changed copy, or None where the change does not apply."""
    copy = deepcopy(store)
    try:
        CHANGES[name](copy, draw)
    except NoChoice:
        return None
    return copy


def all_stores(draw, copies):
    """Sound stores, each followed by so many changed copies; with the name of the change, of those that apply the one seen least often."""
    seen = Counter()
    for store in sound_stores(draw):
        yield "none", store
        for _ in range(copies):
            named = ((name, changed(store, name, draw)) for name in sorted(CHANGES, key=lambda name: seen[name]))
            name, copy = next((name, copy) for name, copy in named if copy is not None)
            seen[name] += 1
            yield name, copy
