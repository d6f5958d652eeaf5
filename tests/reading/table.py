"""The table of 01 ('Calls', 'Growth', 'Border'), read straight off: lists of values and of entries, and candidates counted one by one."""

from bisect import bisect_left

from reading.rules import INTEGER, LARGEST, NIL, NOTHING, array_index, canonical, inserted

DONE, KEY_IS_NIL, KEY_IS_NAN, NO_ROOM, WRONG_SHAPE = range(5)
LAST, NOT_FOUND = "last", "not found"


def below(key, size):
    index = array_index(key)
    return index is not None and index < size


def live(entries):
    return [(key, value) for key, value in entries if value != NOTHING]


class Table:
    def __init__(self, room, entry_room):
        self.room, self.entry_room = room, entry_room
        self.array, self.allowance = [], 0
        self.hold([])

    def hold(self, entries):
        """The entries are these, a list of keys and values, cleared ones too."""
        self.entries = [list(entry) for entry in entries]
        self.positions = {key: position for position, (key, _) in enumerate(self.entries)}

    def record(self):
        """A, M and E."""
        return len(self.array), self.allowance, len(self.entries)

    def append(self, key, value):
        self.positions[key] = len(self.entries)
        self.entries.append([key, value])

    def get(self, key):
        key = canonical(key)
        if key is None:
            return NOTHING
        if below(key, len(self.array)):
            return self.array[array_index(key)]
        if key in self.positions:
            return self.entries[self.positions[key]][1]
        return NOTHING

    def set(self, key, value):
        """The refusal number and the previous value."""
        if key[0] == NIL:
            return KEY_IS_NIL, NOTHING
        key = canonical(key)
        if key is None:
            return KEY_IS_NAN, NOTHING
        previous = self.get(key)
        if below(key, len(self.array)):
            self.array[array_index(key)] = value
        elif key in self.positions:
            self.entries[self.positions[key]][1] = value
        elif value == NOTHING:
            pass
        elif len(self.entries) < self.allowance:
            self.append(key, value)
        elif not self.grow(key, value):
            return NO_ROOM, NOTHING
        return DONE, previous

    def wanted_size(self, key):
        """S: the largest power of two, at most a, with more than half as many candidates below it."""
        pairs = [((INTEGER, i + 1), value) for i, value in enumerate(self.array)] + self.entries
        indices = [array_index(k) for k in [k for k, _ in live(pairs)] + [key]]
        candidates = sorted(i for i in indices if i is not None and i < 65536)
        sizes = [2**k for k in range(17) if 2**k <= self.room]
        return max([s for s in sizes if bisect_left(candidates, s) > s // 2], default=0)

    def grow(self, key, value):
        """Whether there is room; else nothing is done."""
        size = max(self.wanted_size(key), len(self.array))
        staying = [(k, v) for k, v in live(self.entries) if not below(k, size)]
        if not below(key, size) and len(staying) == self.entry_room:
            return False
        self.array += [NOTHING] * (size - len(self.array))
        for k, v in live(self.entries):
            if below(k, size):
                self.array[array_index(k)] = v
        self.hold(staying)
        if below(key, size):
            self.array[array_index(key)] = value
            return True
        if 2 * len(staying) >= self.allowance:
            self.allowance = min(self.entry_room, max(4, 2 * self.allowance))
        self.append(key, value)
        return True

    def reserve(self, n):
        """The refusal number."""
        if n <= self.allowance - len(self.entries):
            return DONE
        staying = live(self.entries)
        if len(staying) + n > self.entry_room:
            return NO_ROOM
        self.hold(staying)
        self.allowance = max(self.allowance, len(staying) + n)
        return DONE

    def next(self, key):
        """A key with its value, LAST or NOT_FOUND."""
        place, position = 0, 0
        if key[0] != NIL:
            key = canonical(key)
            if key is not None and below(key, len(self.array)):
                place = array_index(key) + 1
            elif key in self.positions:
                place, position = len(self.array), self.positions[key] + 1
            else:
                return NOT_FOUND
        for i in range(place, len(self.array)):
            if self.array[i] != NOTHING:
                return (INTEGER, i + 1), self.array[i]
        for i in range(position, len(self.entries)):
            if self.entries[i][1] != NOTHING:
                return tuple(self.entries[i])
        return LAST

    def length(self):
        size = len(self.array)
        if size > 0 and self.array[-1] == NOTHING:
            return self.halved(0, size)
        if not self.entries:
            return size
        most = size + 1
        while (INTEGER, most) in self.positions and most < LARGEST:
            most = min(2 * most, LARGEST)
        if most == LARGEST and self.get((INTEGER, most)) != NOTHING:
            return most
        return self.halved(size, most)

    def halved(self, least, most):
        while most - least > 1:
            middle = least + (most - least) // 2
            if self.get((INTEGER, middle)) == NOTHING:
                most = middle
            else:
                least = middle
        return least

    def words(self, length):
        """The words of the array, of the entries, and of an index of this length."""
        array = [word for value in self.array for word in value]
        entries = [word for entry in self.entries for value in entry for word in value]
        array += [0] * (2 * self.room - len(array))
        entries += [0] * (4 * self.entry_room - len(entries))
        return array, entries, inserted([key for key, _ in self.entries], length)
