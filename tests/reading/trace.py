"""01's 'Trace program', read straight off: values and records as bytes, and what the program writes for an input. Run by itself it is that program."""

import struct
import sys
from pathlib import Path

sys.dont_write_bytecode = True
sys.path.append(str(Path(__file__).resolve().parents[1]))

from reading.rules import decodes
from reading.table import LAST, NOT_FOUND, Table

ROOM, ENTRY_ROOM = 1024, 512
KINDS = {"get": 1, "set": 2, "length": 3, "next": 4, "reserve": 5}
GET, SET, LENGTH, NEXT, RESERVE = KINDS.values()
REPLY, FAULT = 256, 511
# What each reply answers.
REPLIES = {REPLY + kind: name for name, kind in KINDS.items()} | {FAULT: "fault"}
CUT, UNKNOWN, WRONG_LENGTH, UNDECODABLE = range(1, 5)
# The bytes of a body, by kind.
BODY = {GET: 9, SET: 18, LENGTH: 0, NEXT: 9, RESERVE: 4}
FOUND_BYTE, LAST_BYTE, NOT_FOUND_BYTE = range(3)


def value(words):
    return struct.pack("<BQ", *words)


def values(body):
    return list(struct.iter_unpack("<BQ", body))


def record(kind, body=b""):
    return struct.pack("<HH", 2 + len(body), kind) + body


# The records of the calls. They have the calls' names, `set` and `next` among them, so they are written with this module's: `trace.set`.


def get(key):
    return record(GET, value(key))


def set(key, new):
    return record(SET, value(key) + value(new))


def length():
    return record(LENGTH)


def next(key):
    return record(NEXT, value(key))


def reserve(n):
    return record(RESERVE, struct.pack("<I", n))


def fault_at(data, at):
    """The fault of the record that begins here, or None."""
    left = len(data) - at
    if left == 1:
        return CUT
    (size,) = struct.unpack_from("<H", data, at)
    if size < 2:
        return WRONG_LENGTH
    if size > left - 2:
        return CUT
    kind, body, _ = taken(data, at)
    if kind not in BODY:
        return UNKNOWN
    if len(body) != BODY[kind]:
        return WRONG_LENGTH
    if kind != RESERVE and not all(decodes(*words) for words in values(body)):
        return UNDECODABLE
    return None


def taken(data, at):
    """Kind and body of the record that begins here, and where it ends."""
    size, kind = struct.unpack_from("<HH", data, at)
    end = at + 2 + size
    return kind, data[at + 4 : end], end


def records(data):
    """Kind and body of each record, where all are whole."""
    at = 0
    while at < len(data):
        kind, body, at = taken(data, at)
        yield kind, body


def stepped(found):
    """The body of a reply to `next`."""
    if found == LAST:
        return bytes([LAST_BYTE])
    if found == NOT_FOUND:
        return bytes([NOT_FOUND_BYTE])
    return bytes([FOUND_BYTE]) + value(found[0]) + value(found[1])


def reply(table, kind, body):
    """The body of the reply to a record with no fault."""
    if kind == GET:
        return value(table.get(*values(body)))
    if kind == SET:
        refusal, previous = table.set(*values(body))
        return bytes([refusal]) + value(previous)
    if kind == LENGTH:
        return struct.pack("<Q", table.length())
    if kind == NEXT:
        return stepped(table.next(*values(body)))
    return bytes([table.reserve(*struct.unpack("<I", body))])


def answer(data):
    """What the program writes for this input."""
    table, replies, at = Table(ROOM, ENTRY_ROOM), [], 0
    while at < len(data):
        fault = fault_at(data, at)
        if fault is not None:
            return b"".join(replies) + record(FAULT, bytes([fault]))
        kind, body, at = taken(data, at)
        replies.append(record(REPLY + kind, reply(table, kind, body)))
    return b"".join(replies)


if __name__ == "__main__":
    sys.stdout.buffer.write(answer(sys.stdin.buffer.read()))
