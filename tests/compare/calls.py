"""Sequences of calls as docs/DIFFERENCES.md writes them, and the replies of both sides to them, as texts. Assumes that no call of a sequence is faulty.

Calls, with a semicolon between: set KEY .., each to true; clear KEY .., each set to nil; get KEY; next KEY; length; reserve N, which no trace has where N is 2^32 or more; and three that no trace has: sizes, and, which the original alone has, reserve_array N and collect KEY, after which another object may stand where that one stood.
Keys: nil, nan, s1 and t1 (the String and the Table with handle 1), 4 and 2^62 (Integers), I (the largest), 0.5 and 2.0^63 (Numbers), and rows of them, s1..s27 and 2^1..2^62.
"""

import re
import struct
import subprocess

from compare import original
from limits.sequences import YES, lent
from reading import trace
from reading.rules import INTEGER, LARGEST, NOTHING, NUMBER, STRING, integer, number

TABLE = STRING + 1
OBJECTS = {"s": STRING, "t": TABLE}
NAMED = {"nil": NOTHING, "nan": number(float("nan")), "I": integer(LARGEST)}
ROW = re.compile(r"(s|t|2\^)(\d+)\.\.\1(\d+)")
# Of the program `limits`: the kind of record that begins a sequence, and the words of each record.
FRESH, FIELDS = 6, 5
ONLY_THERE = ("reserve_array", "collect")
# Replies of the original's that are its last.
ENDS = {original.PANIC: "panic: ", original.ABORT: "abort: "}


def row_of(word):
    """The words of a row of keys, or the one word that it is."""
    row = ROW.fullmatch(word)
    return [f"{row[1]}{n}" for n in range(int(row[2]), int(row[3]) + 1)] if row else [word]


def key_of(word):
    if word in NAMED:
        return NAMED[word]
    if word[0] in OBJECTS:
        return OBJECTS[word[0]], int(word[1:])
    base, power, exponent = word.partition("^")
    value = (float(base) if "." in base else int(base)) ** (int(exponent) if power else 1)
    return number(value) if "." in base else integer(value)


def word_of(value):
    """A value's text."""
    kind, payload = value
    for word, named in {**NAMED, "true": YES}.items():
        if value == named:
            return word
    if kind == INTEGER:
        return str(struct.unpack("<q", struct.pack("<Q", payload))[0])
    if kind == NUMBER:
        return repr(struct.unpack("<d", struct.pack("<Q", payload))[0])
    return next(letter for letter in OBJECTS if OBJECTS[letter] == kind) + str(payload)


def calls_of(text):
    """The calls of a sequence: name, and what is passed."""
    calls = []
    for name, *words in map(str.split, text.split(";")):
        words = [key for word in words for key in row_of(word)]
        if name in ("set", "clear"):
            calls += [("set", key_of(word), YES if name == "set" else NOTHING) for word in words]
        elif name in ("length", "sizes"):
            calls.append((name,))
        else:
            calls += [(name, int(word) if name.startswith("reserve") else key_of(word)) for word in words]
    return calls


def wide(call):
    """Whether it is a reserve of a number that a trace's record has no room for."""
    return call[0] == "reserve" and call[1] >= 2**32


def record_of(call):
    """As the oracle takes it."""
    name, *passed = call
    if name == "sizes":
        return trace.record(original.SIZES)
    if name == "reserve_array":
        return trace.record(original.RESERVE_ARRAY, struct.pack("<I", *passed))
    if name == "collect":
        return trace.record(original.COLLECT, trace.value(*passed))
    if wide(call):
        return trace.record(trace.RESERVE, struct.pack("<Q", *passed))
    return getattr(trace, name)(*passed)


def sizes_text(size, entries, room):
    return f"array {size}, entries {entries} of {room}"


def reply_text(kind, body):
    if kind in ENDS:
        return ENDS[kind] + body.decode()
    if kind == trace.FAULT:
        return f"fault {body[0]}"
    kind -= trace.REPLY
    if kind == original.SIZES:
        return sizes_text(*struct.unpack("<QQQ", body))
    if kind == trace.LENGTH:
        return word_of((INTEGER, *struct.unpack("<Q", body)))
    if kind == trace.GET:
        return word_of(*trace.values(body))
    if kind == trace.NEXT:
        return ("", "last", "not found")[body[0]] or word_of(trace.values(body[1:])[0])
    return f"refused {body[0]}" if body[0] else "done"


def by_original(sequences, memory=None):
    """The original's replies to sequences, each with its hash seed; after a panic there are no more, and an abort is alone."""
    outs = original.replies([(seed, b"".join(map(record_of, calls))) for seed, calls in sequences], memory)
    return [[reply_text(*reply) for reply in trace.records(out)] for out in outs]


def written(program, given, memory):
    """What one of our programs writes for an input."""
    return subprocess.run(program, input=given, stdout=subprocess.PIPE, check=True, preexec_fn=original.within(memory)).stdout


def by_trace(program, calls, memory):
    """The trace program's replies. There is no reserve_array here, since the array's room is lent, and no object is collected, since the host owns them: these are passed over."""
    given = b"".join(record_of(call) for call in calls if call[0] not in ONLY_THERE)
    found = (reply_text(*reply) for reply in trace.records(written(program, given, memory)))
    return ["no such call" if call[0] in ONLY_THERE else next(found, "no reply") for call in calls]


def by_limits(limits, calls, memory):
    """What the program `limits` writes of the last of these calls, with the trace program's room lent: the number it answers, and A, M and E after it."""
    words = [FRESH, *lent(trace.ROOM, trace.ENTRY_ROOM), 0]
    for name, *passed in calls:
        flat = [trace.KINDS[name]] + [word for part in passed for word in (part if isinstance(part, tuple) else (part,))]
        words += flat + [0] * (FIELDS - len(flat))
    line = written(limits, struct.pack(f"<{len(words)}Q", *words), memory).decode().splitlines()[-1]
    answer, _, record = line.rpartition(": ")[2].rpartition(", ")
    return int(answer.split()[0]), record.split()


def by_ours(program, limits, calls, memory=None):
    """Our replies. What no trace has, sizes or a reserve of 2^32 or more, is asked of the program `limits`, and only where it comes last."""
    *before, last = calls
    if last == ("sizes",):
        _, (size, allowance, count) = by_limits(limits, before, memory)
        return by_trace(program, before, memory) + [sizes_text(size, count, allowance)]
    if wide(last):
        refusal, _ = by_limits(limits, calls, memory)
        return by_trace(program, before, memory) + [reply_text(trace.REPLY + trace.RESERVE, bytes([refusal]))]
    return by_trace(program, calls, memory)
