"""Makes the files of crates/replay/data: traces with their answers, by tests/reading and, in one file, by the original; and the lines that the
program must write of them. Prints what is in each."""

import struct
import subprocess
import sys
from collections import Counter
from pathlib import Path

sys.dont_write_bytecode = True  # nothing but the files is to be left behind
TESTS = Path(__file__).resolve().parents[1]
sys.path.append(str(TESTS))

import faults
import sample
import whole
from compare import original
from reading import trace

REPLAY = TESTS.parent / "crates/replay"
DATA = REPLAY / "data"
FILES = ("whole", "faults", "random", "original")
MOST_INPUT, MOST_OUTPUT, MOST_FILE = 65536, 196608, 393216


def read(inputs):
    """Inputs with what the reading answers. Prints what they are of, which comes before each."""
    inputs = list(inputs)
    for what, count in Counter(what for what, _ in inputs).items():
        print(f"{count:5} {what}")
    return [(given, trace.answer(given)) for _, given in inputs]


def packed(given, out):
    assert len(given) <= MOST_INPUT and len(out) <= MOST_OUTPUT, "a trace is too long"
    return struct.pack("<I", len(given)) + given + struct.pack("<I", len(out)) + out


def summed(traces):
    """How often each sort of reply is there; by its first byte where that is a number."""
    sorts = Counter()
    for kind, body in (reply for _, out in traces for reply in trace.records(out)):
        name = trace.REPLIES[kind]
        sorts[name if name in ("get", "length") else f"{name} {body[0]}"] += 1
    return ", ".join(f"{count} {sort}" for sort, count in sorted(sorts.items()))


def write(name, traces):
    data = b"".join(packed(*one) for one in traces)
    assert len(data) <= MOST_FILE, f"{name} is too long: {len(data)} bytes"
    (DATA / name).write_bytes(data)
    print(f"{name}: {len(traces)} traces, {len(data)} bytes: {summed(traces)}")


def traces_in(data):
    """How many traces a file has."""
    count, at = 0, 0
    while at < len(data):
        for _ in ("input", "output"):
            (size,) = struct.unpack_from("<I", data, at)
            at += 4 + size
        count += 1
    return count


def write_lines():
    lines = [f"{name}: {traces_in((DATA / name).read_bytes())} traces, 0 answered otherwise\n" for name in FILES]
    (REPLAY / "stdout").write_text("".join(lines))


def main():
    DATA.mkdir(parents=True, exist_ok=True)
    write("whole", read(whole.inputs(MOST_INPUT)))
    write("faults", read(faults.inputs()))
    write("random", read(sample.random()))
    if subprocess.run([original.BUILD]).returncode == 0:
        write("original", sample.by_original())
    else:
        print("original: left as it is, since the original is not there to answer")
    write_lines()


main()
