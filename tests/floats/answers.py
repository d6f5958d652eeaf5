"""Prints what crates/floats/stdout must hold, by the reading of 01 on the patterns of crates/floats/src/main.rt."""

import re
import sys
from pathlib import Path

sys.dont_write_bytecode = True
TESTS = Path(__file__).resolve().parents[1]
sys.path.append(str(TESTS))

from reading.rules import INTEGER, NUMBER, array_index, canonical

SOURCE = TESTS.parent / "crates/floats/src/main.rt"
NAMES = {INTEGER: "Integer", NUMBER: "Number"}


def patterns(source):
    """The table's words, in order, and no fewer than it declares."""
    count, table = re.search(r"const PATTERNS: \[u64; (\d+)\] = \[(.*?)\];", source, re.S).groups()
    table = re.sub(r"//.*", "", table)
    words = [int(word.replace("_", ""), 16) for word in re.findall(r"0x[0-9a-f_]+", table)]
    assert len(words) == int(count), "the table does not hold as many words as it declares"
    return words


def line(bits):
    key = canonical((NUMBER, bits))
    if key is None:
        return f"{bits:016x} refused 2"
    shown = f"{bits:016x} {NAMES[key[0]]} {key[1]:016x} index"
    index = array_index(key)
    return f"{shown} none" if index is None else f"{shown} {index:016x} class {index.bit_length()}"


for bits in patterns(SOURCE.read_text()):
    print(line(bits))
