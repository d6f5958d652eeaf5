"""Replays docs/DIFFERENCES.md, which is read as it stands: each row's input by the original and by our programs, held to the replies in the row and to what manual.py makes of them. tests/compare/differences runs it."""

import re
import sys
from dataclasses import dataclass
from pathlib import Path

sys.dont_write_bytecode = True
TESTS = Path(__file__).resolve().parents[1]
sys.path.append(str(TESTS))

from compare.calls import by_original, by_ours, calls_of
from compare.manual import verdict

DOCUMENT = TESTS.parent / "docs/DIFFERENCES.md"
COLUMNS = ["Difference", "Input", "The original", "The manual", "Here"]
CODE = re.compile(r"`([^`]+)`")
SEED = re.compile(r"hash seed (\d+)")
MEMORY = re.compile(r"(\d+) GiB of memory")
VARIES = "goes by the hash seed"
SEEDS = range(256)


@dataclass
class Row:
    name: str
    text: str
    seed: int
    memory: int | None  # the bytes that there are; None: no limit is set
    theirs: str  # the last reply of the original
    varies: bool  # whether that goes by the hash seed
    manual: str  # the whole cell, which begins with the verdict
    ours: str

    def calls(self):
        return calls_of(self.text)


def cells(line):
    return [cell.strip() for cell in line.strip("|\n").split("|")]


def row_of(line):
    """Of a cell its first code is taken; of the input's the hash seed too, 0 where none is said, and the memory."""
    name, given, theirs, manual, ours = cells(line)
    seed, memory = SEED.search(given), MEMORY.search(given)
    first = [CODE.search(cell)[1] for cell in (given, theirs, ours)]
    return Row(name, first[0], int(seed[1]) if seed else 0, int(memory[1]) << 30 if memory else None, first[1], VARIES in theirs, manual, first[2])


def rows():
    """Of every table with these columns."""
    found, within = [], False
    for line in DOCUMENT.read_text().splitlines():
        if not line.startswith("|"):
            within = False
        elif cells(line) == COLUMNS:
            within = True
        elif within and not line.startswith("|---"):
            found.append(row_of(line))
    return found


def wrong(row, calls, theirs, ours):
    """Each thing that is not as the row says."""
    if len(theirs) != len(calls):
        return [f"the original ends after {len(theirs)} of {len(calls)} calls: {theirs[-1]}"]
    told = [f"the original answers {theirs[-1]}"] * (theirs[-1] != row.theirs)
    told += [f"here the answer is {ours[-1]}"] * (ours[-1] != row.ours)
    if (len({str(replies[-1:]) for replies in by_original([(seed, calls) for seed in SEEDS], row.memory)}) > 1) != row.varies:
        told.append(f"whether it {VARIES} is not as said")
    judged = verdict(calls, theirs, ours)
    return told + [f"the manual {judged}"] * (not row.manual.startswith(judged))


def main():
    *program, limits = sys.argv[1:]
    listed, failed = rows(), 0
    for row in listed:
        (theirs,) = by_original([(row.seed, row.calls())], row.memory)
        ours = by_ours(program, limits, row.calls(), row.memory)
        told = wrong(row, row.calls(), theirs, ours)
        failed += bool(told)
        print(f"{row.name}: {row.text}: original {theirs[-1]}, here {ours[-1]}: {'ok' if not told else 'NOT AS LISTED: ' + '; '.join(told)}")
    print(f"{len(listed) - failed} of {len(listed)} differences of docs/DIFFERENCES.md seen again")
    sys.exit(1 if failed or not listed else 0)


if __name__ == "__main__":
    main()
