"""The mutation pass: every mutant of the named crates before the prover, a table of what became of them, and the survivors held to survivors.txt;
and the wrong programs and definitions under edits/, each of which must be refused at a fact. tests/mutants/run runs it; with --list it only
says what the mutants are, with --edits it tries the edits alone, and with --definitions it changes the model's definitions instead."""

import sys
import time
from collections import Counter
from itertools import zip_longest
from pathlib import Path

sys.dont_write_bytecode = True
HERE = Path(__file__).resolve().parent
ROOT = HERE.parents[1]
sys.path.append(str(HERE.parent))

from mutants import definitions
from mutants.listing import agree, change_of, listed, table
from mutants.prover import CLASSES, FACT, SURVIVED, UNDECIDED, Copy
from mutants.rules import mutants
from mutants.source import Names, is_constant

CRATES = ("growth", "index", "reads", "rehash", "writes", "store", "lent", "key", "value")
USERS = ("store", "reads", "writes")  # leaves first; all other crates with a constant in use are below these


def change(crate, m):
    path = f"crates/{crate}/src/{m.file}"
    return change_of((ROOT / path).read_text(), m, path)


def batches(found):
    """The mutants in batches with at most one a function; a constant, which many functions may use, is alone."""
    queues = {}
    for m in found:
        if is_constant(m.function):
            yield [m]
        else:
            queues.setdefault((m.file, m.function), []).append(m)
    for row in zip_longest(*queues.values()):
        yield [m for m in row if m]


def edits_tried(copy, crate):
    """Every edit of a crate before the prover: how many, and those that were not refused at a fact."""
    paths = sorted((HERE / "edits" / crate).glob("*.edit"))
    taken = []
    for path in paths:
        what, why, _ = copy.tried_edit(crate, path)
        print(f"{crate}: {path.stem}: {what}: {why[:100]}", flush=True)
        if what != FACT:
            taken.append(f"{crate}/{path.stem}: {what}")
    return len(paths), taken


def tried(copy, crate, found, counts, survivors):
    """Every mutant of a crate before the prover; what it said of each, in order, goes to target/mutants."""
    began, said = time.time(), {}
    for batch in batches(found):
        said.update(copy.tried(crate, batch, USERS))
        print(f"{crate}: {len(said)} of {len(found)}, {time.time() - began:.0f} s", flush=True)
    logs = ROOT / "target/mutants" / crate
    logs.mkdir(parents=True, exist_ok=True)
    lines = []
    for n, m in enumerate(found, 1):
        what, why, log = said[m]
        one, line = change(crate, m)
        counts[crate, what] += 1
        survivors[one] += what == SURVIVED
        lines.append("\t".join((str(n), what, f"{one.file}:{line}", one.fn, m.rule, one.old, one.new, why[:200])))
        (logs / f"{n}.log").write_text(log)
        if what in (SURVIVED, UNDECIDED):
            print(f"{what}: {one.file}:{line} {one.fn}\n    old: {one.old}\n    new: {one.new}", flush=True)
    (logs / "all.txt").write_text("\n".join(lines) + "\n")


def judged(crates, counts, survivors):
    """Whether the survivors are those of the list."""
    known = Counter({c: n for c, n in listed(HERE / "survivors.txt").items() if c.file.split("/")[1] in crates})
    undecided = sum(counts[c, UNDECIDED] for c in crates)
    total, left = sum(counts.values()), sum(survivors.values())
    good = agree(survivors, known, "survivors.txt") and not undecided
    print(f"{total} mutants, {left} survived, {undecided} without a verdict: {'as survivors.txt has it' if good else 'FAILED'}")
    return good


def told(crates, names):
    for crate in crates:
        for m in mutants(ROOT, crate, names):
            one, line = change(crate, m)
            print(f"{one.file}:{line} {one.fn}: {one.old} -> {one.new}")


def main(words):
    crates = [w for w in words if not w.startswith("--")] or list(CRATES)
    if "--definitions" in words:
        return definitions.run(ROOT, "--list" in words)
    names = Names(ROOT / "crates")
    if "--list" in words:
        told(crates, names)
        return 0
    counts, survivors, edits, taken = Counter(), Counter(), 0, []
    for crate in crates:
        copy = Copy(ROOT)
        copy.ready(crate)
        if "--edits" not in words:
            tried(copy, crate, mutants(ROOT, crate, names), counts, survivors)
        number, not_refused = edits_tried(copy, crate)
        edits, taken = edits + number, taken + not_refused
    for one in taken:
        print(f"an edit is not refused at a fact: {one}")
    print(f"{edits} edits, {edits - len(taken)} refused at a fact")
    if "--edits" in words:
        return 1 if taken else 0
    table("crate", crates, CLASSES, counts)
    return 0 if judged(crates, counts, survivors) and not taken else 1


sys.exit(main(sys.argv[1:]))
