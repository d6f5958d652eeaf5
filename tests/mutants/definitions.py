"""The mutants of the table's definitions (crates/model/specs), held against its rows: does the table of rows compute to false with the change? A
proof that breaks would show little, since a proof can be written anew; a row that comes out false tells the changed definition from the one meant.
tests/mutants/run --definitions runs it."""

import re
import shutil
import tempfile
import time
from collections import Counter
from pathlib import Path

from mutants import promise_rules
from mutants.listing import agree, change_of, listed, table
from mutants.prover import ERROR, FACT, SHAPE, SURVIVED, UNDECIDED, Copy, rt
from mutants.promise_rules import UNTYPED
from mutants.body import Mutant
from mutants.term_rules import Changes
from mutants.terms import Definitions, with_names

MODULES = ("Entries", "Table", "Growth", "Calls", "Length")  # leaves first; the rows use all of them
TOGETHER = 40  # mutants a run of the prover
USERS = ("walk", "original", "store")
ROW, LEFT = "by a row", "by no row"
UNCHANGED = Mutant("Entries", "", "none", 0, 0, "")  # in each batch, so that a claim which was not looked at would show
# what a change may bring in
NAMES = {
    "Rattle.std.specs.Prelude": tuple("None true false not cond ◌&&◌ ◌||◌ [] suc pred ◌+◌ ◌-◌ ◌*◌ min max leb ltb".split()),
    "Rattle.value.specs.Same": ("nil",),
    "Rattle.model.specs.Entries": ("last",),
}


class Variants:
    """The definitions and the rows alone, in a temporary folder: for each mutant of a batch a copy of the changed module and of those that use it,
    and the claim that the rows over these compute to false, or to true."""

    def __init__(self, root):
        self.folder = tempfile.TemporaryDirectory(prefix="definitions-")
        self.root = Path(self.folder.name, "repository")
        self.model = self.root / "crates/model"
        for crate in ("value", "key"):
            shutil.copytree(root / "crates" / crate, self.root / "crates" / crate, ignore=shutil.ignore_patterns("must-fail", "incremental"))
        lines = (root / "crates.txt").read_text().splitlines(True)
        (self.root / "crates.txt").write_text("".join(line for line in lines if re.match("(value|key|model):", line)))
        (self.model / "src").mkdir(parents=True)
        shutil.copy(root / "crates/model/src/lib.rt", self.model / "src")
        specs = root / "crates/model/specs"
        self.texts = {name: (specs / f"{name}.antt").read_text() for name in (*MODULES, "Rows")}
        self.claim = (root / "crates/model/proofs/Rows.antt").read_text()

    def mutants(self):
        definitions = Definitions(self.texts[name] for name in MODULES)
        return [m for name in MODULES for m in Changes(definitions, name, self.texts[name]).all()]

    def written(self, batch, answer):
        """The modules of a batch, numbered by its mutants, and the claims."""
        for part in ("specs", "proofs"):
            shutil.rmtree(self.model / part, ignore_errors=True)
            (self.model / part).mkdir()
        names = list(self.texts)
        own = [f"pub mod {name}\n" for name in names]
        for name, text in self.texts.items():
            (self.model / f"specs/{name}.antt").write_text(text)
        claims = []
        for n, m in batch.items():
            before = self.texts[m.file]
            texts = {**self.texts, m.file: with_names(before[: m.start] + m.new + before[m.end :], NAMES)}
            copied = names[names.index(m.file) :]
            moved = re.compile(rf"model\.specs\.({'|'.join(copied)})\.")
            for name in copied:
                (self.model / f"specs/{name}{n}.antt").write_text(moved.sub(rf"model.specs.\g<1>{n}.", texts[name]))
                own.append(f"pub mod {name}{n}\n")
            claim = moved.sub(rf"model.specs.\g<1>{n}.", self.claim).replace("true", answer)
            (self.model / f"proofs/Rows{n}.antt").write_text(claim)
            claims.append(f"pub mod Rows{n}\n")
        (self.model / "specs/Lib.antt").write_text("".join(own))
        (self.model / "proofs/Lib.antt").write_text("".join(claims))

    def refused(self, batch, answer):
        """The mutants of a batch whose claim was refused, with the files and words of the errors."""
        self.written(batch, answer)
        _, log = rt(self.model)
        if not re.search(r"^logic=|stopped at the step limit|ran out of the steps", log, re.M):
            raise SystemExit(f"definitions: the prover gave no verdict:\n{log[-2000:]}")
        found = {}
        for file, _, said in ERROR.findall(log):
            number = re.search(r"(specs|proofs)/[A-Za-z]+(\d+)\.antt$", file)
            if not number:
                raise SystemExit(f"definitions: {file}: {said}")
            found.setdefault(int(number.group(2)), []).append((number.group(1), said))
        return found

    def tried(self, batch):
        """What the prover says of each mutant of a batch, by its number."""
        false = self.refused(batch, "false")
        said = {n: (ROW, "") for n in batch}
        said.update({n: (UNTYPED if errors[0][0] == "specs" else UNDECIDED, errors[0][1]) for n, errors in false.items()})
        left = {n: batch[n] for n in false if said[n][0] == UNDECIDED and "step limit" not in said[n][1]}
        if left:
            true = self.refused(left, "true")
            said.update({n: (LEFT, "") for n in left if n not in true})
        return said


def computed(root):
    """Every mutant of what computes, before the rows."""
    variants, said, began = Variants(root), {}, time.time()
    found = dict(enumerate(variants.mutants(), 1))
    for first in range(1, len(found) + 1, TOGETHER):
        batch = {n: found[n] for n in range(first, min(first + TOGETHER, len(found) + 1))}
        answers = variants.tried({0: UNCHANGED, **batch})
        if answers[0][0] != LEFT:
            raise SystemExit(f"definitions: the rows do not hold as they are: {answers[0]}")
        said.update((found[n], answers[n]) for n in batch)
        print(f"definitions: {len(said)} of {len(found)}, {time.time() - began:.0f} s", flush=True)
    return said


def promised(root):
    """Every mutant of a promise, before the model's proofs and those that use it."""
    copy, said, found, began = Copy(root), {}, promise_rules.mutants(root), time.time()
    copy.ready("model")
    for m in found:
        said[m] = promise_rules.asked(copy, m, USERS)
        print(f"promises: {len(said)} of {len(found)}, {time.time() - began:.0f} s", flush=True)
    return said


def gathered(root, said, logs):
    """The numbers by module and class, and the mutants that were not refused; a line for each mutant goes to target/mutants."""
    counts, left, lines = Counter(), Counter(), []
    for m, (what, why) in said.items():
        path = f"crates/model/specs/{m.file}.antt"
        one, line = change_of((root / path).read_text(), m, path)
        counts[m.file, what] += 1
        left[one] += what in (LEFT, SURVIVED, UNDECIDED)
        lines.append("\t".join((what, f"{path}:{line}", m.function, m.rule, one.old, one.new, why[:200])))
    logs.parent.mkdir(parents=True, exist_ok=True)
    logs.write_text("\n".join(lines) + "\n")
    return counts, left


def run(root, only_list):
    """The pass; with `only_list` it only says what the mutants are."""
    if only_list:
        for m in Variants(root).mutants() + promise_rules.mutants(root):
            path = f"crates/model/specs/{m.file}.antt"
            one, line = change_of((root / path).read_text(), m, path)
            print(f"{path}:{line} {m.function}: {one.old} -> {one.new}")
        return 0
    logs = root / "target/mutants/definitions"
    by_row, left = gathered(root, computed(root), logs / "computed.txt")
    by_proof, survived = gathered(root, promised(root), logs / "promises.txt")
    table("module", MODULES, (ROW, UNTYPED, LEFT, UNDECIDED), by_row)
    table("module", list(promise_rules.MODULES), (FACT, SHAPE, UNTYPED, SURVIVED, UNDECIDED), by_proof)
    good = agree(left + survived, listed(Path(__file__).with_name("definitions.txt")), "definitions.txt")
    print(f"{sum((left + survived).values())} mutants not refused: {'as definitions.txt has it' if good else 'FAILED'}")
    return 0 if good else 1
