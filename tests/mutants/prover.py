"""A copy of the repository in which mutants are put before the prover, and what its log says of each."""

import os
import re
import shutil
import signal
import subprocess
import tempfile
from contextlib import contextmanager
from pathlib import Path

from mutants.source import functions, is_constant, path_of

SECONDS = 300  # for one mutant; no verdict after that
FACT, SHAPE, REJECTED, SURVIVED, UNDECIDED = "at a fact", "by shape only", "not compiled", "survived", "no verdict"
CLASSES = (FACT, SHAPE, REJECTED, SURVIVED, UNDECIDED)

ERROR = re.compile(r"^\S*?([\w/.-]+\.(?:rt|antt)):(\d+):\d+: error(?:\[[\w-]+\])?: (.*)", re.M)
# an error that only follows from another one
FOLLOWS = re.compile(r"was not admitted")
# the answers do not fit what the function now consists of: other goals, other locals of a loop, another number of ways through
MISFIT = re.compile(
    r"that can be named from here|\.Goals` has no|is already declared in this block|has no field|is not in scope"
    r"|needs a function \(or path\) type to bind"
)
# a goal that has no answer, for which the tactics find no proof; the second form says that it is false of some values
UNPROVED = re.compile(r"^note: src/(\S+):(\d+):\d+: (it is not proved that .*)", re.M)
FALSE = re.compile(r"allow values at which this goal is false")
UNCOVERED = re.compile(r"^fn \w+::([\w:]+): not proved; (the borrow checker does not cover .*)", re.M)
# an answer to a goal that has another name now, since goals are named by the tests on the way: the likeliest name is told first
RENAMED = re.compile(r"^help: `Goals` has no `([^`]+)`; rattle asks for `([^`]+)`", re.M)
# an answer that cites a call by the method's name, where another method is called now
MISSING = re.compile(r"has no field `([a-z_]+)(?:-[\w-]+)?`")
TESTS = re.compile(r"(?:then|else)-((?:(?!-(?:then|else)-)[^+])+)")


def verdict(status, log):
    """The class of all that was changed, and the error that says so."""
    if status == 0 and re.search(r"^logic=proved", log, re.M):
        return SURVIVED, ""
    rejected = [said for file, _, said in ERROR.findall(log) if file.endswith(".rt")] + [said for _, said in UNCOVERED.findall(log)]
    proofs = [said for file, _, said in ERROR.findall(log) if file.endswith(".antt")]
    return judged(rejected, proofs, [said for _, _, said in UNPROVED.findall(log)])


def verdict_of(m, owner, log):
    """The same of one changed function among others, by the errors in its own proof and its goals: no other proof looks into its body. `owner` tells the
    function at a line of a file."""
    path = path_of(m.file, m.function)
    proofs = [said for file, _, said in ERROR.findall(log) if f"proofs/{folder(path)}/" in file]
    goals = [said for file, line, said in UNPROVED.findall(log) if file == m.file and owner(file, int(line)) == m.function]
    return judged([said for name, said in UNCOVERED.findall(log) if name == path], proofs, goals)


def folder(path):
    """Where the proof of a function lies under proofs/, by its path in what the check says."""
    return path.replace("::", "/")


def judged(rejected, proofs, goals):
    """Where answers do not fit, a goal without one says nothing, unless it is false."""
    if rejected:
        return REJECTED, rejected[0]
    own = [said for said in proofs if not FOLLOWS.search(said)]
    misfits = [said for said in own if MISFIT.search(said)]
    facts = [said for said in own if not MISFIT.search(said)] + [said for said in goals if not misfits or FALSE.search(said)]
    if facts:
        return FACT, facts[0]
    return (SHAPE, misfits[0]) if misfits else (UNDECIDED, "")


def rt(crate, seconds=None):
    """The status and the log of `rt check` in a crate's folder, by one process; status 3 where it has not ended in time."""
    command = ["rt", "check", "--jobs", "1"]
    started = subprocess.Popen(command, cwd=crate, stdin=subprocess.DEVNULL, stdout=subprocess.PIPE, stderr=subprocess.STDOUT, start_new_session=True)
    try:
        log, _ = started.communicate(timeout=seconds)
    except subprocess.TimeoutExpired:
        os.killpg(started.pid, signal.SIGKILL)
        started.communicate()
        return 3, f"no end within {seconds} s"
    return started.returncode, log.decode(errors="replace")


def turned(text, pairs):
    """Answers with the names of these goals, and of the tests in them, turned to those that are asked for now."""
    for old, new in pairs:
        text = re.sub(rf"(?<![\w-]){re.escape(old)}(?![\w-])", lambda _: new, text)
        for one, other in zip(TESTS.findall(old), TESTS.findall(new)):
            if one != other:
                text = re.sub(rf"(?<![\w])((?:if|then|else)-){re.escape(one)}(?=[^\w-]|-(?:then|else)-|$)", lambda m: m[1] + other, text)
    return text


def called(text, names, new):
    """Answers with these methods' calls turned to the one that is called now."""
    for old in names:
        text = re.sub(rf"(?<=\.){old}(?!\w)", new, text)
    return text


class Copy:
    """The copy. After each mutant its source is as it was; what a check keeps beside it may stay, since it goes by the text that was checked."""

    def __init__(self, root):
        self.folder = tempfile.TemporaryDirectory(prefix="mutants-")
        self.root = Path(self.folder.name, "repository")
        shutil.copytree(root / "crates", self.root / "crates", ignore=shutil.ignore_patterns("incremental"))
        shutil.copy(root / "crates.txt", self.root)

    def crate(self, name):
        return self.root / "crates" / name

    def ready(self, crate):
        """Proves a crate as it is."""
        status, log = rt(self.crate(crate))
        if verdict(status, log)[0] != SURVIVED:
            raise SystemExit(f"mutants: {crate} is not proved as it is:\n{log[-2000:]}")

    def tried(self, crate, batch, users):
        """What the prover says of each mutant of a batch, at most one a function: its class, the error and the log. Those whose proofs have no
        error of their own, or answers that do not fit, are asked about alone; one in a constant that its crate takes is put before the crates that
        use it, too."""
        with self.changed(crate, batch):
            status, log = rt(self.crate(crate), SECONDS)
            if len(batch) == 1:
                return {batch[0]: self.alone(crate, batch[0], status, log, users)}
            owner = self.owner(crate)
            found = {m: (*verdict_of(m, owner, log), log) for m in batch}
        found.update({m: (REJECTED, said, log) for m, said in self.rejected(crate, batch, log)})
        left = [m for m in batch if found[m][0] in (UNDECIDED, SHAPE)]
        together = len(left) < len(batch) and not re.search(r"^logic=", log, re.M)  # the front end saw no further than what it rejected
        for rest in [left] if left and together else [[m] for m in left]:
            found.update(self.tried(crate, rest, users))
        return found

    def alone(self, crate, m, status, log, users):
        """What the prover says of one mutant, with its answers under the names that are asked for now where they have others."""
        pairs, names = RENAMED.findall(log), set(MISSING.findall(log)) if m.rule == "method" else set()
        if (pairs or names) and verdict(status, log)[0] == SHAPE:
            for path in (self.crate(crate) / "proofs" / folder(path_of(m.file, m.function))).glob("*.antt"):
                path.write_text(called(turned(path.read_text(), pairs), names, m.new))
            status, log = rt(self.crate(crate), SECONDS)
        if verdict(status, log)[0] == SURVIVED and is_constant(m.function):
            status, log = self.used(users)
        return (*verdict(status, log), log)

    def owner(self, crate):
        """Tells the function at a line of a file of the crate as it is now: the last one that begins before it."""

        def told(file, line):
            text, name = (self.crate(crate) / "src" / file).read_text(), None
            for f in functions(text):
                if text.count("\n", 0, f.start) < line:
                    name = f.name
            return name

        return told

    def rejected(self, crate, batch, log):
        """The mutants at which the front end has an error."""
        lines = [(int(line), said) for file, line, said in ERROR.findall(log) if file.endswith(".rt")]
        for m in batch:
            text = Path(self.crate(crate), "src", m.file).read_text()
            first, last = text.count("\n", 0, m.start) + 1, text.count("\n", 0, m.end) + 1
            yield from [(m, said) for line, said in lines if first <= line <= last][:1]

    def tried_edit(self, crate, edit):
        """What the prover says of the crate with an edit, a file in the form of those under must-fail/."""
        with self.restored(crate):
            self.apply(crate, edit)
            status, log = rt(self.crate(crate), SECONDS)
        return (*verdict(status, log), log)

    def apply(self, crate, edit):
        """A 'file:' line holds for the 'old:' and 'new:' pairs after it."""
        for line in edit.read_text().splitlines():
            kind, _, said = line.partition(": ")
            if kind == "file":
                path = self.crate(crate) / said
            elif kind == "old":
                old = said
            elif kind == "new":
                text = path.read_text()
                if text.count(old) != 1:
                    raise SystemExit(f"mutants: {edit}: an 'old:' text stands {text.count(old)} times in {path.name}")
                path.write_text(text.replace(old, said))

    @contextmanager
    def changed(self, crate, batch):
        """The crate with the mutants in it, and after that as it was."""
        folder = self.crate(crate) / "src"
        with self.restored(crate):
            for m in sorted(batch, key=lambda m: m.start, reverse=True):
                text = (folder / m.file).read_text()
                (folder / m.file).write_text(text[: m.start] + m.new + text[m.end :])
            yield

    @contextmanager
    def restored(self, crate):
        """Afterwards the crate is as it was."""
        before = {path: path.read_text() for part in ("src", "specs", "proofs") for path in (self.crate(crate) / part).rglob("*.*") if path.is_file()}
        try:
            yield
        finally:
            for path, text in before.items():
                if path.read_text() != text:
                    path.write_text(text)

    def used(self, users):
        """The first refusal among the crates that use a changed one, proved in a copy of the copy."""
        with tempfile.TemporaryDirectory(prefix="mutants-") as folder:
            other = Path(folder, "repository")
            shutil.copytree(self.root, other)
            for user in users:
                status, log = rt(other / "crates" / user)
                if status:
                    break
            return status, log
