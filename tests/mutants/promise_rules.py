"""The mutants of definitions that are promises and do not compute: records, data types and abbreviations of statements. One relation, number,
name or field of theirs at a time becomes another."""

import re

from mutants.prover import ERROR, SECONDS, SURVIVED, rt, verdict
from mutants.body import Mutant
from mutants.terms import with_names

# the modules that declare promises; in those that compute, these alone
MODULES = {"Entries": ("distinct",), "Growth": ("Passes",), "WellFormed": None, "Manual": None, "Means": None, "Refused": None, "Settles": None}
NAMES = {"Rattle.std.specs.Prelude": ("true", "false", "◌≤◌", "◌<◌")}  # what a change may bring in
UNTYPED = "no definition"
# a declaration of statements: a record or a data type with its lines, or a definition that gives a type, with its clauses
DECLARED = re.compile(
    r"^pub (?:record|data) (\w+) .*where\n(?:(?:  .*|)\n)*(?:  .*\n?)"
    r"|^(?:abbrev|unfoldable) pub (\w+) : .*Type 0\n(?:(?!--|pub|abbrev|unfoldable|use)\S.*\n?)+",
    re.M,
)
BINDER = re.compile(r"[({]((?:\w+ )+): (\w+(?: \w+)?)[)}]")
WORD = re.compile(r"(?<![\w.·{])(?:\d+|[A-Za-z]\w*|≤|<|⊎|×)(?![\w·])|(?<=[\w)])\.[a-z]\w*")
OTHERS = {"≤": ["<"], "<": ["≤"], "true": ["false"], "false": ["true"], "⊎": ["×"], "suc": [""], "not": [""]}
FIELDS = [[".array_room", ".entry_room", ".classes"], [".key", ".value"], [".kind", ".payload"]]


def binders(text):
    """The names that a declaration binds, by type."""
    found = {}
    for names, kind in BINDER.findall(text):
        found.setdefault(kind, []).extend(n for n in names.split() if n not in found.get(kind, []))
    return found


def others(word, named):
    """What stands in place of a word."""
    if word.isdigit():
        return [str(n) for n in (int(word) + 1, int(word) - 1) if n >= 0]
    for ring in FIELDS:
        if word in ring:
            return [f for f in ring if f != word]
    same = [n for names in named.values() if word in names for n in names if n != word]
    return OTHERS.get(word, []) + same


def promises(file, text, wanted=None):
    """The mutants of the statements that a module declares."""
    found = []
    for m in DECLARED.finditer(text):
        name, body = m.group(1) or m.group(2), m.group()
        if wanted and name not in wanted:
            continue
        head = body.index("\n")
        for w in WORD.finditer(body, head):
            start, end = body.rfind("\n", 0, w.start()) + 1, (body + "\n").index("\n", w.end())
            line, named = body[start : w.start()], binders(body[:head] + body[start:end])
            if re.fullmatch(r"\s*(pub )?", line) or re.search(r"[({](?:\w+ )*$", line) and re.match(r"(?: \w+)* : ", body[w.end() :]):
                continue  # the name of a field or of a binder
            for new in others(w.group(), named):
                found.append(Mutant(file, name, "statement", m.start() + w.start(), m.start() + w.end(), new))
    return found


def mutants(root):
    specs = root / "crates/model/specs"
    return [m for name, wanted in MODULES.items() for m in promises(name, (specs / f"{name}.antt").read_text(), wanted)]


def asked(copy, m, users):
    """What the prover says of the model with a promise changed, and where that is proved, of the crates that use it; UNTYPED where it is no
    definition."""
    path = copy.root / f"crates/model/specs/{m.file}.antt"
    with copy.restored("model"):
        text = path.read_text()
        path.write_text(with_names(text[: m.start] + m.new + text[m.end :], NAMES))
        status, log = rt(copy.crate("model"), SECONDS)
        if any("specs/" in file for file, _, _ in ERROR.findall(log)):
            return UNTYPED, ERROR.findall(log)[0][2]
        what, why = verdict(status, log)
        if what == SURVIVED:
            what, why = verdict(*copy.used(users))
    return what, why
