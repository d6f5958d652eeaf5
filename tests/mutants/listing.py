"""Lists of mutants that have a reason: blocks of five lines, one a field."""

from collections import Counter, namedtuple

FIELDS = ("file", "fn", "old", "new", "why")

Change = namedtuple("Change", "file fn old new")


def change_of(text, m, path):
    """A mutant as its lines before and after, each in one line, and the number of the first."""
    first, last = text.rfind("\n", 0, m.start) + 1, text.find("\n", m.end)
    old, new = text[first:last], text[first : m.start] + m.new + text[m.end : last]
    return Change(path, m.function, " ".join(old.split()), " ".join(new.split())), text.count("\n", 0, m.start) + 1


def listed(path):
    found = Counter()
    for block in path.read_text().split("\n\n"):
        lines = [line for line in block.splitlines() if line and not line.startswith("#")]
        if not lines:
            continue
        fields = dict(line.split(": ", 1) for line in lines)
        if tuple(fields) != FIELDS:
            raise SystemExit(f"mutants: {path.name}: a block has not the fields {', '.join(FIELDS)}:\n{block}")
        found[Change(*(fields[f] for f in FIELDS[:4]))] += 1
    return found


def agree(survivors, known, name):
    """Whether the survivors are those of the list; what is wrong is printed."""
    for one in survivors - known:
        print(f"survived, and {name} has no reason for it: {one.file} {one.fn}: {one.old} -> {one.new}")
    for one in known - survivors:
        print(f"in {name}, and it did not survive: {one.file} {one.fn}: {one.old} -> {one.new}")
    return not survivors - known and not known - survivors


def table(first, names, classes, counts):
    """A row for each name and one for all."""
    print(f"| {first} | mutants | " + " | ".join(classes) + " |\n|---|" + "---|" * (len(classes) + 1))
    for name in (*names, "all"):
        row = [sum(counts[n, k] for n in (names if name == "all" else [name])) for k in classes]
        print(f"| {name} | {sum(row)} | " + " | ".join(map(str, row)) + " |")
