"""The mutants of definitions that compute: one part of a term at a time becomes another of its type. A definition that a reader could take for
the one meant differs from it by such a part."""

from itertools import combinations

from mutants.body import Mutant

OPERATORS = {"+": ["-"], "-": ["+"], "*": ["+"], "/": ["*"], "^": ["*"], "&&": ["||"], "||": ["&&"]}
FUNCTIONS = {"ltb": ["leb"], "leb": ["ltb"], "eqb": ["leb"], "max": ["min"], "min": ["max"], "pred": ["suc"], "suc": ["pred"]}
CONSTANTS = {"ℕ": ["0"], "Words": ["nil"], "NextValue": ["last", "not_found"], "Option ℕ": ["None"], "Bool": ["true", "false"]}
# counts that the rows do not compute: the programs' contracts and `classes` (proofs/Size.antt) speak of them
BY_CLASS = {"tally", "tally_to"}
# the order of two arguments says nothing here
EITHER_WAY = {"+", "*", "&&", "||", "max", "min", "eqb", "same"}


def bare(text):
    """A term's text as one line, without its own brackets."""
    text = " ".join(text.split())
    depth = 0
    for i, c in enumerate(text):
        depth += (c == "(") - (c == ")")
        if depth == 0 and i + 1 < len(text):
            return text
    return text[1:-1] if text.startswith("(") else text


def closed(text):
    return text if " " not in text or text.startswith("record") else f"({text})"


class Changes:
    """The mutants of one module."""

    def __init__(self, definitions, file, text):
        self.definitions, self.file, self.text, self.found = definitions, file, text, []

    def all(self):
        for clause in self.definitions.clauses(self.text):
            if clause.name in BY_CLASS:
                continue
            self.clause, self.seen = clause.name, set()
            kind = self.definitions.types[clause.name][-1]
            self.visit(clause.body, self.definitions.scope(clause), kind, None)
        return self.found

    def add(self, rule, term, new):
        new = bare(new)
        whole = term.start == self.top and term.end == self.bottom
        text = new if whole else closed(new)
        after = "".join((self.text[self.top : term.start] + text + self.text[term.end : self.bottom]).split())
        if bare(self.of(term)) != new and after not in self.seen:
            self.seen.add(after)
            self.found.append(Mutant(self.file, self.clause, rule, term.start, term.end, text))

    def of(self, term):
        return self.text[term.start : term.end]

    def visit(self, term, scope, kind, parent):
        """The changes of a term of a type, in the scope of its place, and of all terms in it."""
        if parent is None:
            self.top, self.bottom = term.start, term.end
        kind = self.definitions.type_of(term, scope) or kind
        self.itself(term)
        self.order(term, scope)
        if kind and term.kind != "let":
            self.other(term, scope, kind, parent)
        wanted = self.taken(term)
        for i, part in enumerate(term.parts):
            inner = scope
            if term.kind == "let" and i == 1 or term.kind == "lambda":
                inner = {**scope, **self.definitions.bound(term, scope, kind)}
            if not (term.kind == "call" and i == 0):
                self.visit(part, inner, wanted[i], term)

    def taken(self, term):
        """The types of a call's parts as its head says them, of others None."""
        if term.kind != "call":
            return [None] * len(term.parts)
        kinds = self.definitions.types.get(term.text) or [None]
        known = [None if k in ("X", "List X") else k for k in kinds[:-1]]
        return ([None] + known + [None] * len(term.parts))[: len(term.parts)]

    def itself(self, term):
        """Another number, operator or function in the same place."""
        if term.kind == "number":
            for n in (int(term.text) + 1, int(term.text) - 1):
                if n >= 0:
                    self.add("number", term, str(n))
        if term.kind == "operator":
            left, right = map(self.of, term.parts)
            for op in OPERATORS.get(term.text, []):
                self.add("operator", term, f"{left} {op} {right}")
        if term.kind == "call":
            rest = " ".join(self.of(part) for part in term.parts[1:])
            for name in FUNCTIONS.get(term.text, []) + self.alike(term.text):
                self.add("function", term, f"{name} {rest}")

    def alike(self, name):
        """The other definitions with this one's type."""
        types, apart = self.definitions.types, self.definitions.outside | BY_CLASS
        return [n for n in types if n != name and name in types and not {n, name} & apart and types[n] == types[name] and len(types[n]) > 2]

    def order(self, term, scope):
        """Two arguments of one type, swapped."""
        if term.text in EITHER_WAY or term.kind not in ("call", "operator"):
            return
        parts = term.parts[1:] if term.kind == "call" else term.parts
        for a, b in combinations(parts, 2):
            one, two = (self.definitions.type_of(p, scope) for p in (a, b))
            if one == two and (one or term.text == "cond"):
                inside = self.text[term.start : a.start] + self.of(b) + self.text[a.end : b.start] + self.of(a) + self.text[b.end : term.end]
                self.add("order", term, inside)

    def other(self, term, scope, kind, parent):
        """Another term of the type: a part of this one, a name or a field in scope, a constant, one more or one less, a test turned."""
        tested = parent and (parent.text in ("&&", "||") or parent.text == "cond" and parent.parts[1] is term)
        for part in term.parts[1:] if term.kind == "call" else term.parts:
            if self.definitions.type_of(part, scope) == kind and term.kind != "lambda":
                self.add("part", term, self.of(part))
        for name in self.atoms(scope, kind):
            self.add("name", term, name)
        if not (kind == "Bool" and tested):
            for constant in CONSTANTS.get(kind, ["[]"] if kind.startswith("List ") else []):
                if constant != "[]" or parent is None or parent.text != "length":  # of what type an empty list is, `length []` does not say
                    self.add("constant", term, constant)
        if kind == "ℕ" and term.kind != "number":
            self.add("one more", term, f"suc {closed(bare(self.of(term)))}")
            self.add("one less", term, f"pred {closed(bare(self.of(term)))}")
        if kind == "Bool" and not (tested and parent.text == "cond") and term.text not in ("true", "false"):
            self.add("test turned", term, f"not {closed(bare(self.of(term)))}")

    def atoms(self, scope, kind):
        """The names of a type in scope, and the fields of those that have such."""
        for name, had in scope.items():
            if had == kind:
                yield name
            for field, its in self.definitions.records.get(had, {}).items():
                if its == kind:
                    yield f"{name}.{field}"
