"""The definitions of a specs/ folder as terms: clauses, their parts with places in the text, and what type a part has as far as that can be seen.
It assumes the layout of rt fmt: a clause starts at the left edge with the name that a line above it has declared."""

import re
from collections import namedtuple

TOKEN = re.compile(r"--[^\n]*|\.[A-Za-z]\w*|0x[0-9a-f]+|[(){};,:=]|λ|\.(?=\s)|[^\s(){};,:=.]+")
HEAD = re.compile(r"^(?:unfoldable |abbrev )?(?:pub )?([a-z]\w*)(?: \{ℓ\})? : (.*)$", re.M)
RECORD = re.compile(r"^pub record (\w+) : Type 0 where\n((?:  .*\n?)+)", re.M)
POWER = {"||": 2, "&&": 3, "∷": 4, "++": 4, "+": 5, "-": 5, "*": 6, "/": 6, "^": 7}
RESULT = {"||": "Bool", "&&": "Bool", "+": "ℕ", "-": "ℕ", "*": "ℕ", "/": "ℕ", "^": "ℕ"}
# what the definitions use of other crates and of the library; X is any type
OUTSIDE = """
cond : Bool → X → X → X
not : Bool → Bool
eqb : ℕ → ℕ → Bool
leb : ℕ → ℕ → Bool
ltb : ℕ → ℕ → Bool
same : Words → Words → Bool
is_nil : Words → Bool
decodes : Words → Bool
nil : Words
suc : ℕ → ℕ
pred : ℕ → ℕ
min : ℕ → ℕ → ℕ
max : ℕ → ℕ → ℕ
size : ℕ → ℕ
length : List X → ℕ
get_or : List X → ℕ → X → X
set : List X → ℕ → X → List X
map : (Y → X) → List Y → List X
integer : ℕ → Words
largest : ℕ
key_is_nil : ℕ
no_room : ℕ
array_index : Words → Option ℕ
canonical_key : Words → Result Words Refusal
on_key : Result Words Refusal → (ℕ → X) → (Words → X) → X
Some : ℕ → Option ℕ
None : Option ℕ
found : Words → Words → NextValue
last : NextValue
not_found : NextValue
true : Bool
false : Bool
"""

# kind: name, number, call, operator, field, lambda, let, record, list; `parts` are the terms in it
Term = namedtuple("Term", "kind text parts start end")
Clause = namedtuple("Clause", "name patterns body start")


def tokens(text):
    found = [(m.group().strip(), m.start() + len(m.group()) - len(m.group().lstrip()), m.end()) for m in TOKEN.finditer(text)]
    return [t for t in found if not t[0].startswith("--")]


def arrows(kind):
    """The types that an arrow type takes, and the one it gives; implicit arguments and outer brackets left out."""
    parts, depth, begin = [], 0, 0
    for i, c in enumerate(kind):
        depth += (c in "({") - (c in ")}")
        if c == "→" and depth == 0:
            parts.append(kind[begin:i].strip())
            begin = i + 1
    parts.append(kind[begin:].strip())
    return [p[1:-1] if p.startswith("(") else p for p in parts if not p.startswith("{")]


def with_names(text, names):
    """A module with these names in scope, by the modules that declare them. Those of the model itself are for modules that use it already."""
    lists = re.findall(r"^use [^\n{]*\{([^}]*)\}", text, re.M)
    had = {name.strip() for names_of in lists for name in names_of.split(",")} | set(re.findall(r"^(?:abbrev |unfoldable )?pub (\w+) :", text, re.M))
    lines = []
    for module, wanted in names.items():
        missing = [n for n in wanted if n not in had]
        if missing and ("Rattle.model" not in module or f"use {module}." in text):
            lines.append(f"use {module}.{{{', '.join(missing)}}}\n")
    at = re.search(r"^use ", text, re.M).start()
    return text[:at] + "".join(lines) + text[at:]


class Reader:
    """A term from the tokens of a clause's body."""

    def __init__(self, text, start, end):
        self.ts, self.at = [(t, a + start, b + start) for t, a, b in tokens(text[start:end])], 0

    def peek(self):
        return self.ts[self.at][0] if self.at < len(self.ts) else ""

    def take(self, wanted=None):
        t = self.ts[self.at]
        if wanted and t[0] != wanted:
            raise ValueError(f"{wanted} wanted, not {t[0]} at {t[1]}")
        self.at += 1
        return t

    def term(self, least=0):
        if self.peek() == "let":
            return self.let()
        if self.peek() == "λ":
            return self.abstraction()
        left = self.call()
        while POWER.get(self.peek(), -1) >= least:
            op = self.take()[0]
            right = self.term(POWER[op] + (op not in ("∷", "++", "^")))
            left = Term("operator", op, (left, right), left.start, right.end)
        return left

    def let(self):
        start, name = self.take("let")[1], self.take()[0]
        kind = None
        if self.peek() == ":":
            self.take()
            kind = self.take()[0]
        self.take("=")
        value = self.term()
        self.take("in")
        body = self.term()
        return Term("let", (name, kind), (value, body), start, body.end)

    def abstraction(self):
        start, name, kind = self.take("λ")[1], self.take(), None
        if name[0] == "(":
            name = self.take()
            self.take(":")
            kind = self.take()[0]
            self.take(")")
        self.take(".")
        body = self.term()
        return Term("lambda", (name[0], kind), (body,), start, body.end)

    def call(self):
        head, arguments = self.atom(), []
        while self.peek() not in ("", ")", "}", ";", "in", "=", ",") and self.peek() not in POWER:
            arguments.append(self.atom())
        return Term("call", head.text, (head, *arguments), head.start, arguments[-1].end) if arguments else head

    def atom(self):
        text, start, end = self.take()
        if text == "(":
            inner = self.term()
            end = self.take(")")[2]
            found = inner._replace(start=start, end=end)
        elif text == "record":
            found = self.fields(start)
        elif text == "[]":
            found = Term("list", "[]", (), start, end)
        else:
            found = Term("number" if text.isdigit() else "name", text, (), start, end)
        while self.peek().startswith(".") and len(self.peek()) > 1:
            field, _, end = self.take()
            found = Term("field", field, (found,), found.start, end)
        return found

    def fields(self, start):
        self.take("{")
        parts = []
        while self.peek() != "}":
            self.take()
            self.take("=")
            parts.append(self.term())
            if self.peek() == ";":
                self.take()
        return Term("record", "", tuple(parts), start, self.take("}")[2])


class Definitions:
    """What the modules declare, for the types of terms: signatures, and records' fields."""

    def __init__(self, texts):
        self.types, self.records = {}, {}
        for line in OUTSIDE.strip().splitlines():
            name, kind = line.split(" : ", 1)
            self.types[name] = arrows(kind)
        self.outside = set(self.types)
        for text in texts:
            for m in HEAD.finditer(text):
                self.types[m.group(1)] = arrows(m.group(2))
            for m in RECORD.finditer(text):
                self.records[m.group(1)] = dict(re.findall(r"pub (\w+) : (.*)", m.group(2)))

    def clauses(self, text):
        """The clauses of a module: a name, its patterns, the term after the '=', and where that starts."""
        for m in re.finditer(r"^([a-z]\w*)((?: [^\n:=]*?)?) =((?:.*\n?)(?:^ .*\n?)*)", text, re.M):
            own = m.group(1) in self.types and m.group(1) not in self.outside
            if own and self.types[m.group(1)][-1] != "Type 0":
                yield Clause(m.group(1), m.group(2), Reader(text, m.start(3), m.end(3)).term(), m.start())

    def scope(self, clause):
        """The names that a clause's patterns bind, with their types."""
        found = {}
        patterns = re.findall(r"\([^)]*\)|\S+", clause.patterns)
        for pattern, kind in zip(patterns, self.types[clause.name]):
            words = pattern.strip("()").split()
            if "∷" in words:
                found.update({words[0]: kind.removeprefix("List "), words[2]: kind})
            elif len(words) > 1:
                found.update(dict(zip(words[1:], self.types[words[0]])))
            elif words[0] not in ("[]", "zero", *self.types):
                found[words[0]] = kind
        return found

    def type_of(self, term, scope):
        """A term's type, or None."""
        if term.kind == "number":
            return "ℕ"
        if term.kind == "name":
            kind = scope.get(term.text) or (self.types.get(term.text) or [None])
            return kind if isinstance(kind, str) else kind[0] if len(kind) == 1 else None
        if term.kind == "operator":
            return RESULT.get(term.text) or self.type_of(term.parts[1], scope) or self.type_of(term.parts[0], scope)
        if term.kind == "field":
            owner = self.records.get(self.type_of(term.parts[0], scope), {})
            return owner.get(term.text[1:])
        if term.kind == "let":
            return self.type_of(term.parts[1], {**scope, **self.bound(term, scope)})
        if term.kind == "call":
            return self.given(term, scope)
        return None

    def given(self, call, scope):
        kinds = arrows(scope[call.text]) if call.text in scope else self.types.get(call.text)
        if not kinds or len(kinds) != len(call.parts):
            return None
        if "X" not in kinds[-1]:
            return kinds[-1]
        for kind, part in zip(kinds, call.parts[1:]):
            had = self.type_of(part, scope) if kind in ("X", "List X") else None
            if had:
                return kinds[-1].replace("X", had if kind == "X" else had.removeprefix("List "))
        return None

    def bound(self, term, scope, wanted=None):
        """What a `let` or a lambda binds in its body; `wanted` is the lambda's type where its place says it."""
        name, kind = term.text
        if kind is None:
            kind = self.type_of(term.parts[0], scope) if term.kind == "let" else arrows(wanted)[0] if wanted else None
        return {name: kind} if kind and kind != "X" else {}
