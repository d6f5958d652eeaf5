"""A function's body or a constant as tokens: where expressions and patterns begin and end, which names are bound at a place, and what type a name
or an expression has as far as that can be seen."""

import re
from collections import namedtuple
from functools import cached_property

from mutants.source import OPEN, SHUT, end_of, split, tokens

KEYWORDS = set("as break continue else false for if in let match mut return true while".split())
ANSWERS = {"Ok": 0, "Err": 1, "Some": 0}  # which of a type's arguments each holds
SIGNS = {"+", "-", "*", "/", "%", "^", "<<", ">>"}  # what stands on either side has the type of the whole
NAME = re.compile(r"[a-z_]\w*$")

Mutant = namedtuple("Mutant", "file function rule start end new")
Bound = namedtuple("Bound", "name begin end kind")  # a name, with the tokens between which it stands for something
Arm = namedtuple("Arm", "begin arrow end")  # of a match: its pattern begins, its '=>', the end of its answer


def base(kind):
    """A type's name, without & and its arguments."""
    return re.match(r"(?:&(?:mut )?)?(\w*)", kind).group(1)


def parts(kinds):
    """Types that commas part."""
    ts = tokens(kinds)
    return [kinds[ts[a].start : ts[b - 1].end] for a, b in split(ts, 0, len(ts), ("<", ">"))]


class Body:
    """What the rules ask about the tokens of one part of a crate's text."""

    def __init__(self, crate, file, part, text, names):
        self.crate, self.file, self.part, self.text, self.names = crate, file, part, text, names
        self.ts = tokens(text, part.start, part.end)
        self.found, self.bound = {}, [Bound(name, 0, len(self.ts), kind) for name, kind in part.takes]
        for pattern in sorted(self.patterns):
            self.bound += self.binds(*pattern)

    def at(self, i):
        return self.ts[i].text if 0 <= i < len(self.ts) else ""

    def is_name(self, i):
        return bool(re.match(r"[A-Za-z_]", self.at(i))) and self.at(i) not in KEYWORDS

    def span(self, s):
        return self.ts[s[0]].start, self.ts[s[1] - 1].end

    def said(self, s):
        return self.text[slice(*self.span(s))]

    def change(self, rule, start, end, new):
        if self.text[start:end] != new:
            self.found.setdefault((start, end, new), Mutant(self.file, self.part.name, rule, start, end, new))

    def swap(self, rule, first, second):
        """Two places of the text swapped."""
        between = self.text[first[1] : second[0]]
        self.change(rule, first[0], second[1], self.text[slice(*second)] + between + self.text[slice(*first)])

    def stands_alone(self, begin):
        """Whether a statement begins at a place."""
        return self.at(begin - 1) in ("", "{", "}", ";")

    def is_answered(self, begin, last):
        """Whether what lies between two places is what a function or an arm answers, or what an Ok, Err or Some of it holds."""
        return self.at(begin - 1) in ("return", "=>") or self.at(begin - 2) in ANSWERS or begin == self.tail() and last == len(self.ts) - 1

    def outside(self, begin, end):
        """The places between two that no bracket holds, those of brackets that open there too."""
        i = begin
        while i < end:
            yield i
            i = end_of(self.ts, i) + 1 if self.at(i) in OPEN else i + 1

    def tail(self):
        """Where the expression begins that ends a body."""
        begin = 0
        for i in self.outside(0, len(self.ts)):
            after = end_of(self.ts, i) + 1 if self.at(i) == "{" else i + 1
            if self.at(i) == ";" or self.at(i) == "{" and after < len(self.ts) and self.at(after) not in ("else", ";", ".", "?", ")"):
                begin = after
        return begin

    def start_of(self, at):
        """The place of the bracket that is closed at a place."""
        depth = 0
        for i in range(at, -1, -1):
            depth += (self.at(i) in SHUT) - (self.at(i) in OPEN)
            if depth == 0:
                return i
        raise ValueError("a bracket is not opened")

    def begin(self, end):
        """Where the names, calls, indices and fields begin that end before a place, such as `view.in_use()`."""
        i = end
        while True:
            if self.at(i - 1) == "?":
                i -= 1
            elif self.at(i - 1) in (")", "]"):
                i = self.start_of(i - 1)
                if not self.is_name(i - 1) and self.at(i - 1) not in (")", "]", "?"):
                    return i
            elif self.is_name(i - 1) or re.match(r"\d", self.at(i - 1)):
                i -= 1
                if self.at(i - 1) not in (".", "::"):
                    return i
                i -= 1
            else:
                return i

    def until(self, i, stops):
        """The first place from one on with one of these tokens that no bracket holds, or where the bracket around it closes."""
        depth = 0
        for k in range(i, len(self.ts)):
            if depth == 0 and (self.at(k) in stops or self.at(k) in SHUT):
                return k
            depth += (self.at(k) in OPEN) - (self.at(k) in SHUT)
        return len(self.ts)

    def path_before(self, at):
        """The path that ends before a place, such as lent::value_at, and where it begins."""
        if not self.is_name(at - 1):
            return [], at
        path, begin = [self.at(at - 1)], at - 1
        while self.at(begin - 1) == "::":
            path, begin = [self.at(begin - 2)] + path, begin - 2
        return path, begin

    @cached_property
    def arms(self):
        """The arms of each match."""
        found = []
        for arrow in [i for i, t in enumerate(self.ts) if t.text == "=>"]:
            begin, depth = arrow, 0
            while depth or self.at(begin - 1) not in ("{", "}", ","):
                begin -= 1
                depth += (self.at(begin) in SHUT) - (self.at(begin) in OPEN)
            block = self.at(arrow + 1) == "{"
            found.append(Arm(begin, arrow, end_of(self.ts, arrow + 1) + 1 if block else self.until(arrow + 1, (",",))))
        return found

    @cached_property
    def patterns(self):
        """Where each pattern begins and ends, and where what it binds begins and ends to stand for something."""
        found = []
        for i, t in enumerate(self.ts):
            if t.text == "for":
                shut = self.until(i + 1, ("in",))
                body = self.until(shut, ("{",))
                found.append((i + 1, shut, body, end_of(self.ts, body)))
            elif t.text == "let":
                shut = self.until(i + 1, ("=",))
                inside = self.at(i - 1) in ("if", "while")
                after = self.until(shut, ("{",) if inside else (";",))
                found.append((i + 1, shut, after, end_of(self.ts, after) if inside else self.until(after + 1, ())))
            elif t.text == "|" and self.at(i - 1) in ("(", ","):
                shut = self.until(i + 1, ("|",))
                found.append((i + 1, shut, shut, self.until(shut + 1, (",",))))
            elif t.text == "matches" and self.at(i + 1) == "!":
                begin, shut = self.until(i + 3, (",",)) + 1, end_of(self.ts, i + 2)
                found.append((begin, self.until(begin, ("if",)), begin, shut))
        return found + [(a.begin, self.until(a.begin, ("if", "=>")), a.begin, a.end) for a in self.arms]

    def is_pattern(self, i):
        return any(begin <= i < end for begin, end, _, _ in self.patterns)

    def binds(self, begin, end, first, last):
        """The names that a pattern binds. What a `let` binds has the type of what stands after its '='."""
        stands = self.kind(end + 1, self.until(end + 1, ("else", ";", "{"))) if self.at(end) == "=" else ""
        for i in range(begin, end):
            if not NAME.match(self.at(i)) or self.at(i) in KEYWORDS | {"_"} or self.at(i + 1) in ("(", "::"):
                continue
            whole = end == i + 1 and self.at(i - 1) in ("let", "mut")
            kind = stands if whole else self.inside(stands, self.at(begin))
            yield Bound(self.at(i), first, last, kind or self.used_kind(self.at(i), first, last))

    def inside(self, kind, answer):
        """What an Ok, Err or Some of a type holds."""
        m = re.match(r"\w+<(.*)>$", kind)
        held = parts(m.group(1)) if m else []
        return held[ANSWERS[answer]] if ANSWERS.get(answer, 2) < len(held) else ""

    def used_kind(self, name, first, last):
        """The type of a name, by a call or a variant that is passed it alone."""
        for at in range(max(first - 1, 0), last):
            path, _ = self.path_before(at) if self.at(at) == "(" else ([], at)
            types = self.names.taken(self.crate, path) if path else None
            for (a, b), kind in zip(split(self.ts, at + 1, end_of(self.ts, at)) if types else [], types or []):
                if b == a + 1 and self.at(a) == name:
                    return kind
        return ""

    def visible(self, i):
        """The names at a place with their types, the later of one name in the place of the earlier."""
        found = {}
        for b in self.bound:
            if b.begin <= i < b.end:
                found.pop(b.name, None)
                found[b.name] = b.kind
        return found

    def kind(self, begin, end):
        """The type of an expression, as far as that can be seen."""
        while self.at(begin) in ("&", "*"):
            begin += 1
        if self.at(end - 2) == "as":
            return self.at(end - 1)
        if self.is_name(begin) and self.at(begin + 1) == "{":
            return self.at(begin)
        sign = next((i for i in self.outside(begin + 1, end) if self.at(i) in SIGNS), None)
        if sign:
            return self.kind(begin, sign) or self.kind(sign + 1, end)
        if begin >= end or self.begin(end) != begin:
            return ""
        if self.at(end - 1) == "?":
            return self.inside(self.kind(begin, end - 1), "Ok")
        if self.at(end - 1) == ")":
            return self.call_kind(self.start_of(end - 1))
        if self.at(end - 2) == ".":
            return self.names.structs.get(base(self.kind(begin, end - 2)), {}).get(self.at(end - 1), "")
        path, _ = self.path_before(end)
        constant = self.names.constants.get(self.names.owner(self.crate, path), "") if path else ""
        return constant or (self.visible(begin).get(path[0], "") if len(path) == 1 else "")

    def call_kind(self, at):
        """What a call gives."""
        path, _ = self.path_before(at)
        method = self.method(at)
        if method:
            return "usize" if method[1] in ("len", "count") else self.names.results.get(method, "")
        return self.names.results.get(self.names.owner(self.crate, path), "") if path else ""

    def method(self, at):
        """The receiver's type and the name of the method that is called at a bracket; None where it is no method."""
        if not self.is_name(at - 1) or self.at(at - 2) != ".":
            return None
        return base(self.kind(self.begin(at - 2), at - 2)), self.at(at - 1)
