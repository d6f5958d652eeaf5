"""The mutants of today's forms: tests joined by && and ||, ranges, chains and closures, `?`, matches, and the rest of a struct."""

import re
from itertools import combinations

from mutants.body import Body
from mutants.source import end_of, is_constant, split

COMPARISONS = {"<", "<=", ">", ">=", "==", "!="}
# a method that stands in the place of another
METHODS = {
    "min": "max", "max": "min", "all": "any", "any": "all", "is_some_and": "is_none_or", "is_none_or": "is_some_and",
    "wrapping_add": "wrapping_sub", "wrapping_sub": "wrapping_add", "wrapping_mul": "wrapping_add",
}  # fmt: skip
STEPS = ("rev", "skip", "filter", "wrapping_neg")  # what a chain gives without one of these has the same type
ASKING = ("all", "any", "filter", "find", "is_some_and", "is_none_or")  # they take a closure that is a test


class Forms(Body):
    """The mutants of today's forms in one function's body or one constant."""

    def forms(self):
        self.turned()
        self.answers()
        self.plain_constant()
        for i, t in enumerate(self.ts):
            self.joined(i, t)
            self.flag(i, t)
            self.range(i, t)
            self.chain(i, t)
            self.asked(i, t)

    def joins(self, i):
        """Whether && or || stands here between two tests."""
        return self.at(i) in ("&&", "||") and bool(re.match(r"[\w)\]]", self.at(i - 1)))

    def joined(self, i, t):
        if self.joins(i):
            self.change("operator", t.start, t.end, "&&" if t.text == "||" else "||")

    def tests(self):
        """Where each test begins: after `if` and `while`, on either side of && and ||, in a closure that is one, and at the end of a function that
        gives one."""
        for i, t in enumerate(self.ts):
            if t.text in ("if", "while") and self.at(i + 1) != "let" or self.joins(i):
                yield i + 1
            elif t.text == "|" and self.at(i - 1) == "(" and self.at(i - 2) in ASKING:
                yield self.until(i + 1, ("|",)) + 1
        if self.part.gives == "bool":
            yield self.tail()

    def turned(self):
        """A `!` put before a test that is no comparison and has none."""
        for begin in set(self.tests()):
            end = self.until(begin, ("&&", "||", "{", ",", ";"))
            compares = COMPARISONS & {self.at(k) for k in self.outside(begin, end)}
            if not compares and self.at(begin) not in ("!", "true", "false", "if", "match"):
                self.change("test turned", self.ts[begin].start, self.ts[begin].start, "!")

    def flag(self, i, t):
        """A flag that is passed on, turned."""
        alone = self.at(i - 1) in ("(", ",") and self.at(i + 1) in (")", ",")
        if alone and not self.is_pattern(i) and self.visible(i).get(t.text) == "bool":
            self.change("test turned", t.start, t.start, "!")

    def range(self, i, t):
        """A range with its end, or from one later on."""
        if t.text != ".." or not re.match(r"[\w)\]]", self.at(i - 1)):
            return
        self.change("range", t.start, t.end, "..=")
        if not self.at(i - 1).isdigit():  # a number is changed as one
            self.change("range", t.start, t.start, " + 1")

    def chain(self, i, t):
        """A method to another, a step of a chain left out, one more than is counted."""
        if self.at(i - 1) != "." or self.at(i + 1) != "(":
            return
        after = self.ts[end_of(self.ts, i + 1)].end
        new = self.names.next_method(*self.method(i + 1)) or METHODS.get(t.text)
        if new:
            self.change("method", t.start, t.end, new)
        if t.text in STEPS:
            self.change("step left out", self.ts[i - 1].start, after, "")
        if t.text == "count":
            self.change("number", after, after, " + 1")

    def asked(self, i, t):
        """A call that may refuse, alone as a statement: its refusal is passed over."""
        begin = self.begin(i) if t.text == "?" and self.at(i + 1) == ";" else i
        if begin < i and self.stands_alone(begin):
            self.change("refusal passed over", self.ts[begin].start, t.end, "let _ = " + self.said((begin, i)))

    def answers(self):
        """What two arms of a match answer, one after the other, swapped, where their patterns bind no name."""
        for one, other in zip(self.arms, self.arms[1:]):
            if one.end + 1 != other.begin or {one.begin, other.begin} & {b.begin for b in self.bound}:
                continue
            a, b = self.span((one.arrow + 1, one.end)), self.span((other.arrow + 1, other.end))
            self.swap("answers swapped", a, b)

    def plain_constant(self):
        """One more and one less than a constant in which no number stands."""
        if is_constant(self.part.name) and not any(t.text[0].isdigit() for t in self.ts):
            for more in (" + 1", " - 1"):
                self.change("number", self.ts[-1].start, self.ts[-1].start, more)

    def literal(self, at):
        """The values of a struct's fields: two of one type swapped, those that `..rest` gives among them, and these each from the field's sibling."""
        struct = self.at(at - 1)
        types = self.names.structs.get(struct)
        spans = split(self.ts, at + 1, end_of(self.ts, at))
        if types is None or not all(self.at(a) in types or self.at(a) == ".." for a, _ in spans):
            return
        named = {self.at(a): (a, b) for a, b in spans if self.at(a) != ".."}
        rest = next(((a, b) for a, b in spans if self.at(a) == ".."), None)
        for f, g in combinations(named, 2):
            if types[f] == types[g]:
                self.named_swapped(f, g, named[f], named[g])
        if rest:
            self.rest(struct, types, named, rest)

    def value(self, span):
        """What is given to a field; a field by its name alone is given what has its name."""
        a, b = span
        return self.said((a + 2, b)) if self.at(a + 1) == ":" else self.at(a)

    def named_swapped(self, f, g, a, b):
        one, other = self.value(a), self.value(b)
        if one != other:
            between = self.text[self.span(a)[1] : self.span(b)[0]]
            self.change("arguments swapped", self.span(a)[0], self.span(b)[1], f"{f}: {other}{between}{g}: {one}")

    def rest(self, struct, types, named, rest):
        """What `..rest` gives is changed by a field that is named before it."""
        start, whole = self.ts[rest[0]].start, self.said((rest[0] + 1, rest[1]))
        given = [f for f in types if f not in named]
        for f in given:
            sibling = self.names.next_field(struct, f)
            if sibling:
                self.change("field", start, start, f"{f}: {whole}.{sibling}, ")
        for f, g in combinations(given, 2):
            if types[f] == types[g]:
                self.change("arguments swapped", start, start, f"{f}: {whole}.{g}, {g}: {whole}.{f}, ")
        for f, span in named.items():
            for g in [g for g in given if types[g] == types[f]]:
                self.change("arguments swapped", *self.span(span), f"{f}: {whole}.{g}, {g}: {self.value(span)}")
