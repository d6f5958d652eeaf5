"""The mutants of a crate: one change at a time in the bodies of its functions and in its constants. Contracts, comments, declarations of types
and ghost lines lie outside both, so nothing there is touched."""

import re
from itertools import combinations

from mutants.body import ANSWERS, base, parts
from mutants.forms import Forms
from mutants.source import bodies, constants, end_of, following, sources, split

# what stands in place of an operator
OPERATORS = {
    "<": ["<="], "<=": ["<"], ">": [">="], ">=": [">"], "==": ["!=", ">="], "!=": ["==", "<"],
    "+": ["-"], "-": ["+"], "+=": ["-="], "-=": ["+="], "%": ["/"], "^": ["|"], ">>": ["<<"], "<<": [">>"],
    "true": ["false"], "false": ["true"],
}  # fmt: skip
OPEN = "([{"
NUMBER = re.compile(r"(0x[0-9a-f_]+|\d[\d_]*)(u8|u16|u32|u64|usize)?$")


def number_of(text):
    """A number, whether it is written in base 16, and its suffix; None where the text is none."""
    m = NUMBER.match(text)
    if not m:
        return None
    digits, suffix = m.group(1), m.group(2) or ""
    base_16 = digits.startswith("0x")
    return int(digits.replace("_", ""), 16 if base_16 else 10), base_16, suffix


def number_neighbours(text):
    """The number one more and the number one less, where there is one, in the form of the one given."""
    found = number_of(text)
    if not found:
        return []
    n, base_16, suffix = found
    return [(hex(k) if base_16 else str(k)) + suffix for k in (n + 1, n - 1) if 0 <= k < 2**64]


def covers(pattern, other):
    """Whether a pattern takes all that another one takes, word by word."""
    return len(pattern) == len(other) and all(a in ("_", b) for a, b in zip(pattern, other))


class Rules(Forms):
    """The mutants of one function's body or one constant."""

    def mutants(self):
        self.forms()
        for i, t in enumerate(self.ts):
            self.operator(i, t)
            self.number(i, t)
            self.test(i, t)
            self.field(i, t)
            self.name(i, t)
            self.assignment(i, t)
            if t.text == "(":
                self.call(i)
            elif t.text == "{":
                self.literal(i)
        return sorted(self.found.values(), key=lambda m: (m.start, m.end))

    def operator(self, i, t):
        before = self.at(i - 1)
        if t.text == "-" and (before in OPEN or before in OPERATORS or before == "="):
            self.change("minus dropped", t.start, t.end, "")
            return
        for new in OPERATORS.get(t.text, []):
            if new == "<" and self.at(i - 2) == "as":
                new = ">"  # after a type, < would begin its arguments
            if new not in (">=", "<") or t.text not in ("==", "!=") or not self.compares_whole(i):
                self.change("operator", t.start, t.end, new)

    def compares_whole(self, i):
        """Whether == or != stands here between two of a type that has no order."""
        path, _ = self.path_before(i)
        kinds = {base(self.kind(self.begin(i), i)), base(self.kind(i + 1, self.until(i + 1, ("&&", "||", "{", ",", ";"))))}
        return bool(path and path[0] in ANSWERS or self.at(i + 1) in ANSWERS or kinds & {*self.names.structs, *self.names.enums})

    def number(self, i, t):
        """One more and one less; in a pattern the next that makes it no other arm's, and any, where another number is left and no arm is hidden."""
        arm = next((a for a in self.arms if a.begin <= i < a.arrow), None)
        if arm is None or not number_of(t.text):
            for new in number_neighbours(t.text):
                self.change("number", t.start, t.end, new)
            return
        before, after = (self.words(*s) for s in ((arm.begin, i), (i + 1, arm.arrow)))
        others = [self.words(a.begin, a.arrow) for a in self.arms]
        n, *_ = number_of(t.text)
        self.change("number", t.start, t.end, next(str(k) for k in range(n + 1, 2**64) if before + [str(k)] + after not in others))
        later = others[self.arms.index(arm) + 1 :]
        if any(number_of(w) for w in before + after) and not any(covers(before + ["_"] + after, words) for words in later):
            self.change("number", t.start, t.end, "_")

    def words(self, begin, end):
        return [t.text for t in self.ts[begin:end]]

    def test(self, i, t):
        """A `!` dropped, but a macro's."""
        if t.text == "!" and not self.is_name(i - 1):
            self.change("test turned", t.start, t.end, "")

    def field(self, i, t):
        """A field read as its sibling."""
        if self.at(i - 1) == "." and self.at(i + 1) != "(":
            new = self.names.next_field(base(self.kind(self.begin(i - 1), i - 1)), t.text)
            if new:
                self.change("field", t.start, t.end, new)

    def name(self, i, t):
        """A constant or a variant, to its sibling; in a pattern only where no other pattern has that one."""
        path, _ = self.path_before(i + 1)
        owner = path[0] if len(path) == 2 else self.crate
        if t.text.isupper() and len(path) <= 2:
            new = self.names.next_constant(owner, t.text)
            if new:
                self.change("constant", t.start, t.end, new)
        elif len(path) == 2 and t.text in self.names.enums.get(owner, {}):
            new = self.names.next_variant(owner, t.text) or (None if self.is_pattern(i) else self.names.held_variant(owner, t.text))
            if new and not (self.is_pattern(i) and new in [s.text for k, s in enumerate(self.ts) if self.is_pattern(k)]):
                self.change("variant", t.start, t.end, new)

    def assignment(self, i, t):
        """What is assigned, left as it was."""
        if t.text == "+=" and not number_of(self.at(i + 1)):
            self.change("not assigned", *self.span((i + 1, self.until(i + 1, (";",)))), "0")
        if t.text != "=":
            return
        begin = i
        while self.at(begin - 1) not in ("", "{", "}", ";"):
            begin -= 1
        if begin == i or "let" in [s.text for s in self.ts[begin:i]]:
            return
        end = next(k for k in range(i, len(self.ts)) if self.ts[k].text == ";")
        kept = self.text[self.ts[begin].start : self.ts[i - 1].end]
        self.change("not assigned", self.ts[i + 1].start, self.ts[end - 1].end, kept)

    def call(self, at):
        """The arguments of a call or a variant, and a call that stands alone."""
        path, begin = self.path_before(at)
        end = end_of(self.ts, at)
        if not path or self.is_pattern(at):
            return
        if self.at(begin - 1) == ".":
            begin = self.begin(at)
        last = end + (self.at(end + 1) == "?")
        alone = self.stands_alone(begin) and self.at(last + 1) == ";"
        if alone:
            self.change("call dropped", self.ts[begin].start, self.ts[last + 1].end, "")
            if self.at(begin + 1) == ".":
                self.other_names([(begin, begin + 1)], [self.visible(begin).get(self.at(begin))])
        types, spans = self.types(at, path), split(self.ts, at + 1, end)
        if path[0] in ANSWERS and types and types[0].startswith("(") and self.at(at + 1) == "(":
            types, spans = parts(types[0][1:-1]), split(self.ts, at + 2, end - 1)
        if types is None or len(spans) != len(types):
            return
        self.pairs(spans, types, alone)
        if alone or path[0] in self.names.enums or path[0] in ANSWERS or self.is_answered(begin, last):
            self.other_names(spans, types)

    def types(self, at, path):
        """The types of what a call or a variant takes."""
        method = self.method(at)
        if method:
            return [kind for name, kind in self.names.parameters.get(method, []) if name != "self"] or None
        if path[0] in ANSWERS:
            held = self.inside(self.part.gives, path[0])
            return [held] if held else None
        return self.names.taken(self.crate, path)

    def other_names(self, spans, types):
        """An argument that is a name, to the next name of its type in the function."""
        for (a, b), kind in zip(spans, types):
            ring = [name for name, one in self.visible(a).items() if one == kind] if kind else []
            new = following(ring, self.ts[a].text) if b == a + 1 and self.ts[a].text in ring else None
            if new and not (kind.startswith("&mut") and new in [self.ts[c].text for c, _ in spans]):  # a slice is lent once
                self.change("other name", *self.span((a, b)), new)

    def pairs(self, spans, types, alone):
        """Two arguments of one type swapped; in a call that stands alone also one in the place of the other, so that it does less."""
        for (i, a), (j, b) in combinations(enumerate(spans), 2):
            if types[i] != types[j]:
                continue
            first, second = self.span(a), self.span(b)
            one, other = self.text[slice(*first)], self.text[slice(*second)]
            if one == other:
                continue
            self.swap("arguments swapped", first, second)
            if alone and not types[i].startswith("&mut"):
                self.change("argument twice", *first, other)
                self.change("argument twice", *second, one)


def mutants(root, crate, names):
    """Each mutant of a crate, function by function."""
    found = []
    for file in sources(root, crate):
        text = file.read_text()
        for part in constants(text) + bodies(text):
            found += Rules(crate, file.name, part, text, names).mutants()
    return found
