"""A crate's program text, as far as the mutants need it: tokens, the bodies of functions, constants, and what a call, a struct or an enum takes.
It assumes the layout of rt fmt: a body lies between a '{' and a '}' that stand alone in their lines under the `fn`, after its contract; where it
has none, the '{' ends the line of the `fn`."""

import re
from collections import namedtuple
from pathlib import Path

TOKEN = re.compile(
    r"//[^\n]*|0x[0-9a-fA-F_]+|\d[\d_]*(?:u8|u16|u32|u64|usize)?|[A-Za-z_]\w*"
    r"|::|=>|->|\.\.=|\.\.|<=|>=|==|!=|\+=|-=|<<|>>|&&|\|\||\S"
)
FN = re.compile(r"^( *)(?:pub )?fn (\w+)(?:<.*?>)?\(", re.M | re.S)
CONST = re.compile(r"^( *)(?:pub )?const (\w+): ([^=\n]+) = .*?;\n", re.M | re.S)
TYPE = re.compile(r"^(?:pub )?(struct|enum) (\w+)(?:<[^>\n]*>)? \{\n(.*?)^\}", re.M | re.S)
IMPL = re.compile(r"^impl(?:<[^>\n]*>)? (?:([\w:]+(?:<[^\n]*>)?) for )?(\w+)(?:<[^\n]*>)? \{\n(.*?)^\}", re.M | re.S)
OPEN, SHUT = "([{", ")]}"

Token = namedtuple("Token", "text start end")
Impl = namedtuple("Impl", "name type start end promises")
Function = namedtuple("Function", "impl name indent takes gives start shut")  # `shut` is the place after its parameters
Part = namedtuple("Part", "name start end takes gives")  # a function's body, or a constant, with the types of what it takes and gives


def tokens(text, start=0, end=None):
    """The tokens between two places, comments left out."""
    found = TOKEN.finditer(text, start, len(text) if end is None else end)
    return [Token(m.group(), m.start(), m.end()) for m in found if not m.group().startswith("//")]


def end_of(ts, at):
    """The place of the bracket that closes the one at a place."""
    depth = 0
    for i in range(at, len(ts)):
        depth += (ts[i].text in OPEN) - (ts[i].text in SHUT)
        if depth == 0:
            return i
    raise ValueError("a bracket is not closed")


def split(ts, first, last, more=("", "")):
    """The spans of tokens between first and last, parted at the commas that no bracket holds; `more` are brackets too."""
    spans, begin, depth = [], first, 0
    for i in range(first, last):
        depth += (ts[i].text in OPEN + more[0]) - (ts[i].text in SHUT + more[1])
        if depth == 0 and ts[i].text == ",":
            spans.append((begin, i))
            begin = i + 1
    if begin < last:
        spans.append((begin, last))
    return [s for s in spans if s[0] < s[1]]


def uncommented(text):
    return re.sub(r"//[^\n]*", "", text)


def plain(kind, own=""):
    """A type without its lifetimes, and `Self` by its name."""
    bare = re.sub(r"'\w+(?:, | )?", "", kind.strip()).replace("<>", "")
    return re.sub(r"\bSelf\b", own, bare) if own else bare


def impls(text):
    """Each impl. One of a trait promises something where it gives the trait's ghost members."""
    for m in IMPL.finditer(text):
        trait, kind, inside = m.groups()
        name = f"{trait} for {kind}" if trait else kind
        yield Impl(name, kind, m.start(), m.end(), not trait or bool(re.search(r"^    ghost ", inside, re.M)))


def parameters(said, own):
    """Parameters with their types; `self` is one too, of the impl's type."""
    ts, found = tokens(said), []
    for a, b in split(ts, 0, len(ts), ("<", ">")):
        name, _, kind = said[ts[a].start : ts[b - 1].end].partition(": ")
        if kind:
            found.append((name.removeprefix("mut "), plain(kind, own)))
        else:
            found.append(("self", plain(name).replace("mut self", "self").replace("self", own)))
    return found


def functions(text):
    """Each function, those of impls too."""
    inside = list(impls(text))
    for m in FN.finditer(text):
        impl = next((i for i in inside if i.start < m.start() < i.end), None)
        if m.group(1) != ("    " if impl else ""):
            continue
        own = impl.type if impl else ""
        rest = tokens(text, m.end() - 1, m.end() + 2000)
        shut = rest[end_of(rest, 0)].end
        gives = re.match(r"(?: -> (.*?))?(?: \{)?\n", text[shut:] + "\n")
        takes = parameters(uncommented(text[m.end() : shut - 1]), own)
        name = f"{impl.name}::{m.group(2)}" if impl else m.group(2)
        yield Function(impl, name, m.group(1), takes, plain(gives.group(1) or "", own) if gives else "", m.start(), shut)


def bodies(text):
    """The body of each function of which something is promised."""
    found = []
    for f in functions(text):
        if f.impl and not f.impl.promises:
            continue
        line = text.index("\n", f.shut)
        alone = not text[f.shut : line].endswith("{")
        start = text.index(f"\n{f.indent}{{\n", f.shut) + len(f.indent) + 2 if alone else line
        end = text.index(f"\n{f.indent}}}\n", start) + 1 + len(f.indent)
        found.append(Part(f.name, start, end, f.takes, f.gives))
    return found


def constants(text):
    """Each constant, from its '=' on."""
    found = []
    for m in CONST.finditer(text):
        impl = next((i for i in impls(text) if i.start < m.start() < i.end), None)
        name = f"{impl.name}::{m.group(2)}" if impl else m.group(2)
        found.append(Part(name, text.index("=", m.start()) + 1, m.end() - 1, [], plain(m.group(3), impl.type if impl else "")))
    return found


def is_constant(name):
    """A constant, also an impl's, as against a function."""
    return name.split("::")[-1].isupper()


def path_of(file, name):
    """A function's path in what the check says, after its crate's name. A file is a module, but the crate's first; an impl of a trait is called by
    the words of its type, its trait and the trait's arguments."""
    owner, _, own = name.rpartition("::")
    trait, _, kind = owner.rpartition(" for ")
    words = re.findall(r"\w+", f"{kind} " + re.sub(r"\w+::", "", trait))
    module = [] if file in ("lib.rt", "main.rt") else [file.removesuffix(".rt")]
    return "::".join([*module, *["".join(w[0].upper() + w[1:] for w in words)][: bool(words)], own])


class Names:
    """What the crates declare: parameters with their types and what is given, structs' fields, enums' variants, constants' types. A function goes
    by its crate, one of an impl by the impl's type."""

    def __init__(self, crates):
        self.parameters, self.results, self.structs, self.enums, self.constants = {}, {}, {}, {}, {}
        for crate in sorted(crates.iterdir()):
            for file in sorted((crate / "src").glob("*.rt")):
                self.read(crate.name, file.read_text())

    def read(self, crate, text):
        for f in functions(text):
            key = (f.impl.type if f.impl else crate, f.name.split("::")[-1])
            self.parameters[key], self.results[key] = f.takes, f.gives
        for c in constants(text):
            owner, _, name = c.name.rpartition("::")
            self.constants[owner or crate, name] = c.gives
        for kind, name, said in TYPE.findall(text):
            inside = re.sub(r"^ *ghost .*", "", uncommented(said), flags=re.M)
            if kind == "struct":
                self.structs[name] = {f: plain(t) for f, t in re.findall(r"(\w+): ([^,\n]+)", inside)}
            else:
                self.enums[name] = dict(re.findall(r"(\w+)(?:\(([^)]*)\))?,", inside))

    def owner(self, crate, path):
        """A function's key, by its path."""
        return (path[0] if len(path) == 2 else crate, path[-1])

    def taken(self, crate, path):
        """The types that a call or a variant takes, by its path; None where it is neither."""
        if len(path) == 2 and path[1] in self.enums.get(path[0], {}):
            return [t.strip() for t in self.enums[path[0]][path[1]].split(",")]
        pairs = self.parameters.get(self.owner(crate, path))
        return None if pairs is None else [kind for _, kind in pairs]

    def next_variant(self, name, variant):
        """The next variant of the enum with the same payload, in a ring; None where there is no other."""
        payload = self.enums[name][variant]
        return following([v for v, p in self.enums[name].items() if p == payload], variant)

    def held_variant(self, name, variant):
        """In place of a variant that holds nothing one that holds a flag or a number, with false or 0."""
        if self.enums[name][variant]:
            return None
        least = {"bool": "false", "u64": "0", "usize": "0"}
        return next((f"{v}({least[p]})" for v, p in self.enums[name].items() if p in least), None)

    def next_field(self, struct, field):
        """The next field of the same type of a struct."""
        fields = self.structs.get(struct, {})
        return following([f for f, t in fields.items() if t == fields[field]], field) if field in fields else None

    def next_method(self, kind, name):
        """The next method of a type that takes and gives the same."""
        key = (kind, name)
        same = [n for k, n in self.parameters if k == kind and self.shape(k, n) == self.shape(*key)]
        return following(same, name) if key in self.parameters else None

    def shape(self, kind, name):
        return [t for _, t in self.parameters[kind, name]], self.results[kind, name]

    def next_constant(self, owner, name):
        kind = self.constants.get((owner, name))
        return following([n for (o, n), k in self.constants.items() if o == owner and k == kind], name) if kind else None


def following(ring, one):
    after = ring[(ring.index(one) + 1) % len(ring)]
    return None if after == one else after


def sources(root, crate):
    return sorted(Path(root, "crates", crate, "src").glob("*.rt"))
