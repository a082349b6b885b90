"""Makes up small tables as terms that declare, open and alias a few paths, so that these meet."""

import itertools
from collections import namedtuple

from made_code import LEADS, MOST_SEGMENTS, Chancy, package_length, shortest
from reading import ROWS, Name

# What a term has behind its names, and those with a package length
BEHIND = {
    "Name": b"\0", "External": b"\x08", "Mutex": b"\0", "Unit": b"\x08", "Field": b"\0", "Processor": bytes(6),
    "PowerResource": bytes(3), "If": b"\1", "While": b"\1",
}  # fmt: skip
PACKED = {row.mnemonic for row in ROWS.values() if row.packed}
COUNTED, BLOCKS = {"Method", "External"}, {"If", "Else", "While"}
DEVICES = ["Device", "Processor", "PowerResource", "ThermalZone"]
# How often each is made; a Device is now and then another of its like.
SHARES = {
    "Method": 10, "Name": 3, "Mutex": 1, "Field": 1, "External": 1, "Alias": 6,
    "Device": 9, "Scope": 5, "If": 6, "While": 1,
}
SEGMENTS, RARE_SEGMENTS = ["AAAA", "BBBB", "CCCC"], ["_SB_", "_OSI"]
MOST_DEPTH = 3


class Term(namedtuple("Term", "word names count inside", defaults=[(), 0, ()])):
    """A term: its names, of which it declares the last, the count of a method or an External, and what is inside."""

    def __str__(self):
        parts = [*map(str, self.names), *[str(self.count)] * (self.word in COUNTED)]
        head = self.word + (f" ({', '.join(parts)})" if parts else "")
        return head + (f" {{{text_of(self.inside)}}}" if self.word in PACKED and self.word != "Method" else "")

    def code(self):
        count = bytes([self.count]) if self.word in COUNTED else b""
        content = b"".join(map(shortest, self.names)) + BEHIND.get(self.word, b"") + count + code_of(self.inside)
        return LEADS.get(self.word, b"") + (package_length(len(content), 1) if self.word in PACKED else b"") + content


def root_name(path):
    return Name(True, 0, list(path))


def code_of(terms):
    return b"".join(term.code() for term in terms)


def text_of(terms):
    return "  ".join(map(str, terms))


class TermMaker(Chancy):
    """Makes tables of few paths. `paths` are those that the terms so far may declare."""

    def __init__(self, chance):
        self.chance, self.paths = chance, []

    def scenery(self, scope):
        """Terms in a scope, each in a list of its own; half of the time those of a scene are among them."""
        self.paths = []
        groups = self.groups(0, scope)
        if self.happens(0.5):
            place = self.chance.randrange(len(groups) + 1)
            groups[place:place] = [[term] for term in self.chance.choice((self.chained, self.opened, self.missed))()]
        return groups

    def tables(self):
        """The terms of two tables, the second of which may be empty."""
        groups = self.scenery(())
        cut = self.chance.choice([len(groups), self.chance.randrange(len(groups) + 1)])
        return [joined(groups[:cut]), joined(groups[cut:])]

    def terms(self, depth, scope):
        return joined(self.groups(depth, scope))

    def groups(self, depth, scope):
        """Terms, each in a list of its own, in which an Else may stand behind an If."""
        count = self.chance.randrange(3) if depth else self.chance.randrange(2, 7)
        return [self.group(self.term(depth, scope), depth, scope) for _ in range(count)]

    def group(self, term, depth, scope):
        if term.word != "If" or self.happens(0.6):
            return [term]
        return [term, Term("Else", inside=self.terms(depth + 1, scope))]

    def term(self, depth, scope):
        words = [word for word in SHARES if depth < MOST_DEPTH or word not in {"Device", "Scope", *BLOCKS}]
        word = self.chance.choices(words, map(SHARES.get, words))[0]
        if word in BLOCKS:
            return Term(word, inside=self.terms(depth + 1, scope))
        if word in ("Scope", "Device"):
            name = self.known_name(scope) if word == "Scope" else self.new_name(scope)
            word = self.chance.choice(DEVICES) if word == "Device" and self.happens(0.2) else word
            return Term(word, (name,), inside=self.terms(depth + 1, name.placed(scope) or ()))
        if word == "Field":
            return Term(word, (self.name(scope),), inside=tuple(self.unit(scope) for _ in range(2)))
        names = (self.known_name(scope), self.new_name(scope)) if word == "Alias" else (self.new_name(scope),)
        return Term(word, names, self.count())

    def unit(self, scope):
        name = Name(False, 0, [self.segment()])
        self.paths.append(name.placed(scope))
        return Term("Unit", (name,))

    def count(self):
        return self.chance.choice((0, 1, 1, 2))

    def new_name(self, scope):
        name = self.name(scope)
        self.paths += [path for path in [name.placed(scope)] if path]
        return name

    def known_name(self, scope):
        """A name that mostly leads to a path that may be declared."""
        how = self.chance.random()
        if not self.paths or how < 0.1:
            return self.name(scope)
        path = self.chance.choice(self.paths)
        return root_name(path) if how < 0.6 and len(path) <= MOST_SEGMENTS else Name(False, 0, [path[-1]])

    def name(self, scope):
        segs = [self.segment() for _ in range(1 if self.happens(0.65) else 2)]
        how = self.chance.random()
        if how < 0.15:
            return root_name(segs)
        return Name(False, 1 if scope and how < 0.25 else 0, segs)

    def segment(self):
        return self.chance.choice(RARE_SEGMENTS if self.happens(0.04) else SEGMENTS)

    # ---- scenes that terms by themselves seldom make

    def chained(self):
        """Methods, a path that may be an Alias of one of them, of another, or something else, and Aliases of it."""
        one, other, source, first, second = self.scene("MM1_", "MM2_", "SRC_", "NEW_", "NEX_")
        sources = [self.source(source, (one, other)) for _ in range(self.chance.choice((1, 2, 2, 3)))]
        aliases = [Term("Alias", (source, first)), *[Term("Alias", (first, second))] * self.chance.randrange(2)]
        last = self.method(self.chance.choice((source, first, second)))
        return [self.method(one), self.method(other), *map(self.maybe, (*sources, *aliases, last))]

    def source(self, name, targets):
        terms = [Term("Alias", (target, name)) for target in targets] * 2 + [self.method(name), Term("Name", (name,))]
        return self.chance.choice(terms)

    def opened(self):
        """A path that may be a scope or something else, a Scope of it, and a method by the path of one inside."""
        device, opened, inner = self.scene("DEV0", "OPEN", "OPEN.INNR")
        words = "Device", "Device", "Processor", "Name", "Mutex", "Method", "Alias"
        kinds = [self.chance.choice(words) for _ in range(self.chance.choice((1, 2, 2)))]
        declared = [Term(word, (device, opened) if word == "Alias" else (opened,)) for word in kinds]
        scope = Term("Scope", (opened,), inside=(self.method(Name(False, 0, inner.segs[1:])),))
        return [Term("Device", (device,)), *map(self.maybe, declared), scope, self.method(inner)]

    def missed(self):
        """A Device below what may not be there, with a method elsewhere, and then others of these paths."""
        device, below, outer = self.scene("DEV0", "DEV0.DEV1", "OUTR")
        first = Term(self.chance.choice(("Device", "Name", "Mutex")), (device,))
        missed = Term("Device", (below,), inside=(self.method(outer),))
        late = [Term("Device", (device,)), self.maybe(self.method(below)), self.method(outer)]
        return [self.maybe(first), missed, *late]

    def scene(self, *texts):
        names = [root_name(text.split(".")) for text in texts]
        self.paths += [tuple(name.segs) for name in names]
        return names

    def method(self, name):
        return Term("Method", (name,), self.count())

    def maybe(self, term):
        return Term("If", inside=(term,)) if self.happens(0.6) else term


def joined(groups):
    return tuple(itertools.chain.from_iterable(groups))
