"""Changes to AML by one who sees its structure: terms and packages go, come and move, with the lengths around them;
and to whole sets of tables, given by the contents of files: to the AML of a table, to headers, or to files."""

import contextlib
import functools
import re
from collections import namedtuple

from namespaces import Namespace, RunReader
from dumps import HEADER_LENGTH, MAP_NAME
from made_code import LEADS, LIKELY_BYTES, WIDEST, damaged, package_length
from made_sets import BLOCKS, SetMaker, Trial, sealed
from reading import EXTERNAL, METHOD, NAME_LEADS, ROWS, Reader, Refused

SEGMENT = re.compile(rb"[A-Z_][A-Z0-9_]{3}")
MOST_TERMS, LONGEST_TERM, MOST_CHANGES = 3000, 400, 4
Span = namedtuple("Span", "start end")
# Where a package length stands, its bytes, and where the package ends
Package = namedtuple("Package", "at width end")
# Where the terms of a table's AML stand, as far as it can be read, those of them in bodies of methods, and its packages
Layout = namedtuple("Layout", "terms in_bodies packages")


class Surveying:
    """A reader that keeps where terms and packages stand. Its code is that of a table from the byte `base` on."""

    def survey(self, layout, base=0):
        self.layout, self.base = layout, base
        with contextlib.suppress(Refused):
            self.read()

    def term(self, at, end, *rest):
        term, after = super().term(at, end, *rest)
        span = Span(self.base + at, self.base + after)
        self.layout.terms.append(span)
        if not self.is_table:
            self.layout.in_bodies.append(span)
        return term, after

    def operation(self, start, opcode, at, end, *rest):
        if ROWS[opcode].packed:
            value, width = self.length(at, end)
            if at + width <= at + value <= end:
                self.layout.packages.append(Package(self.base + at, width, self.base + at + value))
        return super().operation(start, opcode, at, end, *rest)


class BodySurveyor(Surveying, Reader):
    pass


class TableSurveyor(Surveying, RunReader):
    pass


@functools.lru_cache(maxsize=32)
def layouts_of(codes):
    """The layouts of tables in load order, each up to its first fault, with the bodies of the methods there."""
    layouts, space = [Layout([], [], []) for _ in codes], Namespace()
    for table, (code, layout) in enumerate(zip(codes, layouts)):
        TableSurveyor(code, space=space, table=table).survey(layout)
    for path, table, start, end in space.methods:
        BodySurveyor(codes[table][start:end], space.arity(path), path).survey(layouts[table], start)
    return layouts


def replaced(code, layout, span, new):
    """The code with other bytes in a span, and the packages around it as long as they then are."""
    return stretched(code[:span.start] + new + code[span.end:], layout, span, len(new) - (span.end - span.start))


def stretched(code, layout, span, grown):
    """The code with the packages around a span by so many bytes longer."""
    for at, width, end in sorted(layout.packages, reverse=True):
        if at + width <= span.start and span.end <= end:
            length = package_length(max(end - at - width + grown, 0), width)
            code, grown = code[:at] + length + code[at + width:], grown + len(length) - width
    return code


class Mutator:
    """Changes one table's AML in one way. `others` are the bytes of terms of other tables."""

    def __init__(self, chance, others):
        self.chance, self.others = chance, others
        cut = lambda code, _: code[:chance.randrange(len(code))]
        replace = lambda code, layout: replaced(code, layout, self.span(layout), chance.choice(others or [b"\xa3"]))
        self.ways = [
            self.flip, self.damage, cut, self.rename, self.change_term, self.move_term, replace, self.wrap,
            self.change_opcode, self.change_flags,
        ]

    def mutated(self, code, layout):
        ways = self.ways + ([self.change_length, self.stretch_all] if layout.packages else [])
        return (self.chance.choice(ways) if code else self.damage)(code, layout)

    def span(self, layout):
        """Where a term stands: mostly in a body, since a change elsewhere often refuses the whole set."""
        terms = layout.in_bodies if self.chance.random() < 0.7 else layout.terms
        return self.chance.choice(terms or layout.terms or [Span(0, 0)])

    def flip(self, code, layout):
        start, end = self.span(layout)
        if start == end:
            start, end = 0, len(code)
        code = bytearray(code)
        for _ in range(self.chance.choice((1, 1, 2, 4))):
            code[self.chance.randrange(start, end)] ^= 1 << self.chance.randrange(8)
        return bytes(code)

    def damage(self, code, layout):
        start, end = span = self.span(layout)
        return replaced(code, layout, span, damaged(self.chance, code[start:end]))

    def rename(self, code, layout):
        places = [match.start() for match in SEGMENT.finditer(code)]
        if len(places) < 2:
            return self.flip(code, layout)
        to, source = self.chance.sample(places, 2)
        return code[:to] + code[source:source + 4] + code[to + 4:]

    def change_term(self, code, layout):
        """A term is gone, stands there again and again, or is another one of the table."""
        start, end = span = self.span(layout)
        how = self.chance.randrange(3)
        if how == 0:
            return replaced(code, layout, span, b"")
        if how == 1:
            return replaced(code, layout, Span(end, end), code[start:end] * self.chance.choice((1, 1, 2, 30)))
        return replaced(code, layout, self.span(layout), code[start:end])

    def move_term(self, code, layout):
        """A term of the table, one of another table, or likely bytes come between two terms."""
        start, end = self.span(layout)
        likely = bytes(self.chance.choice(LIKELY_BYTES) for _ in range(self.chance.choice((1, 1, 2, 5))))
        new = self.chance.choice((code[start:end], self.chance.choice(self.others or [b"\xa3"]), likely))
        at = self.chance.choice(self.span(layout))
        return replaced(code, layout, Span(at, at), new)

    def wrap(self, code, layout):
        """A term within Ifs, or within LNots."""
        span = self.span(layout)
        inner = code[span.start:span.end]
        levels = self.chance.choice((1, 2, 5, 500 + self.chance.randrange(16)))
        if self.chance.random() < 0.5:
            return replaced(code, layout, span, b"\x92" * levels + inner)
        for _ in range(levels):
            inner = b"\xa0" + package_length(len(inner) + 1, 1) + b"\0" + inner
        return replaced(code, layout, span, inner)

    def change_opcode(self, code, layout):
        start, _ = self.span(layout)
        end = min(start + (2 if code[start:start + 1] == b"\x5b" else 1), len(code))
        return replaced(code, layout, Span(start, end), self.chance.choice(list(LEADS.values())))

    def change_flags(self, code, layout):
        """Another byte behind the name of a Method or an External, in which the count of arguments stands."""
        methods = [(at + width, 0) for at, width, _ in layout.packages if code[at - 1] == METHOD]
        externals = [(start + 1, 1) for start, _ in layout.terms if code[start] == EXTERNAL]
        if not methods + externals:
            return self.flip(code, layout)
        name, further = self.chance.choice(methods + externals)
        at = name_end(code, name) + further
        return code[:at] + bytes([self.chance.choice((0, 1, 2, 7, self.chance.randrange(256)))]) + code[at + 1:]

    def change_length(self, code, layout):
        """One package length a bit more or less, or any; or with more bytes than it needs."""
        at, width, end = self.chance.choice(layout.packages)
        content, least = end - at - width, width
        if self.chance.random() < 0.5:
            least = self.chance.randrange(width, WIDEST + 1)
        else:
            content += self.chance.choice((-4, -2, -1, 1, 2, 4, self.chance.randrange(-content, 300)))
        return replaced(code, layout, Span(at, at + width), package_length(max(content, 0), least))

    def stretch_all(self, code, layout):
        """A package and those around it by as much longer or shorter."""
        at, width, end = self.chance.choice(layout.packages)
        return stretched(code, layout, Span(at + width, end), self.chance.choice((-3, -2, -1, 1, 2, 3)))


def name_end(code, at):
    """Where the name at an offset ends, or the offset itself where none stands there."""
    with contextlib.suppress(Refused):
        if at < len(code) and code[at] in NAME_LEADS:
            return Reader(code).name(at, len(code))[1]
    return at


def is_block(data):
    return data.startswith(BLOCKS) and len(data) >= HEADER_LENGTH


class MutatedMaker(SetMaker):
    """Makes sets with changes, of those of a SetMaker and of known ones, with terms of those that it learned to know."""

    def __init__(self, chance, *others):
        super().__init__(chance, *others)
        self.terms = []
        self.mutator = Mutator(chance, self.terms)
        more = lambda files, name: {**files, name: files[name] + chance.randbytes(chance.choice((1, 4, 40)))}
        without = lambda files, name: {kept: data for kept, data in files.items() if kept != name}
        self.ways = [self.file_bytes, self.header, self.file_cut, more, without, self.with_copy, self.halves]
        for files in self.known:
            self.learn(files)

    def trial(self):
        if self.known and self.happens(0.6):
            files = self.chance.choice(self.known)
            trial = Trial(files, self.options(True), self.known_externals(files))
        else:
            trial = super().trial()
            self.learn(trial.files)
        for _ in range(self.chance.choice((1, 1, 1, 2, MOST_CHANGES))):
            trial = trial._replace(files=self.mutated(trial.files))
        return trial

    def known_externals(self, files):
        """A file for `--externals` with names that stand in the tables."""
        if not self.gives or self.happens(0.2):
            return None
        found = {segment.decode() for code in blocks_of(files)[1] for segment in SEGMENT.findall(code)}
        segments = sorted(found) or ["AAAA"]
        paths = [".".join(self.chance.choices(segments, k=self.chance.choice((1, 1, 1, 2, 3)))) for _ in range(20)]
        return "".join(f"\\{path} {self.chance.randrange(8)}\n" for path in paths).encode()

    def learn(self, files):
        """Keeps terms of a set to be put into others, in place of some of those kept."""
        _, codes = blocks_of(files)
        for code, layout in zip(codes, layouts_of(codes)):
            terms = layout.in_bodies * 3 + layout.terms
            short = [code[start:end] for start, end in terms if end - start <= LONGEST_TERM]
            for term in self.chance.sample(short, min(len(short), 100)):
                if len(self.terms) < MOST_TERMS:
                    self.terms.append(term)
                else:
                    self.terms[self.chance.randrange(MOST_TERMS)] = term

    def mutated(self, files):
        names, codes = blocks_of(files)
        if not names or self.chance.random() < 0.08:
            return self.chance.choice(self.ways)(files, self.chance.choice(list(files))) if files else {}
        index = self.chance.randrange(len(names))
        code = self.mutator.mutated(codes[index], layouts_of(codes)[index])
        return {**files, names[index]: self.summed(files[names[index]][:HEADER_LENGTH] + code)}

    def summed(self, data):
        """A table with its length and its checksum repaired, as a rule."""
        return sealed(data) if len(data) >= HEADER_LENGTH and self.chance.random() < 0.97 else data

    # ---- ways to change a set, in a file of this name or in others

    def file_bytes(self, files, name):
        return {**files, name: self.mutator.flip(files[name], Layout([], [], [])) if files[name] else b"\0"}

    def header(self, files, name):
        """A byte of a header, mostly with the checksum repaired."""
        names, _ = blocks_of(files)
        if not names:
            return self.file_bytes(files, name)
        data = bytearray(files[name := self.chance.choice(names)])
        data[self.chance.randrange(HEADER_LENGTH)] = self.chance.choice((0, 1, 36, 0xFF, self.chance.randrange(256)))
        if self.chance.random() < 0.8:
            data[9] = (data[9] - sum(data)) % 256
        return {**files, name: bytes(data)}

    def file_cut(self, files, name):
        data = files[name][:self.chance.randrange(len(files[name]) + 1)]
        return {**files, name: self.summed(data) if is_block(data) else data}

    def with_copy(self, files, name):
        """One more file, with what another has, mostly as an SSDT."""
        data = files[name]
        if is_block(data) and self.chance.random() < 0.8:
            data = sealed(b"SSDT" + data[4:])
        return {**files, f"copy{self.chance.randrange(100)}.dat": data} if name != MAP_NAME else files

    def halves(self, files, name):
        """The first bytes of a table, and behind them the last of another."""
        names, codes = blocks_of(files)
        if len(names) < 2:
            return self.file_cut(files, name)
        first, second = self.chance.sample(range(len(names)), 2)
        head, tail = codes[first], codes[second]
        code = head[:self.chance.randrange(len(head) + 1)] + tail[self.chance.randrange(len(tail) + 1):]
        return {**files, names[first]: self.summed(files[names[first]][:HEADER_LENGTH] + code)}


def blocks_of(files):
    """The names of the definition blocks with a whole header, the DSDT first, and the AML of each."""
    names = sorted((name for name, data in files.items() if is_block(data)), key=lambda name: (files[name][:4], name))
    return names, tuple(files[name][HEADER_LENGTH:] for name in names)
