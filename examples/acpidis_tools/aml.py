"""Reads the AML of tables from the left, as far as it can: for the scripts beside this file.

A name has the arguments that the tables told so far, and none where they told nothing. What comes is for looking at;
what tables mean the program alone says. The cost grows as the bytes, each read once: the search for names has a bound.
"""

import re
import sys
from collections import namedtuple

from acpidis_tools import standard
from acpidis_tools.listing import OPCODES, Name, path_of, path_text

HEADER, MOST_LEVELS = 36, 512
# A level of terms is a few calls deep.
sys.setrecursionlimit(20_000)
# A segment, or as much of one as stands there
SEGMENT = re.compile(rb"(?:[A-Z_][A-Z0-9_]{0,3})?")
NAME_LEADS = set(rb"ABCDEFGHIJKLMNOPQRSTUVWXYZ_\^./")
# What is read behind the parts of a term, by the kind of its tail
TAILS = {"t": "block", "e": "elements", "f": "units", "b": "body", "y": "rest"}
STEPS_PER_BYTE = 4
# What a package length stays below, by the number of its bytes
LIMITS = (1 << 6, 1 << 12, 1 << 20, 1 << 28)
KEPT_PLACES = 2
TEXT_LENGTH, TEXT_LINES = 160, 8

# The groups of opcodes.txt, the last of which declare; each opcode with its mnemonic and the letters of its kinds
GROUPS = [list(map(str.split, text.splitlines()[1:])) for text in OPCODES.split("\n\n")[1:]]
ROWS = {int(opcode, 16): (word, "".join(kinds)) for group in GROUPS for opcode, word, *kinds in group}
# The kinds of each mnemonic's parts, without the letters of what has a length.
PARTS = {word: kinds.lstrip("P").rstrip("tyefb") for word, kinds in ROWS.values()}
SMALL = {"Zero": 0, "One": 1}
OPENERS = {"Device", "Processor", "PowerResource", "ThermalZone"}
FIELD_LISTS = {"Field", "IndexField", "BankField"}
# The terms that declare the last of their names.
DECLARERS = {word for _, word, *_ in GROUPS[-1]} - FIELD_LISTS - {"Scope", "External"}
# Those that have other names too, before the one that they declare.
NAMED_LAST = {"Alias"} | {word for word in DECLARERS if word.startswith("Create")}
CONSTANTS = {"Byte", "Word", "Dword", "Qword", "Text"}
# A name where a value is wanted: its term, the scope, the count that is known there, and the terms around it
Use = namedtuple("Use", "term name scope read around")


class Stopped(Exception):
    """The reader came to the offset at which it was to stop, or can't go on there."""


class TooManySteps(Exception):
    """The scopes are so deep that the search for names would take too long."""


class Term:
    """A term: where it begins, its mnemonic or its name, its parts (terms, names and texts), and what is inside it."""

    __slots__ = ("at", "word", "parts", "tail")

    def __init__(self, at, word):
        self.at, self.word, self.parts, self.tail = at, word, [], None

    def names(self):
        return [part for part in self.parts if isinstance(part, Name)]


# ---- the namespace


class Node:
    """A path: what declares it, as tables, offsets and mnemonics; and how many arguments it takes, if it is known."""

    __slots__ = ("above", "segment", "below", "places", "is_predefined", "count", "external", "given", "target")

    def __init__(self, above, segment):
        self.above, self.segment, self.is_predefined, self.count, self.places = above, segment, False, 0, ()
        self.below = self.external = self.given = self.target = None

    def at(self, segments):
        """The node of some segments below it, made where it isn't there."""
        node = self
        for segment in segments:
            if node.below is None:
                node.below = {}
            if segment not in node.below:
                node.below[segment] = Node(node, segment)
            node = node.below[segment]
        return node

    def there(self, segments):
        """The same, where it is there, else None."""
        node = self
        for segment in segments:
            node = node.below.get(segment) if node and node.below else None
        return node

    def path(self):
        segments, node = [], self
        while node.above:
            segments.append(node.segment)
            node = node.above
        return path_text(reversed(segments))

    def is_declared(self):
        return self.is_predefined or bool(self.places)


class Space:
    """What the tables declared so far, as a tree, so that a name is found without making each path that it may mean."""

    def __init__(self, size):
        self.root, self.steps = Node(None, ""), STEPS_PER_BYTE * size + 100_000
        self.root.is_predefined = True
        for segment, kind in standard.PREDEFINED.items():
            node = self.root.at([segment])
            node.is_predefined, node.count = True, int(kind.partition(" ")[2] or 0)

    def node(self, path):
        """The node of a path of the program's text, made where it isn't there."""
        return self.root.at(path_of(path))

    def start(self, scope, name):
        """The node below which the segments of a name are placed, None above the root."""
        node = self.root if name.root else scope
        for _ in range(name.ups):
            node = node and node.above
        return node

    def place(self, scope, name):
        """The node at which a name is placed, made where it isn't there."""
        node = self.start(scope, name)
        return node and node.at(name.segments)

    def candidates(self, scope, name):
        """The nodes that are there at the paths that a name may mean, the nearest first."""
        node = self.start(scope, name)
        while node:
            if name.is_searched:
                self.steps -= 1
                if self.steps < 0:
                    raise TooManySteps
            found = node.there(name.segments)
            if found:
                yield found
            node = node.above if name.is_searched else None

    def find(self, scope, name):
        """What a name leads to: the first that is declared, else the first of an External; None where neither is."""
        external = None
        for node in self.candidates(scope, name):
            if node.is_declared():
                return node
            if external is None and node.external is not None:
                external = node
        return external

    def count(self, scope, name):
        """How many arguments the name takes, and the node that tells; None where nothing tells."""
        node = self.find(scope, name)
        if node is None:
            node = next((one for one in self.candidates(scope, name) if one.given is not None), None)
            return None if node is None else (node.given, node)
        node = node.target or node
        return (node.count, node) if node.is_declared() else (node.external or 0, node)


# ---- reading


class Reader:
    """Reads a table up to an offset. Where `has_calls` isn't set no name has arguments.

    When it stops, `open` are the terms that it is in, the outer first, `scope` is where it stands, and `before` the
    term in front, if it stands among the terms of a block.
    """

    def __init__(self, table, code, space, stop=None, has_calls=True):
        self.table, self.code, self.space, self.has_calls = table, code, space, has_calls
        self.stop = len(code) if stop is None else stop
        self.scope, self.open, self.uses, self.before, self.missing, self.wanted = space.root, [], [], None, [], []
        self.keeps = False

    def read(self):
        """Reads the whole table, and answers where it stopped."""
        try:
            self.terms(0, len(self.code), 1)
        except Stopped as stopped:
            return stopped.args[0]
        return len(self.code)

    def term_at(self, at):
        """The term there, read by itself with what is inside it; and None, or where it can't be read any further."""
        self.stop, self.keeps, self.has_calls, around = len(self.code), True, True, len(self.open)
        try:
            return self.term(at, len(self.code), "R", 1)[0], None
        except Stopped as stopped:
            return (self.open[around] if len(self.open) > around else None), stopped.args[0]

    def byte(self, at, end):
        if at >= end or at >= self.stop:
            raise Stopped(min(at, end))
        return self.code[at]

    def span(self, at, count, end):
        if at + count > min(end, self.stop):
            raise Stopped(min(end, self.stop))
        return self.code[at : at + count]

    def length(self, at, end):
        lead = self.byte(at, end)
        more = lead >> 6
        if more and lead & 0x30:
            raise Stopped(at)
        rest = int.from_bytes(self.span(at + 1, more, end), "little")
        return (lead & 0x0F | rest << 4 if more else lead & 0x3F), 1 + more

    # How many bits a unit has.
    bits = length

    def name(self, at, end):
        root = self.byte(at, end) == 0x5C
        start = at = at + root
        while not root and self.byte(at, end) == 0x5E:
            at += 1
        ups, lead, count = at - start, self.byte(at, end), 1
        if lead == 0x00:
            return Name(root, ups, ()), at + 1
        if lead == 0x2E:
            count, at = 2, at + 1
        elif lead == 0x2F:
            count, at = self.byte(at + 1, end), at + 2
        segments = tuple(self.segment(place, end) for place in range(at, at + 4 * count, 4))
        return Name(root, ups, segments), at + 4 * count

    def segment(self, at, end):
        form = SEGMENT.match(self.code, at, min(end, self.stop))
        if len(form[0]) < 4:
            raise Stopped(form.end())
        return form[0].decode()

    def terms(self, at, end, level):
        kept = []
        self.before = None
        while at < end:
            term, at = self.term(at, end, "R", level)
            self.before = term
            if self.keeps:
                kept.append(term)
        return kept

    def term(self, at, end, kind, level):
        lead = self.byte(at, end)
        if level > MOST_LEVELS:
            raise Stopped(at)
        if lead in NAME_LEADS:
            return self.named(at, end, kind, level)
        if kind == "S" and lead == 0x00:
            return Term(at, ""), at + 1
        opcode, rest = (lead << 8 | self.byte(at + 1, end), at + 2) if lead == 0x5B else (lead, at + 1)
        if opcode not in ROWS:
            raise Stopped(at)
        return self.operation(Term(at, ROWS[opcode][0]), ROWS[opcode][1], rest, end, kind, level)

    def named(self, at, end, kind, level):
        name, rest = self.name(at, end)
        term = Term(at, str(name))
        if kind in "TR":
            told = self.space.count(self.scope, name)
            count = told[0] if told and self.has_calls else 0
            self.uses.append(Use(term, name, self.scope, count, self.open[-1] if self.open else None))
            self.open.append(term)
            for _ in range(count):
                argument, rest = self.term(rest, end, "T", level + 1)
                term.parts.append(argument)
            self.open.pop()
        return term, rest

    def operation(self, term, kinds, at, end, kind, level):
        self.open.append(term)
        if kinds[:1] == "P":
            value, width = self.length(at, end)
            if value < width or at + value > end:
                raise Stopped(at)
            at, end, kinds = at + width, at + value, kinds[1:]
        for part in kinds.rstrip("tyefb"):
            made, at = self.part(part, at, end, level)
            term.parts.append(made)
        tail = kinds[-1:] if kinds[-1:] in TAILS else ""
        if tail:
            term.tail = getattr(self, TAILS[tail])(term, at, end, level)
        if kind == "R" and tail != "t":
            self.declare(term)
        self.open.pop()
        return term, end if tail else at

    def part(self, kind, at, end, level):
        if kind in "TSD":
            return self.term(at, end, kind, level + 1)
        if kind == "N":
            return self.name(at, end)
        if kind == "Z":
            close = self.code.find(0, at, min(end, self.stop))
            if close < 0:
                raise Stopped(min(end, self.stop))
            return self.code[at:close], close + 1
        width = int(kind)
        return (width, int.from_bytes(self.span(at, width, end), "little")), at + width

    def rest(self, _term, at, end, _level):
        """How many bytes are left."""
        return end - at

    # A method's body isn't read.
    body = rest

    def elements(self, _term, at, end, level):
        elements = []
        while at < end:
            element, at = self.term(at, end, "D", level + 1)
            elements.append(element)
        return elements

    def units(self, _term, at, end, level):
        """The names of a field list's units."""
        units = []
        while at < end:
            lead = self.byte(at, end)
            if lead == 0x00:
                at += 1 + self.bits(at + 1, end)[1]
            elif lead in (0x01, 0x03):
                width = 2 if lead == 0x01 else 3
                self.span(at + 1, width, end)
                at += 1 + width
            elif lead == 0x02:
                is_buffer = self.byte(at + 1, end) == 0x11
                at = (self.term(at + 1, end, "D", level + 1) if is_buffer else self.name(at + 1, end))[1]
            else:
                name, at = self.name(at, end)
                units.append(name)
                at += self.bits(at, end)[1]
        return units

    # ---- what terms do

    def block(self, term, at, end, level):
        outside = self.scope
        if term.word == "Scope":
            found, place = self.want(term)
            self.scope = found or place or outside
        elif term.word in OPENERS:
            self.scope = self.declared(term, term.names()[0]) or outside
        inside = self.terms(at, end, level + 1)
        self.scope = outside
        return inside

    def want(self, term):
        """What the first name of a Scope or an Alias leads to, and its place."""
        name = term.names()[0]
        found, place = self.space.find(self.scope, name), self.space.place(self.scope, name)
        self.wanted.append((term, self.scope, place))
        if found is None:
            self.missing.append((term, self.scope, place))
        return found, place

    def declare(self, term):
        names = term.names()
        if term.word in FIELD_LISTS:
            for unit in term.tail:
                self.declared(term, unit)
        elif term.word == "External":
            node = self.placed(term, names[0])
            if node:
                node.external = max(node.external or 0, term.parts[2][1] & 7)
        elif term.word == "Alias":
            found, _ = self.want(term)
            node = self.declared(term, names[1])
            if node and found is not node:
                node.target = node.target or (found and found.target or found)
        elif term.word in DECLARERS:
            self.declared(term, names[-1])

    def declared(self, term, name):
        node = self.placed(term, name)
        if node and not node.places and term.word == "Method":
            node.count = term.parts[1][1] & 7
        if node and len(node.places) < KEPT_PLACES:
            node.places += ((self.table, term.at, term.word),)
        return node

    def placed(self, term, name):
        node = self.space.place(self.scope, name)
        if node is None:
            self.missing.append((term, self.scope, None))
        return node


def code_of(dump):
    """The AML of a dump: what stands behind its header, up to its length."""
    return dump[HEADER : int.from_bytes(dump[4:8], "little")]


# ---- text


def pieces(part):
    """The text of a part, bit by bit."""
    if isinstance(part, (str, Name)):
        yield str(part)
    elif isinstance(part, bytes):
        yield f'"{standard.escaped(part[:TEXT_LENGTH], {*range(0x20, 0x7F)} - {0x22, 0x5C})}"'
    elif isinstance(part, tuple):
        yield f"0x{part[1]:0{2 * part[0]}X}"
    elif part.word in CONSTANTS and part.parts:
        yield from pieces(part.parts[0])
    else:
        yield part.word
        is_method = part.word == "Method"
        shown = [*part.parts[:1], *(str(flags & 7) for _, flags in part.parts[1:])] if is_method else part.parts
        yield from grouped(" (", shown, ")")
        if isinstance(part.tail, list) and part.word in ("Package", "VarPackage"):
            yield from grouped(" {", part.tail, "}")
        elif part.word == "Buffer" and part.tail is not None:
            yield f" {{{part.tail} bytes}}"


def grouped(left, parts, right):
    for number, part in enumerate(parts):
        yield ", " if number else left
        yield from pieces(part)
    if parts:
        yield right


def text(term):
    """A term on a line, cut where it is long."""
    line = ""
    for piece in pieces(term):
        line += piece
        if len(line) > TEXT_LENGTH:
            break
    return cut(line)


def cut(line):
    return line if len(line) <= TEXT_LENGTH else line[:TEXT_LENGTH] + " .."


def lines(term):
    """The first lines of a term: a block with the terms inside it."""
    shown = [line for line, _ in zip(block_lines(term, 0), range(TEXT_LINES + 1))]
    return shown if len(shown) <= TEXT_LINES else [*shown[:TEXT_LINES], ".."]


def block_lines(term, level):
    indent = "  " * level
    if term.word in FIELD_LISTS or term.word == "Method":
        yield f"{indent}{text(term)} {{..}}"
    elif isinstance(term.tail, list) and term.word not in ("Package", "VarPackage"):
        yield f"{indent}{text(term)} {{"
        for inner in term.tail:
            yield from block_lines(inner, level + 1)
        yield indent + "}"
    else:
        yield indent + text(term)
