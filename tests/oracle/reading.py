"""AML read after docs/grammar.md, by a plain recursive reader that shares nothing with the program.

It is slow and simple on purpose: what it prints is compared with what the program prints."""

import pathlib
import sys
from collections import namedtuple
from dataclasses import dataclass, field

MOST_LEVELS = 512
# A level of terms is a few calls deep, when it is read and when it is printed.
sys.setrecursionlimit(20_000)


class Refused(Exception):
    """A fault: its name, the offset or the path that goes with it, and the number of the table that it is about."""

    def __init__(self, name, at=None, path=None):
        super().__init__(name)
        self.name, self.at, self.path, self.table = name, at, path, None

    def __str__(self):
        return self.name + (f" at {self.at}" if self.at is not None else "") + (f" {self.path}" if self.path else "")


def require(holds, kind, *fault):
    """Refuses what doesn't hold, with a fault of a kind."""
    if not holds:
        raise kind(*fault)


# An opcode: its mnemonic, whether it has a package length, the kinds of its parts, the kind of its tail, its group
Row = namedtuple("Row", "mnemonic packed parts tail group")


def rows_of(group, lines):
    """The rows of a group of the table, each as `opcode mnemonic [kinds]`."""
    for opcode, mnemonic, *kinds in map(str.split, lines):
        letters = "".join(kinds)
        tail = letters[-1:] if letters[-1:] in "tyefb" else ""
        yield int(opcode, 16), Row(mnemonic, letters.startswith("P"), letters.removeprefix("P").removesuffix(tail), tail, group)


# The one table of opcodes in Python, by groups, which the scripts of examples go by too
TABLE = pathlib.Path(__file__).resolve().parents[2] / "examples/acpidis_tools/opcodes.txt"
ROWS = dict(row for group, *lines in map(str.splitlines, TABLE.read_text().split("\n\n")[1:]) for row in rows_of(group, lines))

ALIAS, SCOPE, METHOD, EXTERNAL, IF, ELSE, RETURN, BUFFER = 0x06, 0x10, 0x14, 0x15, 0xA0, 0xA1, 0xA4, 0x11
SCOPES = {SCOPE, 0x5B82, 0x5B83, 0x5B84, 0x5B85}
FIELD_LISTS = {0x5B81, 0x5B86, 0x5B87}
TARGETS = set(range(0x60, 0x6F)) | {0x5B31, 0x71, 0x83, 0x88}
DATA = {0x00, 0x01, 0xFF, 0x5B30, 0x0A, 0x0B, 0x0C, 0x0D, 0x0E, 0x11, 0x12, 0x13}
KINDS = {
    0x08: "Name", 0x5B01: "Mutex", 0x5B02: "Event", 0x5B80: "Region", 0x5B88: "DataRegion", 0x5B82: "Device",
    0x5B83: "Processor", 0x5B84: "PowerResource", 0x5B85: "ThermalZone",
    **dict.fromkeys((0x5B13, 0x8A, 0x8B, 0x8C, 0x8D, 0x8F), "BufferField"),
}
# The bytes that a segment may begin with, and a name
LETTERS = {*b"ABCDEFGHIJKLMNOPQRSTUVWXYZ_"}
NAME_LEADS = LETTERS | {*b"\\^./"}


class Name(namedtuple("Name", "root ups segs")):
    def __str__(self):
        return ("\\" if self.root else "") + "^" * self.ups + ".".join(self.segs)

    def placed(self, scope):
        """Where the name leads from a scope without a search, or None above the root."""
        if self.root:
            return tuple(self.segs)
        return None if self.ups > len(scope) else scope[:len(scope) - self.ups] + tuple(self.segs)

    def candidates(self, scope):
        if not self.root and not self.ups and len(self.segs) == 1:
            return [scope[:length] + tuple(self.segs) for length in range(len(scope), -1, -1)]
        path = self.placed(scope)
        return [] if path is None else [path]


Named = namedtuple("Named", "name args")


@dataclass
class Op:
    """Parts are terms, names, bytes of a text, pairs of a width and a number, or None for a target that isn't there."""

    opcode: int
    parts: list
    tail: object = None

    @property
    def row(self):
        return ROWS[self.opcode]

    def names(self):
        return [part for part in self.parts if isinstance(part, Name)]

    def declared(self):
        if self.opcode in KINDS or self.opcode in (METHOD, ALIAS):
            return self.names()[-1:]
        if self.opcode in FIELD_LISTS:
            return [Name(False, 0, [unit[1]]) for unit in self.tail if unit[0] == "unit"]
        return []


@dataclass
class Reader:
    """Reads code. A body's `arity` says how many arguments a name takes, by the paths that it declared so far."""

    code: bytes
    arity: object = None
    path: tuple = ()
    declared: set = field(default_factory=set)

    @property
    def is_table(self):
        return self.arity is None

    @property
    def outermost(self):
        return "module" if self.is_table else "body"

    def read(self):
        return self.terms(0, len(self.code), self.outermost, 1)

    def byte(self, at, end):
        if at >= end:
            raise Refused("Truncated", end)
        return self.code[at]

    def length(self, at, end):
        """A package length's value and its bytes."""
        lead = self.byte(at, end)
        more = lead >> 6
        if not more:
            return lead & 0x3F, 1
        require(not lead & 0x30, Refused, "PkgBits", at)
        return sum((self.byte(at + 1 + n, end) << (4 + 8 * n) for n in range(more)), lead & 0x0F), 1 + more

    def segment(self, at, end):
        for n in range(4):
            byte = self.byte(at + n, end)
            require(byte in LETTERS or n and 0x30 <= byte <= 0x39, Refused, "BadName", at + n)
        return self.code[at:at + 4].decode()

    def name(self, at, end):
        root, ups = self.byte(at, end) == 0x5C, 0
        at += root
        while not root and self.byte(at, end) == 0x5E:
            ups, at = ups + 1, at + 1
        lead, count = self.byte(at, end), 1
        if lead == 0x00:
            return Name(root, ups, []), at + 1
        if lead == 0x2E:
            count, at = 2, at + 1
        elif lead == 0x2F:
            count, at = self.byte(at + 1, end), at + 2
            require(count, Refused, "BadName", at - 1)
        return Name(root, ups, [self.segment(place, end) for place in range(at, at + 4 * count, 4)]), at + 4 * count

    def segmented(self, at, end):
        name, rest = self.name(at, end)
        require(name.segs, Refused, "EmptyName", at)
        return name, rest

    def terms(self, at, end, position, level):
        terms = []
        while at < end:
            behind_if = bool(terms) and isinstance(terms[-1], Op) and terms[-1].opcode == IF
            term, at = self.term(at, end, position, level, behind_if)
            terms.append(term)
        return terms

    def term(self, at, end, position, level, behind_if=False):
        lead = self.byte(at, end)
        require(level <= MOST_LEVELS, Refused, "TooDeep", at)
        if lead in NAME_LEADS:
            require(position not in ("module", "guard"), Refused, "ModuleCode", at)
            return self.named(at, end, position, level)
        if position == "S" and lead == 0x00:
            return None, at + 1
        opcode, rest = (0x5B00 | self.byte(at + 1, end), at + 2) if lead == 0x5B else (lead, at + 1)
        require(opcode in ROWS, Refused, "UnknownOp", at)
        fault = misplaced(opcode, position, behind_if)
        require(not fault, Refused, fault, at)
        return self.operation(at, opcode, rest, end, position, level)

    def named(self, at, end, position, level):
        name, rest = self.name(at, end)
        args = []
        if position in ("T", "body", "run"):
            for _ in range(self.count(name, at)):
                arg, rest = self.term(rest, end, "T", level + 1)
                args.append(arg)
        return Named(name, args), rest

    def count(self, name, at):
        """How many arguments a name has that stands where a value is wanted, or as a term."""
        if self.is_table:
            return 0
        count = self.arity(self.declared, name)
        require(count is not None, Refused, "UnknownName", at)
        return count

    def operation(self, start, opcode, at, end, position, level):
        row = ROWS[opcode]
        if row.packed:
            value, width = self.length(at, end)
            require(width <= value <= end - at, Refused, "PkgPast", at)
            at, end = at + width, at + value
        if position == "module" and opcode == IF:
            require(self.byte(at, end) == 0x00, Refused, "ModuleCode", start)
        parts = []
        for kind in row.parts:
            part, at = self.part(at, end, kind, opcode, len(parts), level)
            parts.append(part)
        term = Op(opcode, parts)
        if row.tail == "t":
            term.tail = self.block(term, at, end, level)
        elif row.tail == "e":
            term.tail = self.terms(at, end, "D", level + 1)
        elif row.tail == "y":
            term.tail = self.code[at:end]
        elif row.tail == "f":
            term.tail = self.units(at, end, level)
        elif row.tail == "b":
            term.tail = at, end
        self.leave(term)
        return term, end if row.tail else at

    def block(self, term, at, end, level):
        is_guard = self.outermost == "module" and term.opcode == IF
        return self.terms(at, end, "guard" if is_guard else self.outermost, level + 1)

    def leave(self, term):
        """Keeps what a term declares for those behind it."""
        if not self.is_table:
            self.declared |= {name.placed(self.path) for name in term.declared()} - {None}

    def part(self, at, end, kind, opcode, number, level):
        if kind in "TSD":
            return self.term(at, end, kind, level + 1)
        if kind == "N":
            return self.name(at, end) if opcode == SCOPE else self.segmented(at, end)
        if kind == "Z":
            text = at
            while self.byte(at, end):
                at += 1
            return self.code[text:at], at + 1
        width = int(kind)
        value = sum(self.byte(at + n, end) << 8 * n for n in range(width))
        require(opcode != EXTERNAL or number != 2 or value <= 7, Refused, "BadCount", at)
        return (width, value), at + width

    def units(self, at, end, level):
        units = []
        while at < end:
            lead = self.code[at]
            if lead == 0x00:
                bits, width = self.length(at + 1, end)
                unit, at = ("reserved", bits), at + 1 + width
            elif lead == 0x01:
                unit, at = ("access", self.byte(at + 1, end), self.byte(at + 2, end)), at + 3
            elif lead == 0x02:
                link, at = self.link(at + 1, end, level + 1)
                unit = "connection", link
            elif lead == 0x03:
                unit, at = ("extended", *(self.byte(at + n, end) for n in (1, 2, 3))), at + 4
            else:
                seg = self.segment(at, end)
                bits, width = self.length(at + 4, end)
                unit, at = ("unit", seg, bits), at + 4 + width
            units.append(unit)
        return units

    def link(self, at, end, level):
        lead = self.byte(at, end)
        if lead == BUFFER:
            require(level <= MOST_LEVELS, Refused, "TooDeep", at)
            return self.operation(at, BUFFER, at + 1, end, "T", level)
        require(lead == 0x00 or lead in NAME_LEADS, Refused, "BadName", at)
        name, at = self.segmented(at, end)
        return Named(name, []), at


def misplaced(opcode, position, behind_if):
    """Why an opcode can't stand in a position, if it can't."""
    group = ROWS[opcode].group
    if position == "module":
        return None if group == "declaration" or opcode == IF else "ModuleCode"
    if position == "guard":
        return None if opcode == EXTERNAL else "ModuleCode"
    if position == "run" and opcode == RETURN:
        return "ModuleCode"
    if position == "body" and opcode == METHOD:
        return "NestedMethod"
    if position == "body" and opcode in SCOPES:
        return "NestedScope"
    if position in ("run", "body"):
        return "StrayElse" if opcode == ELSE and not behind_if else None
    taken = group in ("value", "expression") if position == "T" else opcode in (TARGETS if position == "S" else DATA)
    return None if taken else "NotHere"
