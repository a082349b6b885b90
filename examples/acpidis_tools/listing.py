"""Reads a listing of acpidis, after docs/listing.md: the lines of the dumps, the namespace, and the lines of the
definition blocks as words, each with its depth and the line that closes what it opens."""

from __future__ import annotations

import errno
import os
import pathlib
import re
import stat
from collections import namedtuple
from functools import lru_cache

SEGMENT = r"[A-Z_][A-Z0-9_]{3}"
NAME = re.compile(rf"(?:\\|\^+)?{SEGMENT}(?:\.{SEGMENT})*(?!\w)|\\|\^+")
TEXT = r'"[^"]*"'
# A name has no small letter, and the word of each opcode has one. To look at the first sign of each saves time.
OPCODE = r"[A-Z](?=[A-Z]{0,30}[a-z])[A-Za-z]{1,30}[0-9]?"
WORD = re.compile(rf'(?=["0A-Z_\\^])({TEXT}|0x[0-9A-F]{{1,16}}(?!\w)|{NAME.pattern}|{OPCODE})')
BETWEEN = " (){},0123456789ABCDEF"
PATH = rf"\\(?:{SEGMENT}(?:\.{SEGMENT})*)?"
# With --any-run a row may have two marks: what only may stand, and what is declared several times.
KIND = rf"Method [0-7]|Alias {PATH}|(?!Method|Alias)[A-Z][A-Za-z]+"
ROW = re.compile(rf"  ({PATH}) ({KIND})( Maybe)?(?: Times ([1-9][0-9]{{0,8}}))?")
RAW = re.compile(r"Raw \{(?:[0-9A-F]{2}(?:, [0-9A-F]{2})*)?\}")
DUMP = re.compile(rf'(?:Table|Root) ({TEXT})(?: ({TEXT}) Length| Oem) .*')
# The parts of the line of a dump, with a revision in front of the OEM or behind it
HEADER = re.compile(
    r'(?:Table|Root) "[^"]*"(?: "(?P<signature>[^"]*)" Length (?P<length>\d+))?(?: Revision (?P<before>\d+))?'
    r'(?: Oem (?P<oems>"(?P<oem>[^"]*)"(?: "(?P<table>[^"]*)" (?P<revision>[0-9A-F]{8}))?))?'
    r'(?: Revision (?P<behind>\d+))?(?: Creator (?P<creators>"(?P<creator>[^"]*)" (?P<creator_revision>[0-9A-F]{8})))?'
    r'(?: (?P<leads>Rsdt [0-9A-F]+(?: Length (?P<root_length>\d+) Xsdt [0-9A-F]+)?))?'
    r'(?P<rest>(?: At (?P<address>[0-9A-F]{16}))?(?: BadSum)?)'
)
OPCODES = (pathlib.Path(__file__).parent / "opcodes.txt").read_text()
# With what a line of a block begins that is no name: the word of an opcode, a constant, or what stands in a field list
TERMS = {"Raw", "Reserved", "Access", "ExtendedAccess", "Connection"}
TERMS.update(re.findall(r"^[0-9A-F]+ (\w+)", OPCODES, re.MULTILINE))
BLOCK = re.compile(rf"DefinitionBlock \(({TEXT})\) {{")
PRINTED = bytes(range(0x20, 0x7F)) + b"\n"
# So many lines share their pieces with those that are alike.
MOST_KEPT = 10_000
# What editors and shells put in front of a text in UTF-8, and in UTF-16
MARKS = (b"\xef\xbb\xbf", b"\xff\xfe", b"\xfe\xff")
OF_SHELL = ("/dev/stdin", "/dev/fd/", "/dev/null", "/proc/")
DEFINITION_BLOCKS = ('"DSDT"', '"SSDT"')

Path = tuple[str, ...]
ROOT: Path = ()
# The line of a dump, its file and its signature, and the lines below it, with their numbers
Dump = namedtuple("Dump", "number text file signature notes")
# A definition block: its file, and the lines from its head to the one that closes it
Block = namedtuple("Block", "file lines")


class NoListing(Exception):
    """Why a text is no whole listing."""


def path_of(text: str) -> Path:
    """The path that a listing prints so."""
    return tuple(text[1:].split(".")) if len(text) > 1 else ROOT


def file_name(shown: str) -> bytes:
    """The name of the file that is shown so, in quotes or without."""
    return re.sub(rb"\\x([0-9A-F]{2})", lambda digits: bytes([int(digits[1], 16)]), shown.strip('"').encode())


def path_text(path: Path) -> str:
    return "\\" + ".".join(path)


class Name(namedtuple("Name", "root ups segments")):
    """A name: whether it counts from the root, how many scopes it goes up, and its segments."""

    @classmethod
    @lru_cache(maxsize=None)
    def of(cls, text: str) -> Name:
        bare, is_rooted = text.lstrip("\\^"), text.startswith("\\")
        return cls(is_rooted, 0 if is_rooted else len(text) - len(bare), tuple(bare.split(".")) if bare else ())

    def __str__(self) -> str:
        return "\\" * self.root + "^" * self.ups + ".".join(self.segments)

    @property
    def is_searched(self) -> bool:
        """Whether it is looked for in each scope around it."""
        return not self.root and not self.ups and len(self.segments) == 1

    def placed(self, scope: Path) -> Path | None:
        if self.root:
            return self.segments
        return None if self.ups > len(scope) else scope[:len(scope) - self.ups] + self.segments

    def candidates(self, scope: Path) -> list[Path]:
        if self.is_searched:
            return [scope[:length] + self.segments for length in range(len(scope), -1, -1)]
        path = self.placed(scope)
        return [] if path is None else [path]


class Line:
    """A line of a definition block: every second of its pieces is a word. It may open a block, up to the line `end`,
    and stands in that of the line `above`. `term` is the opcode's word or the name that it begins with, and nothing for
    the end of a block.

    `scope` is where its names are read, `method` the path of the method in whose body it stands, `declared` the place
    among its words of the name that it declares."""

    __slots__ = ("number", "depth", "pieces", "above", "term", "end", "scope", "method", "declared")

    def __init__(self, number: int, depth: int, pieces: list[str], above: Line | None):
        self.number, self.depth, self.pieces, self.above = number, depth, pieces, above
        self.term, self.end = pieces[1] if len(pieces) > 1 else "", 0
        self.scope: Path = ROOT
        self.method: Path | None = None
        self.declared: int | None = None

    @property
    def words(self) -> list[str]:
        return self.pieces[1::2]

    @property
    def bare(self) -> str:
        return "".join(self.pieces)

    @property
    def text(self) -> str:
        return "  " * self.depth + self.bare

    @property
    def code(self) -> bytes:
        """The bytes of a raw body."""
        return bytes.fromhex(self.pieces[2].strip(" {}").replace(",", ""))


class Row(namedtuple("Row", "number path kind is_maybe times", defaults=[False, 1])):
    """A declared path: the kind of its first declaration, whether it only may stand, and how often it is declared."""

    @property
    def marks(self) -> str:
        """What a reader sees of both."""
        return ", ".join(["maybe"] * self.is_maybe + [f"{self.times:,} times"] * (self.times > 1))


class Listing(namedtuple("Listing", "dumps rows blocks line_count above")):
    """A listing, with how many lines it has, and how many of these stand above the line `Namespace`."""

    @property
    def lines(self) -> list[Line]:
        return [line for block in self.blocks for line in block.lines]


@lru_cache(maxsize=MOST_KEPT)
def pieces_of(bare: str, is_head: bool) -> list[str]:
    """The pieces of a line without its indent, which lines that are alike share; none where it is none of a block."""
    pieces = WORD.split(bare) if bare != "}" else ["}"]
    is_wrong = len(pieces) == 1 and bare != "}" or bare.startswith("Raw") and not RAW.fullmatch(bare)
    # A name has no small letter.
    is_wrong = is_wrong or not is_head and bare[0].isupper() and bare[1].islower() and pieces[1] not in TERMS
    return [] if is_wrong or "".join(pieces[::2]).strip(BETWEEN) else pieces


class Reader:
    """Goes over the lines of a text that begins and ends as a listing does, counted from 1. They may end as on Windows."""

    def __init__(self, text: bytes):
        if not text:
            raise NoListing("it is empty")
        text = text.replace(b"\r\n", b"\n")
        odd = text.translate(None, PRINTED)
        if odd:
            number = text.count(b"\n", 0, text.index(odd[:1])) + 1
            is_marked = text.startswith(MARKS)
            said = "begins with a mark of UTF-8 or UTF-16" if is_marked else "has a byte that isn't printable ASCII"
            raise NoListing(f"line {number} {said}")
        *self.lines, rest = text.decode().split("\n")
        self.at = 0
        if not DUMP.fullmatch(self.lines[0] if self.lines else rest):
            raise NoListing("it doesn't begin as a listing of acpidis does, with a line Table or Root")
        if rest:
            raise NoListing(f"it is cut in line {len(self.lines) + 1}")

    def peek(self) -> str:
        return self.lines[self.at] if self.at < len(self.lines) else ""

    def refuse(self) -> NoListing:
        if self.at >= len(self.lines):
            return NoListing(f"it is cut behind line {len(self.lines)}")
        said = "is one of standard error" if self.peek().startswith("acpidis:") else "isn't one of a listing of acpidis"
        return NoListing(f"line {self.at + 1} {said}")

    def dumps(self) -> list[Dump]:
        dumps: list[Dump] = []
        while not self.peek().startswith("Namespace "):
            line, form = self.peek(), DUMP.fullmatch(self.peek())
            if form:
                dumps.append(Dump(self.at + 1, line, form[1], form[2] or "", []))
            elif dumps and line.startswith("  ") and line.strip():
                dumps[-1].notes.append((self.at + 1, line))
            else:
                raise self.refuse()
            self.at += 1
        return dumps

    def rows(self) -> list[Row]:
        head = re.fullmatch(r"Namespace ([0-9]{1,9})", self.peek())
        if not head:
            raise self.refuse()
        rows = []
        for _ in range(int(head[1])):
            self.at += 1
            form = ROW.fullmatch(self.peek())
            if not form:
                raise self.refuse()
            rows.append(Row(self.at + 1, path_of(form[1]), form[2], bool(form[3]), int(form[4] or 1)))
        self.at += 1
        return rows

    def block(self) -> Block:
        head = BLOCK.fullmatch(self.peek())
        if not head:
            raise self.refuse()
        lines = [self.line(None)]
        opened = [lines[0]]
        while opened:
            line = self.line(opened[-1])
            lines.append(line)
            if line.pieces == ["}"]:
                opened.pop().end = line.number
            elif line.pieces[-1].endswith("{"):
                opened.append(line)
        return Block(head[1], lines)

    def line(self, above: Line | None) -> Line:
        """The next line, in the block of another one: what closes that stands at its level."""
        text = self.peek()
        bare = text.lstrip(" ")
        depth = above.depth + (bare != "}") if above else 0
        pieces = pieces_of(bare, above is None)
        if not pieces or len(text) - len(bare) != 2 * depth:
            raise self.refuse()
        self.at += 1
        return Line(self.at, depth, pieces, above)


def check_file(file: str) -> None:
    """Refuses a pipe or a device, which may never end, but for standard input and those pipes that a shell made."""
    mode = os.stat(file).st_mode
    if not stat.S_ISREG(mode) and not stat.S_ISDIR(mode) and not os.fsdecode(file).startswith(OF_SHELL):
        what = "pipe" if stat.S_ISFIFO(mode) else "device"
        raise OSError(errno.EINVAL, f"it is a {what}, which may never end", file)


def read_file(file: str, most: int | None = None, why: str = "") -> bytes:
    """What a file has, or standard input for `-`. One of more than so many bytes is no listing, which is said with more
    words of `why`."""
    file = "/dev/stdin" if file == "-" else file
    check_file(file)
    with open(file, "rb") as it:
        text = it.read(None if most is None else most + 1)
    if most is not None and len(text) > most:
        raise NoListing(f"it has more than {most:,} bytes{why}")
    return text


def read_listing(text: bytes) -> Listing:
    reader = Reader(text)
    dumps, above = reader.dumps(), reader.at
    rows, blocks = reader.rows(), []
    while reader.at < len(reader.lines):
        blocks.append(reader.block())
    # There is a block of each table, but where addresses say which tables are loaded: there is one at least.
    tables = sum(dump.signature in DEFINITION_BLOCKS for dump in dumps)
    has_addresses = any(re.search(r" At [0-9A-F]{16}(?: BadSum)?$", dump.text) for dump in dumps)
    if len(blocks) < (1 if has_addresses else tables):
        raise NoListing(f"it is cut behind line {len(reader.lines)}: a definition block is missing")
    return Listing(dumps, rows, blocks, len(reader.lines), above)
