"""The listing of ACPI tables, by the library libacpidis: its text, the rows of its namespace, its methods, its faults.

    import acpidis

    listing = acpidis.load("tables", any_run=True)
    for row in listing.rows:
        print(row.path, row.kind)

`load` takes a folder of dumps, with its `tables.map` if it has one, or the bytes of dumps by their names. Nothing of a set
stays behind once it returns. The library is libacpidis.so.0 where the system finds it, or the file that the variable
ACPIDIS_LIBRARY names.
"""

import ctypes
import functools
import os
import pathlib
import re
import struct
from itertools import repeat
from typing import Dict, Iterable, Iterator, List, Mapping, NamedTuple, Optional, Tuple, Union

__all__ = ["Fault", "Listing", "Method", "Refused", "Row", "check", "load", "version"]

MAP = "tables.map"
MOST_DUMPS = 512
MOST_BYTES = 16_777_216
OPTIONS = (1, 2, 4)  # any_sum, any_run, unknown_zero
OK, NO_MEMORY, REFUSED = 0, 3, 12
METHOD, ALIAS = 2, 3
# What a row, a method, a body and a table are in memory.
ROW, METHOD_ROW, BODY, TABLE = "NNNNIII4x", "NNNIII4x", "NNII", "N"
HEADER = 36
SIZES = ("tables", "rows", "row_texts", "methods", "method_texts", "bodies", "body_texts")
COPIES = (*SIZES, "text", "errors")

Source = Union[str, "os.PathLike[str]", Mapping[str, bytes]]
Counts = Union[bytes, Mapping[str, int], None]
# The fault of a body, or its lines.
Became = Tuple[Optional[str], Optional[str]]


class Refused(Exception):
    """No listing: the words that the program prints after `acpidis: `."""


class Row(NamedTuple):
    """A path that the tables declare."""

    path: str
    kind: str  # as "Device", "Method", "Alias"
    arguments: Optional[int]  # of a Method
    target: Optional[str]  # of an Alias: the path that it stands for
    maybe: bool  # whether only some run of the code outside methods declares it
    times: int  # how many declarations it has


class Method(NamedTuple):
    """A method that a table declares, in load order and that of the text."""

    path: str
    arguments: int
    fault: Optional[str]  # why its body can't be read
    table: str  # the name of its table's dump
    offset: int  # where its body begins there, and how many bytes that has
    length: int
    body: Optional[str]  # the lines of its body


class Fault(NamedTuple):
    """A body that can't be read: its method's path, and why."""

    path: str
    why: str


class Listing(NamedTuple):
    """What came of a set that has a listing."""

    text: str  # what the program prints
    status: int  # 0, or 3 where the body of a method can't be read
    rows: List[Row]
    methods: List[Method]
    faults: List[Fault]


class Set(ctypes.Structure):
    """A set as C has it."""

    _fields_ = (("at", ctypes.c_void_p), ("full", ctypes.c_bool))


class Sizes(ctypes.Structure):
    """How many values of each kind a set has, and how many bytes their texts."""

    _fields_ = tuple((name, ctypes.c_size_t) for name in SIZES)


@functools.lru_cache(maxsize=None)
def find_library() -> ctypes.CDLL:
    """The library, with the types of its functions. It is looked for once it is needed."""
    library = ctypes.CDLL(os.environ.get("ACPIDIS_LIBRARY", "libacpidis.so.0"))
    pointer, size, place = ctypes.POINTER(Set), ctypes.c_size_t, ctypes.POINTER(ctypes.c_size_t)
    types = {
        "add": (pointer, ctypes.c_char_p, ctypes.POINTER(ctypes.c_uint64), ctypes.c_char_p, size),
        "set_options": (pointer, ctypes.c_uint), "set_counts": (pointer, ctypes.c_char_p, size, place),
        "ended": (pointer, ctypes.POINTER(ctypes.c_int), place, place), "listed": (pointer, ctypes.POINTER(Sizes)),
        "words": (ctypes.c_int,), "version": (), **dict.fromkeys(("kind_words", "fault_words"), (ctypes.c_uint32,)),
        **dict.fromkeys(("run", "list"), (pointer, ctypes.c_bool)), **dict.fromkeys(("open", "close"), (pointer,)),
        **dict.fromkeys(COPIES, (pointer, size, ctypes.c_char_p, size)),
    }
    for name, arguments in types.items():
        getattr(library, f"acpidis_{name}").argtypes = arguments
    library.acpidis_close.restype = None
    for name in ("words", "kind_words", "fault_words", "version"):
        getattr(library, f"acpidis_{name}").restype = ctypes.c_char_p
    return library


def version() -> str:
    """The library's version."""
    return find_library().acpidis_version().decode()


class Open:
    """An open set, which is closed behind its block."""

    def __init__(self) -> None:
        self.library, self.set = find_library(), Set()

    def __enter__(self) -> "Open":
        self.do("open")
        return self

    def __exit__(self, *_: object) -> None:
        self.library.acpidis_close(self.set)

    def do(self, name: str, *arguments: object) -> None:
        """Calls a function, and raises what it can't do."""
        code = getattr(self.library, f"acpidis_{name}")(self.set, *arguments)
        if code == NO_MEMORY:
            raise MemoryError
        if code == REFUSED:
            self.run(False)
        if code != OK:
            raise Refused(self.library.acpidis_words(code).decode())

    def run(self, checks: bool) -> Tuple[int, str, List[str]]:
        """Runs the set: its status, its text and its error lines."""
        self.do("run", checks)
        status, text, errors = ctypes.c_int(), ctypes.c_size_t(), ctypes.c_size_t()
        self.do("ended", status, text, errors)
        lines = [line.partition("acpidis: ")[2] for line in self.copy("errors", errors.value).splitlines()]
        if status.value == 1:
            raise Refused("\n".join(lines))
        return status.value, self.copy("text", text.value), lines

    def copy(self, name: str, count: int) -> str:
        return str(self.room(name, count, 1), "ascii")

    def values(self, name: str, count: int, form: str) -> Iterator[Tuple[int, ...]]:
        return struct.iter_unpack(form, self.room(name, count, struct.calcsize(form)))

    def room(self, name: str, count: int, size: int) -> memoryview:
        room = ctypes.create_string_buffer(count * size)
        self.do(name, 0, room, count)
        return memoryview(room)[: count * size]

    def listed(self, names: List[str], bodies: bool) -> Tuple[List[Row], List[Method]]:
        """The rows and the methods, whose tables have these names, with their bodies if these are asked for."""
        self.do("list", bodies)
        sizes = Sizes()
        self.do("listed", sizes)
        became = self.bodies(sizes) if bodies else repeat((None, None))
        return list(self.rows(sizes)), list(self.methods(sizes, names, became))

    def rows(self, sizes: Sizes) -> Iterator[Row]:
        texts = self.copy("row_texts", sizes.row_texts)
        kinds = [self.library.acpidis_kind_words(kind).decode() for kind in range(14)]
        for at, path, target, times, kind, arguments, maybe in self.values("rows", sizes.rows, ROW):
            end = at + path
            lead = texts[end : end + target] if kind == ALIAS else None
            yield Row(texts[at:end], kinds[kind], arguments if kind == METHOD else None, lead, maybe == 1, times)

    def bodies(self, sizes: Sizes) -> Iterator[Became]:
        """The fault of each body, or its lines."""
        texts = self.copy("body_texts", sizes.body_texts)
        for at, length, fault, offset in self.values("bodies", sizes.bodies, BODY):
            if fault:
                yield f"{self.library.acpidis_fault_words(fault).decode()} at {offset}", None
            else:
                yield None, texts[at : at + length]

    def methods(self, sizes: Sizes, names: List[str], bodies: Iterable[Became]) -> Iterator[Method]:
        texts = self.copy("method_texts", sizes.method_texts)
        tables = [names[dump] for (dump,) in self.values("tables", sizes.tables, TABLE)]
        values = self.values("methods", sizes.methods, METHOD_ROW)
        for (at, path, table, start, length, flags), (fault, body) in zip(values, bodies):
            yield Method(texts[at : at + path], flags & 7, fault, tables[table], HEADER + start, length, body)


def read_folder(folder: pathlib.Path) -> Dict[str, bytes]:
    """The files of a folder, by their names."""
    try:
        entries = list(os.scandir(folder))
        for entry in entries:
            entry.name.encode()
    except (OSError, UnicodeEncodeError):
        raise Refused("cannot read folder") from None
    names = [entry.name for entry in entries if entry.is_file(follow_symlinks=False)]
    if len([name for name in names if name != MAP]) > MOST_DUMPS:
        raise Refused("TooManyTables")
    files = {}
    for name in sorted(names, key=os.fsencode):
        try:
            with open(folder / name, "rb") as opened:
                files[name] = opened.read(MOST_BYTES + 1)
        except OSError:
            raise Refused(f'cannot read "{name}"') from None
    return files


def read_map(text: bytes, names: List[str]) -> Dict[str, int]:
    """The addresses that a map gives files of these names."""
    if len(text) > MOST_BYTES:
        raise Refused(f'cannot read "{MAP}"')
    placed: Dict[str, int] = {}
    lines = text.split(b"\n")
    for number, line in enumerate(lines[:-1] if lines[-1] == b"" else lines, 1):
        told = re.fullmatch(rb"([0-9A-Fa-f]{16}) (.*)", line, re.DOTALL)
        if told is None:
            raise Refused(f"{MAP} line {number}: BadLine")
        address, name = int(told[1], 16), told[2].decode(errors="surrogateescape")
        if name not in names:
            raise Refused(f"{MAP} line {number}: NoSuchFile")
        if name in placed or address in placed.values():
            raise Refused(f"{MAP} line {number}: Again")
        placed[name] = address
    return placed


def filled(opened: Open, source: Source, externals: Counts, *options: bool) -> List[str]:
    """Fills a set from a source. Answers the names of its dumps."""
    files = dict(source) if isinstance(source, Mapping) else read_folder(pathlib.Path(source))
    text = files.pop(MAP, None)
    names = sorted(files, key=os.fsencode)
    addresses = {} if text is None else read_map(text, names)
    if isinstance(externals, Mapping):
        externals = "".join(f"{path} {count}\n" for path, count in externals.items()).encode()
    opened.do("set_options", sum(bit for bit, is_set in zip(OPTIONS, options) if is_set))
    line = ctypes.c_size_t()
    try:
        if externals is not None:
            opened.do("set_counts", externals, len(externals), line)
    except Refused as refused:
        raise Refused(f"externals line {line.value}: {refused}" if line.value else str(refused)) from None
    for name in names:
        address = ctypes.c_uint64(addresses[name]) if name in addresses else None
        opened.do("add", os.fsencode(name), address, files[name], len(files[name]))
    return names


def load(
    source: Source, *, any_sum: bool = False, any_run: bool = False, unknown_zero: bool = False,
    externals: Counts = None, text: bool = True, bodies: bool = True,
) -> Listing:  # fmt: skip
    """The listing of a folder of dumps, or of the bytes of dumps by their names.

    The options are the program's. `externals` is the text of a file of counts, or the counts by their paths. Without
    `text` there is none, and without `bodies` the methods have neither bodies nor faults: each takes about as long as
    the program. Raises `Refused` where the set has no listing, and MemoryError where memory is short.
    """
    with Open() as opened:
        names = filled(opened, source, externals, any_sum, any_run, unknown_zero)
        _, told, errors = opened.run(False) if text else (0, "", [])
        rows, methods = opened.listed(names, bodies)
    raw = [Fault(method.path, method.fault) for method in methods if method.fault]
    named = (line.partition("body ")[2].partition(": ") for line in errors)
    faults = [Fault(path, why) for path, _, why in named] if text else raw
    return Listing(told, 3 if faults else 0, rows, methods, faults)


def check(
    source: Source, *, any_sum: bool = False, any_run: bool = False, unknown_zero: bool = False,
    externals: Counts = None,
) -> str:  # fmt: skip
    """The lines that the program prints with --check: of each table whether what was read encodes to its bytes."""
    with Open() as opened:
        filled(opened, source, externals, any_sum, any_run, unknown_zero)
        return opened.run(True)[1]
