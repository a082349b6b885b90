"""Gathers the facts of a listing as rows of the tables of schema.py."""

from __future__ import annotations

import hashlib
import re
from collections import defaultdict
from collections.abc import Iterator

from acpidis_tools.comparison import text_of, texts_of
from acpidis_tools.decoding import Decoder, hardware_name
from acpidis_tools.errors import Fault, name_at
from acpidis_tools.listing import HEADER, Block, Dump, Line, Listing, Name, Path, path_of, path_text
from acpidis_tools.names import FIELD_LISTS, PREDEFINED, Meaning, Names, Sort
from acpidis_tools.resources import Descriptor
from acpidis_tools.schema import COLUMNS
from acpidis_tools.standard import DEVICE_NAMES, eisa_number, space_name
from acpidis_tools.terms import OBJECT_OPERATORS, Place, Term, places

# SQLite's integers have 64 bits, one of which is the sign.
TOO_LARGE = 1 << 63
METHOD_OBJECT, PCI_CONFIG = 8, 2
REGIONS = ("OperationRegion", "DataRegion")
USING = (Sort.LEADS, Sort.NOTHING)
FIELD_REGION = COLUMNS["field"].index("region")
REGION_NUMBERS = COLUMNS["region"].index("first"), COLUMNS["region"].index("length")
RAW, USED, HOW = COLUMNS["method"].index("is_raw"), COLUMNS["use"].index("name"), COLUMNS["use"].index("how")
TARGET = COLUMNS["name"].index("target")
CONSTANT = [COLUMNS["name"].index(column) for column in ("kind", "stands", "times", "value")]
DEVICES = ("Device", "Processor", "ThermalZone")
# What a field of a record has in hexadecimal; any other is decimal.
HEXADECIMAL = ("Flags", "Address", "Controller", "AddressOverride", "Entry")
UNKNOWN_RECORD = re.compile(r"Record (\d+) Length (\d+) ?(.*)")
# The statements that are facts, each with the part that is an object, and the part that is a number.
STATEMENTS = {"Load": (0, None), "LoadTable": (None, None), "Unload": (0, None), "Notify": (0, 1)}
STATEMENTS |= {"Sleep": (None, 0), "Stall": (None, 0), "Fatal": (None, 1)}
LONGEST_STATEMENT = 1_000
LENGTH = 2
SOURCE = re.compile(r"(\\|\^*)([A-Z_][A-Z0-9_]{0,3}(?:\.[A-Z_][A-Z0-9_]{0,3})*)")
SPEED = re.compile(r"([0-9]+) (?:Hz|baud)")
PINNED = ("GpioInt", "GpioIo", "PinFunction", "PinConfig", "PinGroup")
INTERRUPTS = ("IRQ", "IRQNoFlags", "Interrupt", "GpioInt")
CONSTANT_WORD = re.compile(r'"|0x|(?:Zero|Ones?|Revision)$')
TOKEN = re.compile(r'"[^"]*"|[(){},]|[^"(){},]+')


def small(number: int | None) -> int | None:
    """A number that SQLite has as an integer."""
    return number if number is not None and number < TOO_LARGE else None


def header_of(dump: Dump) -> list:
    """A row of acpi_table as far as the line of a dump says it: the length is the one at LENGTH."""
    form = HEADER.fullmatch(dump.text)
    found = form.groupdict() if form else {}
    length = found.get("length") or found.get("root_length")
    revision = found.get("before") or found.get("behind")
    signature = found.get("signature") or ("RSD PTR " if dump.text.startswith("Root") else dump.signature.strip('"'))
    return [
        dump.file[1:-1], signature, int(length[:18]) if length else None, int(revision[:9]) if revision else None,
        *(found.get(word) for word in ("oem", "table", "revision", "creator", "creator_revision", "address")),
        int(not dump.text.endswith(" BadSum")),
    ]


def record_rows(dumps: list[Dump]) -> list[list]:
    """The rows of record, without their first column: each begins with the place of its table among the dumps."""
    return [
        [number, place, *row]
        for number, dump in enumerate(dumps, 1) for place, (_, note) in enumerate(dump.notes, 1)
        for row in fields_of(note.strip(" "), dump.signature == '"FACP"')
    ]


def fields_of(note: str, is_fadt: bool) -> list[tuple[str, str, str, int | None]]:
    """The fields of a line below a dump's: the kind of the record, label, value and number of each."""
    unknown, words = UNKNOWN_RECORD.fullmatch(note), note.split(" ")
    if unknown:
        words = ["Record", "Type", unknown[1], "Length", unknown[2], "Bytes", unknown[3]]
    elif words[0] == "Entry":
        words = words[:2]
    kind, fields = words.pop(0) if len(words) % 2 else "", []
    for label, value in zip(words[::2], words[1::2]):
        base, digits = (16, "[0-9A-F]{1,16}") if is_fadt or label in HEXADECIMAL else (10, "[0-9]{1,10}")
        fields.append((kind, label, value, small(int(value, base)) if re.fullmatch(digits, value) else None))
    return fields


class Collector:
    """Gathers the rows of one listing's code. Each row counts its number from 1, and has 1 for its code."""

    def __init__(self, listing: Listing, names: Names, faults: dict[int, Fault]):
        self.listing, self.names, self.faults = listing, names, faults
        self.decoder = Decoder(listing, names)
        self.rows: dict[str, list[list]] = defaultdict(list)
        self.ids: dict[Path, int] = {}
        self.kinds: dict[Path, str] = {}
        self.regions: dict[str, int] = {}
        self.field_regions: dict[str, int | None] = {}
        self.waiting: list[tuple[list, str]] = []
        # Columns of regions that are values of names, and these.
        self.named: list[tuple[list, int, int]] = []
        self.method_ids: dict[int, int] = {}
        self.method: int | None = None
        self.file = ""

    def collect(self) -> dict[str, list[list]]:
        self.add_names()
        # A field list may stand in front of its region.
        for add in (self.add_region, self.add_line):
            for line in self.lines():
                add(line)
        for row, anchor in self.waiting:
            row[FIELD_REGION] = self.field_regions.get(anchor)
        self.add_constants()
        return self.rows

    def lines(self) -> Iterator[Line]:
        """The lines of all blocks, while `file` and `method` are theirs. Methods get their rows where they begin."""
        for block in self.listing.blocks:
            self.file, end = block.file[1:-1], 0
            for line in block.lines:
                if line.number > end:
                    self.method = None
                if line.term == "Method" and not line.method:
                    if line.number not in self.method_ids:
                        self.method_ids[line.number] = self.add_method(block, line)
                    self.method, end = self.method_ids[line.number], line.end
                yield line

    def add(self, table: str, *values: object) -> int:
        rows = self.rows[table]
        rows.append([len(rows) + 1, 1, *values])
        return len(rows)

    # ---- names

    def add_names(self) -> None:
        lines = [(line, block.file[1:-1]) for block in self.listing.blocks for line in block.lines]
        files = {line.number: file for line, file in lines if line.declared is not None}
        returns = {line.number: line for line, _ in lines if line.term == "Return" and line.method}
        texts = {path: "\n".join(text_of(said)).encode() for path, said in texts_of(self.decoder).items()}
        sums = {path: hashlib.sha256(text).hexdigest()[:16] for path, text in texts.items()}
        targets = []
        for row in self.listing.rows:
            kind, _, more = row.kind.partition(" ")
            line = self.names.lines[row.path]
            # What a Name has, or a method returns that does nothing else
            only = returns.get(line.number + 1) if kind == "Method" and line.end == line.number + 2 else None
            source, place = (line, 1) if kind == "Name" else (only, 0)
            term = self.decoder.argument(source, place) if source else None
            is_value = term and CONSTANT_WORD.match(term.word) and not term.arguments and term.braced is None
            values = term.word if is_value else None, sums[row.path], files[line.number], line.number
            count, stands = int(more) if kind == "Method" else None, "maybe" if row.is_maybe else "always"
            self.add_name(row.path, kind, count, None, stands, row.times, *values)
            if kind == "Alias":
                targets.append((row.path, path_of(more)))
        others = [(path, *kind.partition(" ")[::2], "predefined") for path, kind in PREDEFINED.items()]
        others += [(path, *kind, "external") for path, kind in self.externals().items()]
        for path, kind, more, stands in others:
            if path not in self.ids:
                self.add_name(path, kind, None if more == "" else int(more), None, stands, 0, None, None, None, None)
        for path, target in targets:
            self.rows["name"][self.ids[path] - 1][5] = self.ids.get(target)
            if self.kinds.get(target) == "Method":
                self.kinds[path] = "Method"

    def add_name(self, path: Path, kind: str, *values: object) -> None:
        self.ids[path] = self.add("name", path_text(path), kind, *values)
        self.kinds[path] = kind

    def externals(self) -> dict[Path, tuple[str, int]]:
        """The paths that Externals outside the bodies name, as a method where one says so, with the greatest count."""
        found: dict[Path, tuple[str, int]] = {}
        for line in self.listing.lines:
            if line.term == "External" and not line.method:
                _, kind, count = (*self.decoder.terms(line)[0].arguments, None, None, None)[:3]
                path = Name.of(line.words[1]).placed(line.scope) or ()
                before, most = found.get(path, ("External", 0))
                is_method = kind is not None and kind.number == METHOD_OBJECT or before == "Method"
                found[path] = "Method" if is_method else before, max(most, (count.number if count else 0) or 0)
        return found

    # ---- regions, before what uses them

    def add_method(self, block: Block, line: Line) -> int:
        place = line.number - block.lines[0].number + 1
        body = block.lines[place]
        flags = [term.word if term else "" for term in self.decoder.terms(line)[0].arguments[1:4]]
        count, serialized, level = flags if len(flags) == 3 else ("0", "", "0")
        is_raw = body.term == "Raw" and body.method is not None
        fault = self.faults.get(body.number) if is_raw else None
        path = Name.of(line.words[1]).placed(line.scope) or ()
        return self.add(
            "method", self.ids[path], number_in(count), int(serialized == "Serialized"), number_in(level), int(is_raw),
            str(fault) if fault else None, name_at(fault, body.code if is_raw else b""), self.file, line.number,
        )

    def add_region(self, line: Line) -> None:
        if line.term not in REGIONS:
            return
        texts, arguments = argument_texts(line), self.decoder.terms(line)[0].arguments
        if line.term == "DataRegion":
            values = [None, "DataRegion", None, None, ", ".join(texts[1:]), ""]
        else:
            space, first, length = (one.number if one else None for one in (*arguments, None, None, None)[1:4])
            name = space_name(space) if space is not None else ""
            values = [space, name, small(first), small(length), *(*texts, "", "")[2:4]]
        anchor, name, path = self.declared(line)
        address = self.pci_address(line.scope) if values[0] == PCI_CONFIG else (None, None)
        number = self.add("region", name, self.method, path, *values, *address, self.file, line.number)
        self.regions.setdefault(anchor, number)
        for column, term in zip(REGION_NUMBERS, arguments[2:4] if line.term != "DataRegion" else ()):
            meaning = self.decoder.meanings(line).get(term.place) if term and not term.arguments else None
            if self.row_of(meaning) and not meaning.others:
                self.named.append((self.rows["region"][-1], column, self.row_of(meaning)))

    def pci_address(self, scope: Path) -> tuple[int | None, int | None]:
        """The device and the function by the constant _ADR of the nearest device around (6.1.1)."""
        path = self.nearest(scope, ("Device",))
        name = self.ids.get((*path, "_ADR")) if path else None
        number = Term(self.rows["name"][name - 1][CONSTANT[-1]] or "", 0).number if name else None
        return (None, None) if number is None or number >> 32 else (number >> 16, number & 0xFFFF)

    def add_constants(self) -> None:
        """The numbers of regions that are Names with a constant which nothing changes, as far as all bodies tell."""
        if any(row[RAW] for row in self.rows["method"]):
            return
        changed = {row[USED] for row in self.rows["use"] if row[HOW] in ("written", "passed")}
        changed |= {self.rows["name"][name - 1][TARGET] for name in changed if name}
        for row, column, name in self.named:
            kind, stands, times, value = (self.rows["name"][name - 1][at] for at in CONSTANT)
            if name not in changed and (kind, stands, times) == ("Name", "always", 1) and value:
                row[column] = small(Term(value, 0).number)

    def declared(self, line: Line) -> tuple[str, int | None, str]:
        """The anchor of the name that a line declares, its row, and its path as text."""
        meaning = self.decoder.declared(line)
        path = meaning.path if meaning and meaning.path is not None else ()
        return meaning.anchor if meaning else "", self.row_of(meaning), path_text(path)

    def row_of(self, meaning: Meaning | None) -> int | None:
        """The row of the path that a name means, unless a body declares it."""
        is_path = meaning and meaning.path is not None and not meaning.anchor.isdigit()
        return self.ids.get(meaning.path) if is_path else None

    # ---- the lines

    def add_line(self, line: Line) -> None:
        if line.term not in ("", "Raw", "External", "DefinitionBlock") and line.number not in self.method_ids:
            self.add_uses(line)
            self.add_field(line)
            self.add_resources(line)
            self.add_identifiers(line)
            self.add_statements(line)

    def add_uses(self, line: Line) -> None:
        if not any(meaning.sort in USING for meaning in self.names.meanings[line.number]):
            return
        meanings, scope = self.decoder.meanings(line), path_text(line.scope)
        for term, place in places(self.decoder.terms(line)):
            meaning = meanings.get(term.place)
            for number, meant in enumerate((meaning, *meaning.others) if meaning and meaning.sort in USING else ()):
                is_local, how = meant.anchor.isdigit(), self.how(term, place, meant)
                values = self.row_of(meant), int(is_local), number, how, self.file, line.number
                self.add("use", self.method, scope, term.word, *values)

    def add_statements(self, line: Line) -> None:
        if STATEMENTS.keys().isdisjoint(line.words):
            return
        meanings, scope, text = self.decoder.meanings(line), path_text(line.scope), line.bare[:LONGEST_STATEMENT]
        for term, _ in places(self.decoder.terms(line)):
            if term.word in STATEMENTS:
                named, counted = (term.argument(at) if at is not None else None for at in STATEMENTS[term.word])
                name = self.row_of(meanings.get(named.place)) if named else None
                number = small(counted.number) if counted else None
                self.add("statement", self.method, scope, term.word, name, number, text, self.file, line.number)

    def how(self, term: Term, place: Place, meant: Meaning) -> str:
        """What becomes of what a name means: it is called, read, written, passed on, or named."""
        is_method = not meant.anchor.isdigit() and self.kinds.get(meant.path) == "Method" or bool(term.arguments)
        if place.kind in "TR":
            return "called" if is_method else "read"
        if place.kind == "A" and place.within and place.within.word != "Connection":
            return "called" if is_method else "passed"
        if place.kind == "S" and place.within:
            # A target of its operator, or an object that is handed to it
            is_object = place.within.word in OBJECT_OPERATORS or (place.within.word, place.number) == ("CondRefOf", 0)
            return "passed" if is_object else "written"
        return "passed" if place.kind == "D" else "named"

    def add_field(self, line: Line) -> None:
        unit = self.decoder.units.get(line.number)
        if unit:
            # The region of the list; of an IndexField the anchor of its data, whose region it has
            is_index, anchor = unit.head.term == "IndexField", unit.region.anchor if unit.region else ""
            region, behind = (None, anchor) if is_index else (self.regions.get(anchor), "")
            self.field_regions.setdefault(self.declared(line)[0], region)
            values = [region, unit.head.term, unit.bit, unit.width, unit.access, *unit.rules]
        elif line.term.startswith("Create") and line.declared is not None:
            behind, values = "", [None, line.term, *map(small, self.decoder.bits_of(line)), None, None, None]
        else:
            return
        _, name, path = self.declared(line)
        self.add("field", name, self.method, path, *values, self.file, line.number)
        if behind:
            self.waiting.append((self.rows["field"][-1], behind))

    # ---- what bytes and numbers mean

    def device_of(self, line: Line) -> int | None:
        return self.ids.get(self.nearest(line.scope, DEVICES) or None)

    def nearest(self, path: Path, kinds: tuple[str, ...]) -> Path:
        """The nearest path around a scope that is of one of these kinds."""
        while path and self.kinds.get(path) not in kinds:
            path = path[:-1]
        return path

    def add_resources(self, line: Line) -> None:
        templates = self.decoder.templates(line)
        if not templates:
            return
        device = self.device_of(line)
        # What has them is what a line declares, else its method or scope.
        is_declared = line.declared is not None and line.term not in FIELD_LISTS
        object_path = self.declared(line)[2] if is_declared else path_text(line.scope)
        for one, patches in [pair for it in templates for pair in zip(it.descriptors, it.patches)]:
            resource = self.add(
                "resource", device, object_path, one.kind, small(one.first), small(one.last), small(one.length),
                ", ".join(map(str, one.lines)) or None, self.controller(one.source, line.scope), *wires_of(one),
                one.text, ", ".join(dict.fromkeys(patches)) or None, self.file, line.number,
            )
            for pin in one.lines if one.kind in PINNED else ():
                self.add("pin", resource, pin)

    def controller(self, source: str, scope: Path) -> str | None:
        """The path that the name of a source means, which counts from the device around (6.4.3.8)."""
        form = SOURCE.fullmatch(source)
        if not form:
            return source or None
        name = Name.of(form[1] + ".".join(part.ljust(4, "_") for part in form[2].split(".")))
        device = self.nearest(scope, DEVICES)
        paths = self.names.find(device, name) or name.candidates(device)[-1:]
        return path_text(paths[0]) if paths else source

    def add_identifiers(self, line: Line) -> None:
        kind = hardware_name(line)
        for text in self.decoder.identifiers(line):
            values = kind, text, eisa_number(text), DEVICE_NAMES.get(text), self.file, line.number
            self.add("identifier", self.device_of(line), *values)


def wires_of(one: Descriptor) -> tuple[int | None, str | None, str | None]:
    """The speed in Hz or baud, and of an interrupt its trigger and polarity."""
    speed = next((int(form[1]) for form in map(SPEED.fullmatch, one.words) if form), None)
    if one.kind not in INTERRUPTS:
        return speed, None, None
    polarity = next((word for word in one.words if word in ("low", "both") or word.startswith("polarity ")), "high")
    return speed, "edge" if "edge" in one.words else "level", polarity


def number_in(text: str) -> int:
    return int(text) if re.fullmatch("[0-9]{1,9}", text) else 0


def argument_texts(line: Line) -> list[str]:
    parts, depth = [""], 0
    for token in TOKEN.findall("".join(line.pieces[2:])):
        depth += (token in "({") - (token in ")}")
        if token == "," and depth == 1:
            parts.append("")
        elif depth and (token, depth) != ("(", 1):
            parts[-1] += token
    return [part.strip() for part in parts]
