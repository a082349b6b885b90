"""Says what the numbers and bytes of a listing's lines mean: resources, identifiers, places of field units, flags."""

from __future__ import annotations

import re
from collections import defaultdict, namedtuple
from collections.abc import Iterator

from acpidis_tools import objects
from acpidis_tools.listing import Line, Listing
from acpidis_tools.names import FIELD_LISTS, FIRST_WORD, Meaning, Names, is_name
from acpidis_tools.resources import Descriptor, descriptors
from acpidis_tools.standard import ACCESS_TYPES, EISA_NUMBER, LOCK_RULES, PREDEFINED_NAMES, UPDATE_RULES, UUID_NAMES
from acpidis_tools.standard import eisa_id, named, space_name, status_words, uuid_text, with_name
from acpidis_tools.terms import Term, places, terms_in

HARDWARE_NAMES = ("_HID", "_CID")
# A field over more descriptors is told of these alone.
MOST_TOUCHED = 16
# Of a buffer that is declared again and again the fields would be told as often.
MOST_PATCHES = 128
UNIT = re.compile(r", ([0-9]{1,9})")
EVENT = re.compile("_([LEQ])([0-9A-F]{2})")
EVENTS = {"L": "level event", "E": "edge event", "Q": "query"}
# The buffer of a Connection may do without.
END_TAG = b"\x79\0"
# The bits of what a Create term makes, where they are fixed, and of a unit of its index.
FIELD_BITS = {
    "CreateBitField": (1, 1), "CreateByteField": (8, 8), "CreateWordField": (16, 8), "CreateDWordField": (32, 8),
    "CreateQWordField": (64, 8),
}
# A unit of a field list: the line of that, what the name of its region means, or of its data, its lock and update rule; the
# unit's first bit, width and access, and the line before it that sets this
Unit = namedtuple("Unit", "head region rules bit width access behind")


class Template(namedtuple("Template", "descriptors patches")):
    """A buffer of resources: its descriptors, and for each the fields in its bytes, by which a run may change it."""

    def texts(self) -> list[str]:
        patched = lambda names: f" (patched by {', '.join(dict.fromkeys(names))})" if names else ""
        return [one.text + patched(names) for one, names in zip(self.descriptors, self.patches)]


class Decoder:
    """`terms` keeps those of a line that was asked for last, `patches` has the fields that are made of a buffer, by the
    anchor of its name: first bit, the bit behind the last, and the field's name. `units` are those of field lists by
    the numbers of their lines, `returned` has the last segments of the methods that return a name, by its anchor."""

    def __init__(self, listing: Listing, names: Names):
        self.listing, self.names = listing, names
        self.patches: dict[str, list[tuple[int, int, str]]] = defaultdict(list)
        self.units: dict[int, Unit] = {}
        self.returned: dict[str, str] = {}
        self.kept: tuple[int, list[Term]] = (0, [])
        for block in listing.blocks:
            self.read(block.lines)

    def read(self, lines: list[Line]) -> None:
        access, rules, bit, region, behind = "", [], 0, None, None
        for line in lines:
            if line.term in FIELD_LISTS:
                access, *rules = flag_words(self.terms(line))
                bit, region, behind = 0, self.meanings(line).get(2 if line.term == "IndexField" else 1), None
            elif line.term and line.above and line.above.term in FIELD_LISTS:
                if line.term in ("Access", "ExtendedAccess", "Connection"):
                    behind = line
                # The access that the units behind an Access line have
                kind = self.argument(line, 0) if line.term in ("Access", "ExtendedAccess") else None
                access = named(ACCESS_TYPES, (kind.number or 0) & 0x0F) if kind else access
                form = UNIT.fullmatch(line.pieces[-1])
                width = int(form[1]) if form else 0
                if line.declared == FIRST_WORD:
                    self.units[line.number] = Unit(line.above, region, rules, bit, width, access, behind)
                bit += width
            elif line.term.startswith("Create"):
                source, (first, bits) = self.argument(line, 0), self.bits_of(line)
                meaning = self.meanings(line).get(source.place) if source else None
                patches = self.patches[meaning.anchor] if meaning and meaning.anchor else None
                if patches is not None and first is not None and bits is not None and len(patches) < MOST_PATCHES:
                    patches.append((first, first + bits, line.words[-1]))
            elif line.term == "Return" and line.method and line.method[-1] in objects.MAKERS and len(line.words) == 2:
                meaning = self.meanings(line).get(1)
                if meaning and meaning.anchor:
                    self.returned[meaning.anchor] = line.method[-1]

    def terms(self, line: Line) -> list[Term]:
        if self.kept[0] != line.number:
            self.kept = line.number, terms_in(line.pieces) if line.term and line.term != "Raw" else []
        return self.kept[1]

    def argument(self, line: Line, place: int) -> Term | None:
        """An argument of a line's first term."""
        terms = self.terms(line)
        return terms[0].argument(place) if terms else None

    def meanings(self, line: Line) -> dict[int, Meaning]:
        places_of_names = (place for place, word in enumerate(line.words) if is_name(word))
        return dict(zip(places_of_names, self.names.meanings[line.number]))

    def declared(self, line: Line) -> Meaning | None:
        """The meaning of the name that a line declares."""
        return None if line.declared is None else self.meanings(line).get(line.declared % len(line.words))

    def bits_of(self, line: Line) -> tuple[int | None, int | None]:
        """The first bit and the width of what a Create term makes, each where it is constant."""
        index, count = self.argument(line, 1), self.argument(line, 2)
        bits, unit = FIELD_BITS.get(line.term, (None, 1))
        if line.term == "CreateField" and count:
            bits = count.number
        return index.number * unit if index and index.number is not None else None, bits

    def buffers(self, line: Line) -> list[Term]:
        """The buffers of which all bytes stand in the line."""
        if "Buffer" not in line.pieces:
            return []
        found = [it for it, _ in places(self.terms(line)) if it.word == "Buffer" and isinstance(it.braced, bytes)]
        return [term for term in found if term.argument(0) and term.argument(0).number == len(term.braced)]

    def templates(self, line: Line) -> list[Template]:
        found = []
        for term in self.buffers(line):
            decoded = descriptors(term.braced)
            if decoded is None and line.term == "Connection":
                decoded = descriptors(term.braced + END_TAG)
            if decoded is not None:
                # The name that is declared with the buffer as its value
                is_value = line.term == "Name" and self.argument(line, 1) is term
                meaning = self.meanings(line).get(1) if is_value else None
                found.append(Template(decoded, self.patches_of(decoded, meaning.anchor if meaning else "")))
        return found

    def patches_of(self, decoded: list[Descriptor], anchor: str) -> list[list[str]]:
        """For each descriptor the names of the fields that have bits of it, in the order of the bits."""
        found: list[list[str]] = [[] for _ in decoded]
        number = 0
        for first, behind, name in sorted(self.patches.get(anchor, ())):
            while number < len(decoded) and 8 * (decoded[number].at + decoded[number].size) <= first:
                number += 1
            for place in range(number, min(number + MOST_TOUCHED, len(decoded))):
                if 8 * decoded[place].at < behind:
                    found[place].append(name)
        return found

    def uuids(self, line: Line) -> list[str]:
        return [text for term in self.buffers(line) for text in [uuid_text(term.braced)] if text]

    def rows(self, line: Line) -> list[str]:
        """What the value of a predefined object says, which a line declares or returns."""
        if line.term not in ("Name", "Return") or len(line.words) < 2:
            return []
        value = self.argument(line, 1 if line.term == "Name" else 0)
        return objects.rows_of(self.object_name(line), value) if value else []

    def object_name(self, line: Line) -> str:
        """The name of the object whose value a line has."""
        if line.term == "Return":
            return line.method[-1] if line.method else ""
        name = line.words[1][-4:]
        if name in objects.MAKERS or not self.returned:
            return name
        meaning = self.meanings(line).get(1)
        return self.returned.get(meaning.anchor, "") if meaning else ""

    def identifiers(self, line: Line) -> Iterator[str]:
        """The identifiers that a line gives a device by _HID or _CID."""
        if hardware_name(line) is None:
            return
        for term in (term for term, place in places(self.terms(line)) if place.kind in "DT" and term.place >= 0):
            if term.word[0] == '"':
                yield term.word[1:-1]
            elif EISA_NUMBER.fullmatch(term.word) and eisa_id(term.word):
                yield eisa_id(term.word)

    def notes(self, line: Line) -> list[str]:
        """What to say behind a line, in a few words each."""
        words = set(line.words)
        notes = [note for note in map(with_name, self.identifiers(line)) if f'"{note}"' not in words]
        notes += [f"UUID {with_name(text, UUID_NAMES)}" for text in self.uuids(line)]
        if line.number in self.units:
            unit = self.units[line.number]
            notes.append(bits_text(unit.bit, unit.width))
        elif line.term in FIELD_LISTS:
            notes.append(", ".join(flag_words(self.terms(line))))
        elif line.term == "OperationRegion":
            space = self.argument(line, 1)
            notes += [space_name(space.number)] if space and space.number is not None else []
        elif line.term in ("Name", "Method", "Device", "Return"):
            notes += self.name_notes(line, bool(notes))
        return notes

    def name_notes(self, line: Line, has_identifier: bool) -> list[str]:
        # The last segment of the name that a line outside the bodies declares
        name = line.words[line.declared][-4:] if line.declared is not None and not line.method else ""
        if name == "_STA" or line.term == "Return" and line.method and line.method[-1] == "_STA":
            value = self.argument(line, 1 if name else 0) if line.term != "Method" else None
            if value and value.number is not None:
                path = self.meanings(line)[1].path if name else line.method
                of = self.names.lines.get(path[:-1])
                return [status_words(value.number, of is not None and of.term == "PowerResource")]
            return [PREDEFINED_NAMES[name]] if name else []
        form = EVENT.fullmatch(name)
        if form and line.term == "Method":
            return [f"{EVENTS[form[1]]} 0x{form[2]}"]
        return [PREDEFINED_NAMES[name]] if name in PREDEFINED_NAMES and not has_identifier else []


def hardware_name(line: Line) -> str | None:
    """_HID or _CID, where a line gives the value of such an object: declared so, or returned by such a method."""
    if line.method:
        name = line.method[-1] if line.term == "Return" else ""
    else:
        name = line.words[1][-4:] if line.term == "Name" and len(line.words) > 1 else ""
    return name if name in HARDWARE_NAMES else None


def flag_words(terms: list[Term]) -> tuple[str, str, str]:
    """The access, the lock and the update rule of a field list."""
    last = terms[0].arguments[-1] if terms and terms[0].arguments else None
    flags = last.number if last and last.number is not None else 0
    return named(ACCESS_TYPES, flags & 0x0F), LOCK_RULES[flags >> 4 & 1], named(UPDATE_RULES, flags >> 5 & 3)


def bits_text(bit: int, width: int) -> str:
    """Where bits are, in bytes and bits."""
    last = bit + max(width, 1) - 1
    if bit % 8 == 0 and width % 8 == 0 and width:
        return f"byte 0x{bit // 8:02X}" if width == 8 else f"bytes 0x{bit // 8:02X} to 0x{last // 8:02X}"
    if bit // 8 == last // 8:
        bits = f"bits {bit % 8} to {last % 8}" if last > bit else f"bit {bit % 8}"
        return f"byte 0x{bit // 8:02X}, {bits}"
    return f"byte 0x{bit // 8:02X}, bit {bit % 8} to byte 0x{last // 8:02X}, bit {last % 8}"
