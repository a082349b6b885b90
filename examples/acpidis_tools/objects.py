"""The packages and buffers of some predefined objects in words, a row for each of their parts: _PRT, _DSD, _PLD and
_UPC of the ACPI Specification 6.5, and _WDG, by which Windows finds what a device has for WMI."""

from __future__ import annotations

import uuid
from collections.abc import Iterator

from acpidis_tools.standard import UUID_LENGTH, UUID_NAMES, WORDS, escaped, uuid_text, with_name
from acpidis_tools.terms import Term

ALL_FUNCTIONS, PINS = 0xFFFF, "ABCD"
# How deep the value of a property is shown, and how many elements of it.
DEEPEST, MOST_ELEMENTS = 3, 16

PANELS, SHAPES, USB_TYPES = (WORDS[name] for name in ("PANELS", "SHAPES", "USB_TYPES"))
PROPRIETARY = 0xFF
# The flags of a block of _WDG, and the length of one
WDG_KINDS = {0x08: "event", 0x02: "method", 0x04: "string"}
WDG_LENGTH = 20


def rows_of(name: str, value: Term) -> list[str]:
    """What the value of an object of this name says, and nothing where it has another form."""
    maker = MAKERS.get(name)
    try:
        return list(maker(value)) if maker else []
    except NoForm:
        return []


class NoForm(Exception):
    """A value has another form than the standard gives it."""


def elements(term: Term | None) -> list[Term]:
    is_package = term is not None and term.word in ("Package", "VarPackage") and isinstance(term.braced, list)
    if not is_package or None in term.braced:
        raise NoForm
    return term.braced


def data(term: Term | None) -> bytes:
    if term is None or term.word != "Buffer" or not isinstance(term.braced, bytes):
        raise NoForm
    return term.braced


def number(term: Term) -> int:
    if term.number is None:
        raise NoForm
    return term.number


def prt(value: Term) -> Iterator[str]:
    """The routes of PCI interrupts (6.2.13): by a link device, or to a global system interrupt."""
    for route in elements(value):
        address, pin, source, index = (*elements(route), None, None, None, None)[:4]
        if index is None or number(pin) >= len(PINS):
            raise NoForm
        function = number(address) & 0xFFFF
        of = f" function {function}" if function != ALL_FUNCTIONS else ""
        device = f"device 0x{number(address) >> 16:02X}{of}"
        is_link = source.number is None
        to = source.word if is_link else f"interrupt {number(index)}"
        yield f"{device} INT{PINS[number(pin)]} to {to}" + (f" {number(index)}" if is_link and index.number else "")


def dsd(value: Term) -> Iterator[str]:
    """The properties of a device (6.2.5): of each UUID the pairs, or what its package has."""
    parts = elements(value)
    for key, pairs in zip(parts[::2], parts[1::2]):
        text = uuid_text(data(key))
        if not text:
            raise NoForm
        yield f"UUID {with_name(text, UUID_NAMES)}"
        for pair in elements(pairs):
            both = elements(pair) if isinstance(pair.braced, list) else []
            is_pair = len(both) == 2 and both[0].word[:1] == '"'
            yield f"{both[0].word[1:-1]}: {shown(both[1])}" if is_pair else shown(pair)


def shown(term: Term | None, depth: int = 0) -> str:
    """A value in short."""
    if term is None:
        return ""
    if isinstance(term.braced, bytes):
        return uuid_text(term.braced) or f"{len(term.braced)} bytes"
    if isinstance(term.braced, list):
        if depth == DEEPEST or len(term.braced) > MOST_ELEMENTS:
            return f"{len(term.braced)} elements"
        return "(" + ", ".join(shown(one, depth + 1) for one in term.braced) + ")"
    return term.word if term.number is None else f"{term.number}" if term.number < 10 else f"0x{term.number:X}"


def pld(value: Term) -> Iterator[str]:
    """Where a device is to be found (6.1.8)."""
    for one in elements(value):
        code = data(one)
        if len(code) not in (16, 20):
            raise NoForm
        whole = int.from_bytes(code, "little")

        def bits(low: int, count: int, whole: int = whole) -> int:
            return whole >> low & (1 << count) - 1

        words = ["visible" if bits(64, 1) else "not visible"]
        words += [word for bit, word in ((65, "on the dock"), (66, "on the lid")) if bits(bit, 1)]
        words += [f"panel {PANELS[bits(67, 3)]}"] if bits(67, 3) < len(PANELS) else []
        at = bits(70, 2), bits(72, 2)
        if max(at) < len(WORDS["VERTICAL"]):
            words.append(f"{WORDS['VERTICAL'][at[0]]} {WORDS['HORIZONTAL'][at[1]]}")
        if bits(74, 4) < len(SHAPES) and SHAPES[bits(74, 4)]:
            words.append(SHAPES[bits(74, 4)])
        if bits(79, 8) or bits(87, 8):
            words.append(f"group {bits(79, 8)} position {bits(87, 8)}")
        words += [word for bit, word in ((95, "bay"), (96, "ejectable"), (97, "ejection by the system")) if bits(bit, 1)]
        words += [f"color 0x{bits(8, 24):06X}"] if not bits(7, 1) else []
        yield ", ".join(words)


def upc(value: Term) -> Iterator[str]:
    """What a USB port can (9.14)."""
    can, kind = (*map(number, elements(value)[:2]), None, None)[:2]
    if kind is None:
        raise NoForm
    words = "proprietary" if kind == PROPRIETARY else USB_TYPES[kind] if kind < len(USB_TYPES) else f"type 0x{kind:02X}"
    yield f"{'connectable' if can else 'not connectable'}, {words}"


def wdg(value: Term) -> Iterator[str]:
    """The blocks of data, methods and events that a device has for WMI: of each 16 bytes of GUID, two letters or the
    number of the event, how many there are, and flags."""
    code = data(value)
    if len(code) % WDG_LENGTH or not code:
        raise NoForm
    for at in range(0, len(code), WDG_LENGTH):
        guid, (first, second, count, flags) = code[at : at + UUID_LENGTH], code[at + UUID_LENGTH : at + WDG_LENGTH]
        kind = next((word for bit, word in WDG_KINDS.items() if flags & bit), "data")
        letters = escaped((first, second), range(0x30, 0x5B))
        name = {"event": f"0x{first:02X}", "method": f"WM{letters}"}.get(kind, f"WQ{letters}")
        more = f", {count} instances" if count != 1 else ""
        yield f"{uuid.UUID(bytes_le=guid)} {kind} {name}{more}" + (", expensive" if flags & 1 else "")


MAKERS = {"_PRT": prt, "_DSD": dsd, "_PLD": pld, "_UPC": upc, "_WDG": wdg}
