"""Reads what `iasl -d` prints of a table, for tests/decoding.py: its macros as the words of acpidis_tools."""

import pathlib
import re
from collections import namedtuple

from trying import ended

LINES = (pathlib.Path(__file__).parent / "iasl.txt").read_text().splitlines()[1:]
KEYWORDS = dict(line.split(" ", 1) for line in LINES)
FIELD = re.compile(r"^ *(?:Index|Bank)?Field \((.*)\)$", re.M)
SPACE = re.compile(r"OperationRegion \([\\^]*(\S+), ([^,]+),")
# A unit of a field list, or a gap without a name
UNIT = re.compile(r"^ +([A-Z_0-9]{0,4}), +(\d+)")
MACRO = re.compile(r"(\w+) +\(((?:[^()\"]|\"[^\"]*\")*)\)(?:\s*\{([0-9A-Fx,\s]*)\})?")


def facts_of(data: bytes, room: pathlib.Path) -> "dict[str, list] | None":
    """What iasl says of a table, each kind in the order of its text; None where it fails."""
    for file in room.iterdir():
        file.unlink()
    (room / "table.aml").write_bytes(data)
    if ended("iasl", "-d", "table.aml", cwd=room).status or not (room / "table.dsl").exists():
        return None
    text = re.sub(r"//.*|/\*.*?\*/", "", (room / "table.dsl").read_text("latin-1"))
    # The standard's word has a capital O.
    text = bare = text.partition("DefinitionBlock")[2]
    # What stands in the braces of each ResourceTemplate, whose macros may have braces of their own, and in the
    # parentheses of each Connection; and the text without the latter
    templates = [text[start:end] for start, end in enclosed(text, r"ResourceTemplate \(\)\s*\{|Connection \(")]
    for start, end in reversed(list(enclosed(text, r"Connection \("))):
        bare = bare[:start] + bare[end:]
    return {
        "resources": [line for template in templates for line in map(macro_text, MACRO.finditer(template))],
        "UUIDs": [found.lower() for found in re.findall(r'ToUUID \("([^"]*)"\)', text)],
        "EISA ids": re.findall(r'EisaId \("([^"]*)"\)', text),
        "spaces": [f"{name.rpartition('.')[2].ljust(4, '_')} {space}" for name, space in SPACE.findall(text)],
        "flags": [", ".join(words.split(", ")[-3:]) for words in FIELD.findall(text)],
        "units": list(units(bare)),
    }


def enclosed(text: str, heads: str):
    """Where what stands behind each of these heads begins and ends, up to what closes the bracket at the head's end."""
    for head in re.finditer(heads, text):
        at, depth, (left, right) = head.end(), 1, {"{": "{}", "(": "()"}[head[0][-1]]
        while depth:
            depth += (text[at] == left) - (text[at] == right)
            at += 1
        yield head.end(), at - 1


def units(text: str):
    """The named units of field lists with their first bits and widths."""
    for _, lines in re.findall(FIELD.pattern + r"\n((?:.*\n)*?) *\}", text, re.M):
        bit = 0
        for line in lines.splitlines():
            unit, offset = UNIT.match(line), re.match(r" +Offset \((0x[0-9A-F]+)\)", line)
            if unit and unit[1]:
                yield f"{unit[1].ljust(4, '_')} {bit} {unit[2]}"
            bit = 8 * int(offset[1], 16) if offset else bit + int(unit[2] if unit else 0)


class Macro(namedtuple("Macro", "kind arguments listed words")):
    """A macro: its word, the texts of its arguments, what stands in its braces, and what its keywords are in our words."""

    @property
    def numbers(self) -> list:
        return [int(one, 16) for one in self.arguments if re.fullmatch("0x[0-9A-F]+", one)]

    @property
    def lines(self) -> str:
        return ", ".join(self.listed)


def macro_text(form: "re.Match[str]") -> str:
    arguments = [one.strip() for one in form[2].split(",")]
    listed = [str(int(one, 0)) for one in (form[3] or "").replace(",", " ").split()]
    words = [word for keyword, word in KEYWORDS.items() if keyword in arguments]
    macro = Macro(form[1].removesuffix("V2"), arguments, listed, words)
    place = next((at for at, one in enumerate(arguments) if one[:1] == '"' and one != '""'), None)
    shown = list(TEXTS.get(macro.kind, spaced)(macro))
    if place is not None:
        # The index stands behind the source, or in front of it.
        index = int(arguments[place + (1 if re.match("Gpio|.*Bus$", macro.kind) else -1)], 16)
        source = arguments[place].strip('"').replace("\\\\", "\\")
        shown += [f"by {source}", f"index {index}" if index else ""]
    return " ".join(filter(None, shown))


def io(macro: Macro) -> tuple:
    first, last, align, length = macro.numbers
    to = "" if last == first else f" to 0x{last:04X}"
    return f"IO 0x{first:04X}{to} +0x{length:X}", f"align 0x{align:X}" if align > 1 else "", *macro.words


def memory(macro: Macro) -> tuple:
    first, last, align, length = macro.numbers
    digits, shift = (6, 8) if macro.kind == "Memory24" else (8, 0)
    window = f"0x{first << shift:0{digits}X} to 0x{last << shift:0{digits}X} +0x{length << shift:X}"
    return macro.kind, window, f"align 0x{align:X}", *macro.words


def fixed(macro: Macro) -> tuple:
    digits = 4 if macro.kind == "FixedIO" else 8
    return macro.kind, f"0x{macro.numbers[0]:0{digits}X} +0x{macro.numbers[1]:X}", *macro.words


def register(macro: Macro) -> tuple:
    width, shift, address, *size = macro.numbers
    access = ("", "bytes", "words", "double words", "quad words")
    by = f"by {access[size[0]]}" if size and size[0] else ""
    return f"Register 0x{address:X}", macro.arguments[0], f"{width} bits", f"from bit {shift}" if shift else "", by


def spaced(macro: Macro) -> tuple:
    """An address space."""
    is_special = macro.kind.endswith("Space")
    gran, first, last, translation, length = macro.numbers[2 * is_special :][:5]
    digits = {"W": 4, "D": 8, "Q": 16, "E": 16}[macro.kind[0]]
    to = "" if last == first else f" to 0x{last:0{digits}X}"
    other = "I/O" if macro.kind.endswith("Memory") else "memory"
    return (
        f"{macro.kind} 0x{first:0{digits}X}{to} +0x{length:X}", f"of kind 0x{macro.numbers[0]:02X}" * is_special,
        "consumer" * ("ResourceConsumer" in macro.arguments), *(it.replace("the other", other) for it in macro.words),
        f"granularity 0x{gran:X}" if gran else "", f"translation 0x{translation:X}" if translation else "",
    )


def gpio(macro: Macro) -> tuple:
    debounce, drive = macro.numbers[0], macro.numbers[1] if macro.kind == "GpioIo" else 0
    more = f"drive {drive}" if drive else "", f"debounce {debounce}" if debounce else ""
    return macro.kind, macro.lines, *macro.words, *more


TEXTS = {
    **dict.fromkeys(("IRQ", "DMA"), lambda it: (it.kind, it.lines, *it.words)),
    "IRQNoFlags": lambda it: ("IRQ", it.lines, "edge"),
    "FixedDMA": lambda it: (it.kind, str(it.numbers[0]), f"channel {it.numbers[1]}", *it.words),
    "StartDependentFn": lambda it: (it.kind, "priority {} robustness {}".format(*(int(one, 0) for one in it.arguments[:2]))),
    **dict.fromkeys(("StartDependentFnNoPri", "EndDependentFn"), lambda it: (it.kind,)),
    **dict.fromkeys(("VendorShort", "VendorLong"), lambda it: (it.kind, f"{len(it.listed)} bytes")),
    "Interrupt": lambda it: (it.kind, it.lines, "producer" if "ResourceProducer" in it.arguments else "", *it.words),
    "I2cSerialBus": lambda it: (f"{it.kind} 0x{it.numbers[0]:04X} {it.numbers[1]} Hz", *it.words),
    "UartSerialBus": lambda it: (it.kind, f"{it.numbers[0]} baud", *it.words),
    "IO": io, "FixedIO": fixed, "Memory32Fixed": fixed, "Memory24": memory, "Memory32": memory, "Register": register,
    "GpioInt": gpio, "GpioIo": gpio,
    "SpiSerialBus": lambda it: ("{3} 0x{0:04X} {2} Hz {1} bits".format(*it.numbers[:3], it.kind), *it.words),
}  # fmt: skip
