"""Resource descriptors after chapter 6.4 of the ACPI Specification 6.5: the bytes of a buffer as a line for each."""

from __future__ import annotations

from collections import namedtuple

from acpidis_tools.standard import WORDS, escaped, space_name

# Where the content of a descriptor begins.
SMALL, LARGE = 1, 3
END = 0x0F
FIELDS = "kind first last length digits lines words source index at size"


class Descriptor(namedtuple("Descriptor", FIELDS, defaults=[None, None, None, 8, (), (), "", 0, 0, 0])):
    """A descriptor: its name in ASL, its addresses, with how many digits these have, its lines (interrupts, channels or
    pins), what else it says, the name of the device that it goes through, with its index there, where its bytes are."""

    @property
    def text(self) -> str:
        parts = [self.kind]
        if self.lines:
            parts.append(", ".join(map(str, self.lines)))
        if self.first is not None:
            last = "" if self.last in (None, self.first) else f" to 0x{self.last:0{self.digits}X}"
            parts.append(f"0x{self.first:0{self.digits}X}{last}")
        if self.length is not None:
            parts.append(f"+0x{self.length:X}")
        parts += [*self.words, *([f"by {self.source}"] if self.source else [])]
        return " ".join([*parts, *([f"index {self.index}"] if self.index else [])])


SPACE_KINDS, CACHING, MEMORY_TYPES = (WORDS[name] for name in ("SPACE_KINDS", "CACHING", "MEMORY_TYPES"))
IO_RANGES = ("no range", "non-ISA range", "ISA range", "")
PULLS, RESTRICTIONS = WORDS["PULLS"], WORDS["RESTRICTIONS"]
STOPS, FLOWS, PARITIES = WORDS["STOPS"], WORDS["FLOWS"], WORDS["PARITIES"]


def set_bits(number: int) -> tuple[int, ...]:
    return tuple(bit for bit in range(number.bit_length()) if number >> bit & 1)


def said(kind: str, *words: object, **more: object) -> Descriptor:
    """A descriptor with those of the words that are there."""
    return Descriptor(kind, words=tuple(filter(None, words)), **more)


def interrupt_words(is_edge: int, polarity: int, sharing: int) -> tuple:
    level = ("", "low", "both", "polarity 3")[polarity]
    return "edge" if is_edge else "level", level, sharing & 1 and "shared", sharing & 2 and "wake"


def specific_words(kind: int, kept: int) -> tuple:
    if kind == 0:
        is_translated = kept >> 5 & 1 and "as I/O"
        return not kept & 1 and "read-only", CACHING[kept >> 1 & 3], MEMORY_TYPES[kept >> 3 & 3], is_translated
    if kind == 1:
        return IO_RANGES[kept & 3], kept >> 4 & 1 and "as memory", kept >> 5 & 1 and "sparse"
    return ()


class Bytes:
    """A descriptor's bytes, and what they say by its kind: offsets count from its first, as in the standard."""

    def __init__(self, data: bytes):
        self.data = data

    def number(self, at: int, width: int) -> int:
        if at + width > len(self.data):
            raise ValueError("a field ends behind its descriptor")
        return int.from_bytes(self.data[at:at + width], "little")

    def numbers(self, at: int, width: int, count: int) -> tuple[int, ...]:
        return tuple(self.number(at + width * place, width) for place in range(count))

    def text(self, at: int) -> str:
        """A text that ends with a NUL, printable."""
        return escaped(self.data[at:].partition(b"\0")[0], range(0x21, 0x7F))

    def bits(self, at: int, low: int, count: int = 1) -> int:
        return self.number(at, 1) >> low & (1 << count) - 1

    def source_at(self, at: int, index: int) -> dict:
        """The source whose name is at an offset, if it has one, and its index, which is at another."""
        source = self.text(at)
        return {"source": source, "index": self.number(index, 1)} if source else {}

    # ---- small descriptors (6.4.2)

    def irq(self) -> Descriptor:
        words, lines = ("edge",), set_bits(self.number(1, 2))
        if len(self.data) > 3:
            words = interrupt_words(self.bits(3, 0), self.bits(3, 3), self.bits(3, 4, 2))
        return said("IRQ", *words, lines=lines)

    def dma(self) -> Descriptor:
        speed = ("compatibility", "type A", "type B", "type F")[self.bits(2, 5, 2)]
        width = ("8 bits", "8 and 16 bits", "16 bits", "size 3")[self.bits(2, 0, 2)]
        return said("DMA", speed, width, self.bits(2, 2) and "bus master", lines=set_bits(self.number(1, 1)))

    def start_dependent(self) -> Descriptor:
        if len(self.data) == 1:
            return Descriptor("StartDependentFnNoPri")
        return said("StartDependentFn", f"priority {self.bits(1, 0, 2)}", f"robustness {self.bits(1, 2, 2)}")

    def io(self) -> Descriptor:
        (first, last), align = self.numbers(2, 2, 2), self.number(6, 1)
        words = align > 1 and f"align 0x{align:X}", not self.bits(1, 0) and "10 bits decoded"
        return said("IO", *words, first=first, last=last, length=self.number(7, 1), digits=4)

    def fixed_dma(self) -> Descriptor:
        width = self.number(5, 1)
        words = f"channel {self.number(3, 2)}", f"{8 << width} bits" if width < 6 else f"width {width}"
        return said("FixedDMA", *words, lines=(self.number(1, 2),))

    # ---- memory and registers (6.4.3.1 to 6.4.3.4, 6.4.3.7)

    def memory(self, kind: str, width: int, shift: int) -> Descriptor:
        """A window of memory, whose numbers have so many bytes, and count bytes or 256 of them."""
        first, last, align, length = (it << shift for it in self.numbers(4, width, 4))
        align = align >> shift or (0x10000 if shift else 0)
        words = align and f"align 0x{align:X}", self.read_only()
        return said(kind, *words, first=first, last=last, length=length, digits=8 - shift // 4)

    def read_only(self) -> str:
        return "" if self.bits(3, 0) else "read-only"

    def register(self) -> Descriptor:
        access = ("", "bytes", "words", "double words", "quad words")
        space, bits, shift, size = self.numbers(3, 1, 4)
        by = 0 < size < len(access) and f"by {access[size]}"
        words = space_name(space), f"{bits} bits", shift and f"from bit {shift}", by
        return said("Register", *words, first=self.number(7, 8), digits=1)

    # ---- address spaces (6.4.3.5)

    def address_space(self, size: str, width: int) -> Descriptor:
        """An address space descriptor whose numbers have so many bytes."""
        at = 8 if size == "Extended" else 6
        granularity, first, last, translation, length = self.numbers(at, width, 5)
        kind, behind = self.number(3, 1), at + 5 * width + 1
        name = SPACE_KINDS[kind] if kind < len(SPACE_KINDS) else "Space"
        words = (
            name == "Space" and f"of kind 0x{kind:02X}", self.bits(4, 0) and "consumer",
            self.bits(4, 1) and "subtractive", not self.bits(4, 2) and "first not fixed",
            not self.bits(4, 3) and "last not fixed", *specific_words(kind, self.number(5, 1)),
            granularity and f"granularity 0x{granularity:X}", translation and f"translation 0x{translation:X}",
        )  # fmt: skip
        source = self.source_at(behind, behind - 1) if size != "Extended" else {}
        return said(size + name, *words, first=first, last=last, length=length, digits=2 * width, **source)

    # ---- interrupts, pins and buses (6.4.3.6, 6.4.3.8 to 6.4.3.14)

    def interrupt(self) -> Descriptor:
        kept, count = self.number(3, 1), self.number(4, 1)
        words = not kept & 1 and "producer", *interrupt_words(kept >> 1 & 1, kept >> 2 & 1, kept >> 3 & 3)
        behind = 5 + 4 * count
        return said("Interrupt", *words, lines=self.numbers(5, 4, count), **self.source_at(behind + 1, behind))

    def gpio(self) -> Descriptor:
        is_io = self.number(4, 1) == 1
        kept, pull = self.number(7, 2), self.number(9, 1)
        strength, debounce = self.numbers(10, 2, 2)
        words = interrupt_words(kept & 1, kept >> 1 & 3, kept >> 3 & 3)
        if is_io:
            words = RESTRICTIONS[kept & 3], kept >> 3 & 1 and "shared"
        more = strength and f"drive {strength}", debounce and f"debounce {debounce}"
        words = *words, PULLS[pull] if pull < len(PULLS) else f"pull {pull}", *more
        return self.with_pins("GpioIo" if is_io else "GpioInt", words, (14, 17), 17)

    def with_pins(self, kind: str, words: tuple, places: tuple[int, int], source: int) -> Descriptor:
        """One whose pins, of 2 bytes each, stand between two offsets, and its source, if it has one, at another one."""
        first, behind = (self.number(at, 2) for at in places)
        more = self.source_at(self.number(source, 2), source - 1) if source else {}
        return said(kind, *words, lines=self.numbers(first, 2, max(0, behind - first) // 2), **more)

    def shared(self) -> str:
        return "shared" if self.bits(4, 0) else ""

    def label(self, at: int) -> str:
        return f"label {self.text(self.number(at, 2))}"

    def grouped(self, kind: str, words: tuple, source: int) -> Descriptor:
        """A descriptor of a group of pins, whose label has its offset behind that of the source."""
        return said(kind, *words, self.label(source + 2), **self.source_at(self.number(source, 2), source - 1))

    def configured(self) -> tuple[str, str]:
        return f"type {self.number(6, 1)}", f"value {self.number(7, 4)}"

    def serial_bus(self) -> Descriptor:
        kind, kept, source = self.number(5, 1), self.number(7, 2), self.source_at(12 + self.number(10, 2), 4)
        mode, sharing = self.bits(6, 0) and "device initiated", self.bits(6, 2) and "shared"
        if kind == 1:
            words = f"{self.number(12, 4)} Hz", mode, kept & 1 and "10-bit address", sharing
            return said("I2cSerialBus", *words, first=self.number(16, 2), digits=4, **source)
        if kind == 2:
            words = f"{self.number(12, 4)} Hz", f"{self.number(16, 1)} bits", mode
            words += kept & 1 and "3 wires", kept & 2 and "select high"
            words += self.number(17, 1) and "second phase", self.number(18, 1) and "polarity high", sharing
            return said("SpiSerialBus", *words, first=self.number(19, 2), digits=4, **source)
        if kind == 3:
            bits, parity = self.bits(7, 4, 3), self.number(20, 1)
            words = f"{self.number(12, 4)} baud", mode, bits != 3 and f"{5 + bits} bits", STOPS[kept >> 2 & 3]
            words += kept >> 7 & 1 and "big endian", PARITIES[parity] if parity < len(PARITIES) else f"parity {parity}"
            return said("UartSerialBus", *words, FLOWS[kept & 3], sharing, **source)
        if kind == 4:
            return said("Csi2Bus", mode, sharing, **source)
        raise ValueError("no such bus")


# ---- all of them: each with the least and the most bytes of its content

ANY = 0xFFFF
SMALLS = {
    0x04: (2, 3, Bytes.irq), 0x05: (2, 2, Bytes.dma), 0x06: (0, 1, Bytes.start_dependent), 0x08: (7, 7, Bytes.io),
    0x0A: (5, 5, Bytes.fixed_dma), 0x07: (0, 0, lambda _: Descriptor("EndDependentFn")),
    0x09: (3, 3, lambda it: Descriptor("FixedIO", it.number(1, 2), length=it.number(3, 1), digits=4)),
    0x0E: (0, 7, lambda it: said("VendorShort", f"{len(it.data) - SMALL} bytes")),
}
LARGES = {
    0x01: (9, 9, lambda it: it.memory("Memory24", 2, 8)), 0x02: (12, 12, Bytes.register),
    0x05: (17, 17, lambda it: it.memory("Memory32", 4, 0)), 0x07: (23, ANY, lambda it: it.address_space("DWord", 4)),
    0x08: (13, ANY, lambda it: it.address_space("Word", 2)), 0x0A: (43, ANY, lambda it: it.address_space("QWord", 8)),
    0x0B: (53, 53, lambda it: it.address_space("Extended", 8)), 0x09: (6, ANY, Bytes.interrupt),
    0x0C: (20, ANY, Bytes.gpio), 0x0E: (9, ANY, Bytes.serial_bus),
    0x0D: (15, ANY, lambda it: it.with_pins("PinFunction", (f"function {it.number(7, 2)}", it.shared()), (9, 12), 12)),
    0x0F: (17, ANY, lambda it: it.with_pins("PinConfig", (*it.configured(), it.shared()), (11, 14), 14)),
    0x11: (14, ANY, lambda it: it.grouped("PinGroupFunction", (f"function {it.number(6, 2)}",), 9)),
    0x12: (17, ANY, lambda it: it.grouped("PinGroupConfig", it.configured(), 12)),
    0x04: (0, ANY, lambda it: said("VendorLong", f"{len(it.data) - LARGE} bytes")),
    0x06: (9, 9, lambda it: said("Memory32Fixed", it.read_only(), first=it.number(4, 4), length=it.number(8, 4))),
    0x10: (11, ANY, lambda it: it.with_pins("PinGroup", (it.label(8),), (6, 8), 0)),
    0x13: (9, ANY, lambda it: said("ClockInput", f"{it.number(8, 4)}/{it.number(6, 2)}")),
}  # fmt: skip


def descriptors(data: bytes) -> list[Descriptor] | None:
    """The descriptors of a whole template, which ends with its end tag; None of any other bytes."""
    found, at = [], 0
    while at < len(data):
        lead, head = data[at], LARGE if data[at] >> 7 else SMALL
        size = head + (lead & 7 if head == SMALL else int.from_bytes(data[at + 1:at + 3], "little"))
        if head == SMALL and lead >> 3 == END:
            return found if size == 2 and at + size == len(data) else None
        least, most, read = (SMALLS.get(lead >> 3) if head == SMALL else LARGES.get(lead & 0x7F)) or (1, 0, None)
        if not least <= size - head <= most or at + size > len(data):
            return None
        try:
            found.append(read(Bytes(data[at:at + size]))._replace(at=at, size=size))
        except ValueError:
            return None
        at += size
    return None
