"""Makes up AML that ASL has: each length, number and name in its shortest form, and no term alone that ASL has as a part."""

from made_code import DATA, IN_BODIES, MOST_DEPTH, PLAIN_DATA, PLAIN_VALUES, VALUES, Maker, package_length, shortest
from reading import BUFFER, EXTERNAL, FIELD_LISTS, Name

PACKAGE, VAR_PACKAGE, MUTEX, REGION, MATCH = 0x12, 0x13, 0x5B01, 0x5B80, 0x89
NUMBERS = {0x0A: 1, 0x0B: 2, 0x0C: 4, 0x0E: 8}
# The operators that ASL doesn't take without a target.
TARGETED = (0x70, 0x71, 0x75, 0x76, 0x87, 0x8E, 0x9D, 0x86, 0x5B20, 0x5B23, 0x5B24, 0x5B25, 0x5B26, 0x5B27, 0x5B2A)
# What ASL has as parts of other terms alone.
PARTS = {0x00, 0x01, 0xFF, 0x0A, 0x0B, 0x0C, 0x0D, 0x0E, 0x5B30, 0x5B31, 0x11, 0x12, 0x13, *range(0x60, 0x6F)}
DEBUG, LOAD, COND_REF_OF, DEREF_OF, NAME_OP = 0x5B31, 0x5B20, 0x5B12, 0x83, 0x08
# What DerefOf takes beside a name: locals and arguments, Index, RefOf, Store.
REFERENCES = [0x60, 0x68, 0x88, 0x71, 0x70]
CREATE_FIELD, CREATORS = 0x5B13, (0x5B13, 0x8A, 0x8B, 0x8C, 0x8D, 0x8F)
SPACES = (*range(12), 0x7F, 0x80, 0xFF)
EXTENDED = (0x0B, 0x0E, 0x0F)
PREDEFINED = ("_GL_", "_OS_", "_REV", "_OSI")
# Resource descriptors: I2cSerialBusV2, GpioIo, GpioInt.
DESCRIPTORS = list(map(bytes.fromhex, (
    "8E 19 00 02 00 01 02 00 00 01 06 00 80 1A 06 00 2C 00 5C 5F 53 42 2E 49 32 43 30 00",
    "8C 1D 00 01 01 01 00 00 00 01 0A 00 0B 00 17 00 00 19 00 1E 00 02 00 05 00 47 50 49 30 00 01 02",
    "8C 1B 00 01 00 01 00 0A 00 00 00 00 64 00 17 00 00 19 00 1E 00 00 00 07 00 47 50 49 30 00",
)))


class PlainMaker(Maker):
    """Makes the AML of one set whose text ASL has."""

    BITS = [it for it in range(300) if it != 63]
    USED = [opcode for opcode in VALUES if opcode not in (DEBUG, LOAD)]
    PLAIN_USED = [opcode for opcode in PLAIN_VALUES if opcode != DEBUG]
    STATEMENTS = [opcode for opcode in IN_BODIES if opcode not in PARTS]
    DEEP = 0

    def __init__(self, chance):
        super().__init__(chance)
        self.strange_terms, self.strange_calls, self.stray_elses = 0, 0, None
        self.known = {("DEV0",): 0}

    def table_terms(self, is_first):
        return (b"\x5b\x82\x05DEV0" if is_first else b"") + super().table_terms(is_first)

    def late_method(self, path, count):
        return self.method(self.spelled(self.root_name(path)), path, count)

    def length(self, size):
        return package_length(size, 1)

    def spelled(self, name):
        return shortest(name)

    def fresh_name(self, inside):
        name = super().fresh_name(inside)
        return Name(False, 0, [self.fresh_segment()]) if name.segs[0] in PREDEFINED else name

    def scope_name(self):
        name = super().scope_name()
        return self.spelled(self.root_name(self.opened)) if name == b"\0" else name

    def lone_value(self, depth):
        path = self.chance.choice(list(self.methods))
        return self.name_to(path) + b"".join(self.value(depth + 1, "body") for _ in range(self.methods[path]))

    def parts(self, opcode, depth, inside):
        if opcode in NUMBERS:
            return self.number(NUMBERS[opcode])
        if opcode == BUFFER:
            return b"\x0A" + bytes([self.chance.randrange(4, 256)])
        if opcode == PACKAGE:
            return bytes([self.chance.randrange(4, 256)])
        if opcode == VAR_PACKAGE:
            return self.chance.choice((b"\x60", b"\x0B\0\1", b"\x72\x01\x60\0"))
        if opcode in CREATORS:
            bits = self.value(depth, inside) if opcode == CREATE_FIELD else b""
            source = b"\x60" if inside == "body" else self.operation(BUFFER, depth, inside)
            return source + self.value(depth, inside) + bits + self.new_name(inside)
        if opcode == EXTERNAL:
            kind = self.chance.randrange(16)
            return b"\\" + self.fresh_segment().encode() + bytes([kind, self.chance.randrange(1, 8) if kind == 8 else 0])
        return super().parts(opcode, depth, inside)

    def number(self, width):
        """A number that needs so many bytes."""
        least = 0 if width == 1 else 1 << 4 * width
        return self.chance.randrange(least, 1 << 8 * width).to_bytes(width, "little")

    def part(self, kind, opcode, depth, inside):
        if kind == "Z":
            return bytes(self.chance.randrange(1, 128) for _ in range(self.chance.randrange(9))) + b"\0"
        if kind == "1" and opcode in FIELD_LISTS:
            return bytes([self.chance.randrange(6) | self.chance.choice((0, 0x10)) | self.chance.choice((0, 0x20, 0x40))])
        if kind == "1" and opcode in (MUTEX, REGION, MATCH):
            return bytes([self.chance.choice({MUTEX: range(16), REGION: SPACES, MATCH: range(6)}[opcode])])
        if kind == "S" and opcode in (*TARGETED, COND_REF_OF):
            return self.any_name() if self.chance.random() < 0.5 else bytes([self.chance.choice((0x60, 0x68))])
        if kind == "T" and opcode == DEREF_OF:
            known = depth < MOST_DEPTH and self.chance.random() < 0.5
            return self.operation(self.chance.choice(REFERENCES), depth, inside) if known else self.any_name()
        if kind == "N" and opcode in FIELD_LISTS:
            return b"\\" + self.fresh_segment().encode()
        if kind == "D" and opcode == NAME_OP:
            return self.operation(self.chance.choice(DATA if depth < MOST_DEPTH else PLAIN_DATA), depth, inside)
        return super().part(kind, opcode, depth, inside)

    def unit(self, depth, inside):
        kind = self.chance.randrange(8)
        if kind == 1:
            attribute = self.chance.choice([it for it in range(256) if it not in EXTENDED])
            return b"\1" + bytes([self.chance.randrange(6), attribute])
        if kind == 2:
            return b"\3" + bytes([self.chance.randrange(6), self.chance.choice(EXTENDED), self.chance.randrange(256)])
        if kind == 4:
            code = self.chance.choice(DESCRIPTORS)
            return b"\2" + self.packed(b"\x11", b"\x0A" + bytes([len(code)]) + code)
        if kind in (0, 3):
            return b"\0" + self.bits() if kind == 0 else b"\2\\" + self.fresh_segment().encode()
        return self.new_unit(inside) + bytes([self.chance.randrange(1, 63)])
