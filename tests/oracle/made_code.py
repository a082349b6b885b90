"""Makes up the AML of sets of tables: near the grammar of reading.py, most of it lawful, its names mostly known."""

from namespaces import PREDEFINED
from reading import ALIAS, BUFFER, ELSE, EXTERNAL, FIELD_LISTS, IF, METHOD, MOST_LEVELS, ROWS, SCOPE, SCOPES, Name

# The bytes of each opcode by its word
LEADS = {row.mnemonic: opcode.to_bytes(1 if opcode < 256 else 2, "big") for opcode, row in ROWS.items()}
PLAIN_VALUES = [0x00, 0x01, 0xFF, 0x60, 0x61, 0x68, 0x0A, 0x0B, 0x0C, 0x0E, 0x0D, 0x5B30, 0x5B31, 0x5B33]
VALUES = [opcode for opcode, row in ROWS.items() if row.group in ("value", "expression")]
PLAIN_TARGETS = [0x60, 0x68, 0x5B31]
TARGETS = [0x71, 0x83, 0x88, *PLAIN_TARGETS]
PLAIN_DATA = [0x00, 0x01, 0xFF, 0x5B30, 0x0A, 0x0B, 0x0C, 0x0E, 0x0D]
DATA = [0x11, 0x12, 0x13, *PLAIN_DATA]
IN_BODIES = [opcode for opcode in ROWS if opcode not in SCOPES and opcode not in (METHOD, ELSE)]
IN_DEEP_BODIES = [0xA3, 0x70, 0xA4]
DECLARATIONS = [opcode for opcode, row in ROWS.items() if row.group == "declaration"]
IN_TABLES = DECLARATIONS + [METHOD] * 20 + [0x08] * 4 + [SCOPE, 0x5B82] * 3 + [IF]
IN_DEEP_TABLES = [0x08, METHOD]
STRANGE_SEGMENTS = ["AAAA", "BBBB", "_SB_", "DEV0", "_OSI"]
LIKELY_BYTES = bytes.fromhex("00 01 FF 5B 5C 5E 2E 2F 70 10 14 A0 A1 11 12 60 41 15 06 08 40 50 80 C0")
MOST_DEPTH = 6
MOST_SEGMENTS = 255
# What a package length of each width stays below, and the widest.
BOUNDS, WIDEST = (64, 1 << 12, 1 << 20, 1 << 28), 4
ARGUMENT_COUNTS = [0, 0, 0, 1, 1, 2, 2, 3, 7]


def shortest(name, is_multi=False):
    """The bytes of a name, in the shortest form that it can have, or in the one for many segments."""
    prefix, short = b"\\" if name.root else b"^" * name.ups, {} if is_multi else {0: b"\0", 1: b"", 2: b"."}
    return prefix + short.get(len(name.segs), b"/%c" % len(name.segs)) + "".join(name.segs).encode()


def package_length(content, least_width):
    """The shortest package length over this many bytes that has at least so many bytes itself."""
    width = next(width for width in range(least_width, WIDEST + 1) if content + width < BOUNDS[width - 1])
    value = content + width
    if width == 1:
        return bytes([value])
    return bytes([(width - 1) << 6 | value & 15]) + (value >> 4).to_bytes(width - 1, "little")


class Chancy:
    """What makes things up by a chance."""

    def happens(self, share):
        return self.chance.random() < share


class Maker(Chancy):
    """Makes the AML of one set.

    `known` are the paths that the set has so far, with how many arguments each takes; `methods` those that are called from the
    beginning and declared at the end; `given` those of them of which no table says anything, with their counts (none
    where `gives` isn't set); `locals` those that the body declares. `scope` is where the code stands, and `opened` the
    path of the last name that was declared or looked up. `strange_terms` and `strange_calls` are the shares of what may not be
    lawful, outside the methods and in their bodies. Where `segments` isn't 0, the tables' terms stand in a scope of so many.
    """

    # Counts of bits, the opcodes of values and of statements, the share of values that stand as deep as can be
    BITS, USED, PLAIN_USED, STATEMENTS, DEEP = range(300), VALUES, PLAIN_VALUES, IN_BODIES, 0.0005

    def __init__(self, chance, gives=False, segments=0):
        self.chance, self.gives, self.given, self.segments = chance, gives, {}, segments
        self.strange_terms = chance.choices([0, 0.01, 0.1], [85, 10, 5])[0]
        self.strange_calls = chance.choices([0, 0.02, 0.2], [70, 20, 10])[0]
        self.stray_elses = 0.1 * self.strange_calls
        self.scope, self.opened, self.fresh_count = (), (), 0
        self.known = {path: kind[1] if kind[0] == "Method" else 0 for path, kind in PREDEFINED.items()}
        self.locals = []
        self.methods = {(self.fresh_segment(),): chance.choice(ARGUMENT_COUNTS) for _ in range(4)}
        for _ in range(3 if gives else 0):
            above = chance.choice(((), ("_SB_",), ("_GPE",), (self.fresh_segment(),)))
            self.methods[(*above, self.fresh_segment())] = chance.choice(ARGUMENT_COUNTS)

    def tables(self):
        """The AML of the tables of the set, the DSDT's first."""
        codes = [self.table_terms(number == 0) for number in range(self.chance.choice((1, 1, 2, 3)))]
        for path, count in self.methods.items():
            codes[self.chance.randrange(len(codes))] += self.late_method(path, count)
        return codes

    def table_terms(self, is_first):
        """The terms of a table, which declares the scope where they stand, or opens that of the first."""
        path = tuple(f"D{number:03X}" for number in range(self.segments))
        cuts = [*range(0, self.segments, MOST_SEGMENTS), self.segments]
        if is_first:
            self.known |= {path[:end]: 0 for end in cuts[1:]}
        self.scope = path
        code = self.terms(0, "table")
        self.scope = ()
        for begin, end in reversed(list(zip(cuts, cuts[1:]))):
            code = self.spelled(Name(False, 0, list(path[begin:end]))) + code
            code = self.packed(b"\x5b\x82" if is_first else bytes([SCOPE]), code)
        return code

    def late_method(self, path, count):
        """The declaration of a method that the set calls; seldom it is an External, or missing, or given."""
        name, how = self.spelled(self.root_name(path)), self.chance.random()
        if self.gives and self.happens(0.4):
            self.given[path] = count
            return b""
        if how < 0.15:
            return b"" if how < 0.03 else b"\x15" + name + b"\x08" + bytes([count])
        return self.method(name, path, count)

    def method(self, name, path, count):
        return self.packed(b"\x14", name + bytes([count | self.chance.choice((0x00, 0x08, 0x30))]) + self.body(path))

    def is_strange(self, inside):
        return self.chance.random() < (self.strange_calls if inside == "body" else self.strange_terms)

    # ---- bytes

    def length(self, size):
        """A package length, sometimes wider than it needs to be."""
        widths = [width for width in range(1, WIDEST + 1) if size + width < BOUNDS[width - 1]]
        return package_length(size, 1 if self.chance.random() < 0.85 else self.chance.choice(widths))

    def packed(self, opcode, content):
        return opcode + self.length(len(content)) + content

    def bits(self):
        bits = self.chance.choice(self.BITS)
        return bytes([bits]) if bits < 64 else bytes([0x40 | bits & 15, bits >> 4])

    # ---- names

    def spelled(self, name):
        """The bytes of a name, in one of the forms that it can have."""
        return shortest(name, is_multi=len(name.segs) in (1, 2) and not self.happens(0.85))

    def fresh_segment(self):
        self.fresh_count += 1
        high, low = divmod(self.fresh_count, 10)
        return f"N{chr(0x41 + high // 26 % 26)}{chr(0x41 + high % 26)}{low}"

    def strange_name(self, lengths=(0, 1, 1, 1, 1, 1, 1, 2, 3)):
        """A name with so many segments that may lead nowhere."""
        prefix = self.chance.choice(["", "", "\\", "^", "^^"])
        segs = [self.chance.choice(STRANGE_SEGMENTS) for _ in range(self.chance.choice(lengths))]
        return self.spelled(Name(prefix == "\\", prefix.count("^"), segs))

    def new_name(self, inside, count=0):
        if self.is_strange(inside):
            return self.strange_name()
        name = self.fresh_name(inside)
        self.opened = name.placed(self.scope)
        if inside == "body":
            self.locals.append(self.opened)
        else:
            self.known[self.opened] = count
        return self.spelled(name)

    def fresh_name(self, inside):
        ups = self.chance.randrange(len(self.scope) + 1) if self.chance.random() < 0.1 else 0
        name = Name(False, ups, [self.fresh_segment()])
        if self.chance.random() < 0.1:
            return Name(True, 0, ["_SB_", *name.segs])
        if inside == "table" and self.chance.random() < 0.02:
            return Name(True, 0, [self.chance.choice(["_GL_", "_OS_", "_REV", "_OSI"])])
        return name

    def root_name(self, path):
        """A name that leads to a path from the root, or to another one where no name leads so deep."""
        return Name(True, 0, list(path[:MOST_SEGMENTS]))

    def name_to(self, path):
        return self.spelled(self.leading_name(path))

    def leading_name(self, path):
        """A name that leads to a path from where the code stands, if there is one."""
        shared = next(length for length in range(len(self.scope), -1, -1) if path[:length] == self.scope[:length])
        names = [self.root_name(path)] if len(path) <= MOST_SEGMENTS else []
        if 0 < len(path) - shared <= MOST_SEGMENTS:
            names.append(Name(False, len(self.scope) - shared, list(path[shared:])))
        upward = Name(False, 0, list(path[-1:]))
        known = self.known.keys() | self.methods.keys()
        if path and next((it for it in upward.candidates(self.scope) if it in known), None) == path:
            names += [upward] * 4
        return self.chance.choice(names or [self.root_name(path)])

    def scope_name(self):
        self.opened = self.scope if self.chance.random() < 0.2 else self.chance.choice(list(self.known))
        if self.is_strange("table"):
            return self.strange_name()
        return b"\0" if self.opened == self.scope else self.name_to(self.opened)

    def alias_names(self, inside):
        """The source of an Alias, and its new name."""
        source = self.chance.choice([path for path in self.known if path])
        name = self.strange_name() if self.is_strange(inside) else self.name_to(source)
        return name + self.new_name(inside, self.known[source])

    def any_name(self):
        """A name of which nothing is asked but that it has a segment."""
        if self.happens(0.2):
            return self.strange_name((1, 2, 3))
        return self.name_to(self.chance.choice([path for path in self.known if path]))

    def called(self, depth, inside):
        """A name where a value is wanted, and its arguments."""
        if self.is_strange(inside):
            return self.strange_name() + b"".join(self.value(depth + 1, inside) for _ in range(self.chance.randrange(3)))
        if inside == "body" and self.locals and self.chance.random() < 0.3:
            return self.name_to(self.chance.choice(self.locals))
        counts = {**self.known, **self.methods}
        paths = [path for path in counts if path and (inside == "body" or not counts[path])]
        path = self.chance.choice(list(self.methods) if inside == "body" and self.chance.random() < 0.5 else paths)
        return self.name_to(path) + b"".join(self.value(depth + 1, inside) for _ in range(counts[path]))

    # ---- terms

    def terms(self, depth, inside):
        """The terms of a table, of a guard, or of a block of a body."""
        if inside == "body":
            return self.statements(depth)
        opcodes = [EXTERNAL] if inside == "guard" else IN_TABLES if depth < MOST_DEPTH else IN_DEEP_TABLES
        count = self.chance.randrange(4) if depth else self.chance.randrange(3, 12)
        return b"".join(self.operation(self.chance.choice(opcodes), depth, inside) for _ in range(count))

    def statements(self, depth):
        code = b""
        for _ in range(self.chance.randrange(5)):
            if self.happens(0.3):
                code += self.lone_value(depth)
                continue
            opcode = self.chance.choice(self.STATEMENTS if depth < MOST_DEPTH else IN_DEEP_BODIES)
            code += self.operation(opcode, depth, "body")
            share = 0.5 if opcode == IF else self.stray_elses
            if share is not None and self.happens(share):
                code += self.operation(ELSE, depth, "body")
        return code

    def lone_value(self, depth):
        return self.value(depth, "body")

    def body(self, path):
        scope, self.scope, self.locals = self.scope, path, []
        code = self.statements(2)
        self.scope = scope
        return code

    def operation(self, opcode, depth, inside):
        row = ROWS[opcode]
        code = self.parts(opcode, depth + 1, inside)
        code += self.tail(row.tail, opcode, depth + 1, inside)
        lead = LEADS[row.mnemonic]
        return self.packed(lead, code) if row.packed else lead + code

    def parts(self, opcode, depth, inside):
        count = self.chance.choice(ARGUMENT_COUNTS)
        if opcode == METHOD:
            return self.new_name(inside, count) + bytes([count | self.chance.choice((0x00, 0x08, 0xF0))])
        if opcode == EXTERNAL:
            count = 8 if self.is_strange(inside) else count
            return self.new_name(inside, count) + self.chance.randbytes(1) + bytes([count])
        if opcode == ALIAS:
            return self.alias_names(inside)
        if opcode == SCOPE:
            return self.scope_name()
        return b"".join(self.part(kind, opcode, depth, inside) for kind in ROWS[opcode].parts)

    def part(self, kind, opcode, depth, inside):
        if kind == "T" and opcode == IF and inside == "table":
            return b"\0"
        if kind in "TSD":
            return {"T": self.value, "S": self.target, "D": self.data}[kind](depth, inside)
        if kind == "N":
            is_new = opcode in DECLARATIONS and opcode not in FIELD_LISTS
            return self.new_name(inside) if is_new else self.any_name()
        if kind == "Z":
            return bytes(self.chance.randrange(1, 256) for _ in range(self.chance.randrange(4))) + b"\0"
        return self.chance.randbytes(int(kind))

    def tail(self, kind, opcode, depth, inside):
        if kind in ("e", "f"):
            make, most = (self.data, 4) if kind == "e" else (self.unit, 5)
            return b"".join(make(depth, inside) for _ in range(self.chance.randrange(most)))
        if kind == "t":
            return self.block(opcode, depth, inside)
        if kind == "b":
            return self.body(self.opened)
        return self.chance.randbytes(self.chance.randrange(5)) if kind == "y" else b""

    def block(self, opcode, depth, inside):
        if opcode not in SCOPES:
            return self.terms(depth, "guard" if inside == "table" else inside)
        scope, self.scope = self.scope, self.opened
        code = self.terms(depth, inside)
        self.scope = scope
        return code

    def unit(self, depth, inside):
        makers = {
            0: lambda: b"\0" + self.bits(), 1: lambda: b"\1" + self.chance.randbytes(2),
            2: lambda: b"\3" + self.chance.randbytes(3), 3: lambda: b"\2" + self.any_name(),
            4: lambda: b"\2" + self.operation(BUFFER, depth, inside),
        }
        return makers.get(self.chance.randrange(8), lambda: self.new_unit(inside) + self.bits())()

    def new_unit(self, inside):
        seg = self.chance.choice(STRANGE_SEGMENTS) if self.is_strange(inside) else self.fresh_segment()
        path = (*self.scope, seg)
        if inside == "body":
            self.locals.append(path)
        else:
            self.known.setdefault(path, 0)
        return seg.encode()

    # ---- values

    def value(self, depth, inside):
        if self.DEEP and self.happens(self.DEEP):
            return b"\x92" * self.chance.randrange(MOST_LEVELS - 12, MOST_LEVELS + 3) + b"\x60"
        kind = self.chance.random() if depth < MOST_DEPTH else 1
        if kind < 0.35:
            return self.called(depth, inside)
        return self.operation(self.chance.choice(self.USED if kind < 0.6 else self.PLAIN_USED), depth, inside)

    def target(self, depth, inside):
        kind = self.chance.random()
        if kind < 0.6:
            return b"\0" if kind < 0.3 else self.any_name()
        return self.operation(self.chance.choice(TARGETS if depth < MOST_DEPTH else PLAIN_TARGETS), depth, inside)

    def data(self, depth, inside):
        if self.chance.random() < 0.3:
            return self.any_name()
        return self.operation(self.chance.choice(DATA if depth < MOST_DEPTH else PLAIN_DATA), depth, inside)


def damaged(chance, code):
    """Bytes of which a few are changed, gone or new."""
    code = bytearray(code)
    for _ in range(chance.choice((1, 1, 1, 2, 3))):
        at, how = chance.randrange(len(code) + 1), chance.random()
        if how < 0.2:
            code.insert(at, chance.randrange(256))
        elif at == len(code):
            continue
        elif how < 0.7:
            code[at] = chance.choice((chance.randrange(256), chance.choice(LIKELY_BYTES)))
        elif how < 0.8:
            code[at] ^= 1 << chance.randrange(8)
        elif how < 0.9:
            del code[at]
        else:
            del code[at:]
    return bytes(code)
