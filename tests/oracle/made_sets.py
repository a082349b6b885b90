"""Makes up folders of dumps with the options of a run: most of them to be taken, the others near that."""

from collections import namedtuple

from dumps import FACS, LISTS, MAP_NAME, MOST_BYTES, RECORDS, ROOT
from made_code import ARGUMENT_COUNTS, STRANGE_SEGMENTS, Chancy, Maker, damaged
from made_runs import RunMaker
from namespaces import path_text
from running import FLAGS, Options

ODD_NAMES = ["SSDT", "SSDT10", "SSDT2", 'a"7.dat', "b\\7", "é 03.dat", ".9", "s.11.", "s12\n.aml", "s9000000003.aml"]
FADT_LENGTHS = [116, 117, 139, 140, 147, 148, 244, 276]
SIGNATURES = [b"HPET", b"MCFG", b"RSDX", b"PSDT", b"dsdt", b'\x01"\\\xFF']
BLOCKS = (b"DSDT", b"SSDT")
BAD_LINES = [
    "", " ", "1", "\\ 2", "AAAA 2", "^AAAA 2", "\\\\AAAA 1", "\\AAAA", "\\AAAA 8", "\\AAAA 01", "\\AAAA  2",
    "\\AAAA 2 ", "\\AAAA 2\r", "\\AAAA\t1", "\\AAA 2", "\\aaaa 1", "\\1AAA 1", "\\AAAA. 1", "\\.AAAA 1",
    "\\AAAA.BBB 1", "\\AAAABBBB 1", "\\AAAA..BBBB 1",
]
LIST_FILES = ["xsdt.dat", "rsdt.dat"]

# The contents of files by name, the options of a run over them, and the content of a file for `--externals`, if any
Trial = namedtuple("Trial", "files options externals", defaults=[None])


def sealed(data):
    """A table with its length and a right checksum."""
    data = bytearray(data)
    data[4:8] = len(data).to_bytes(4, "little")
    data[9] = 0
    data[9] = -sum(data) % 256
    return bytes(data)


def table(chance, signature, content):
    rest = b"\x02\0TEST  EXAMPLE \x01\0\0\0TEST\x01\0\0\0" if chance.random() < 0.8 else chance.randbytes(28)
    return sealed(signature + bytes(4) + rest + content)


def root(revision, rsdt, xsdt, more=b""):
    """A root pointer with right checksums."""
    data = bytearray(ROOT + b"\0TEST  " + bytes([revision]) + rsdt.to_bytes(4, "little"))
    data[8] = -sum(data) % 256
    if revision >= 2:
        data += (36 + len(more)).to_bytes(4, "little") + xsdt.to_bytes(8, "little") + bytes(4) + more
        data[32] = -sum(data) % 256
    return bytes(data)


def any_root(chance, revision, rsdt, xsdt):
    more = chance.choice((0, 0, 4))
    return root(revision, rsdt, xsdt, chance.randbytes(more) if revision >= 2 else b"")


def table_list(chance, name, entries):
    """The XSDT or RSDT of this name."""
    signature = name[:4].upper().encode()
    width = LISTS[signature]
    return table(chance, signature, b"".join((entry % (1 << 8 * width)).to_bytes(width, "little") for entry in entries))


def fadt(chance, dsdt):
    """A FADT that leads to the DSDT at this address: by X_DSDT, or by DSDT."""
    length = chance.choice(FADT_LENGTHS)
    content = bytearray(chance.randbytes(length - 36))
    if length >= 148:
        content[104:112] = dsdt.to_bytes(8, "little")
    if length < 148 or dsdt < 1 << 32 and chance.random() < 0.3:
        content[4:8] = (dsdt % (1 << 32)).to_bytes(4, "little")
        content[104:112] = bytes(len(content[104:112]))
    return table(chance, b"FACP", bytes(content))


def record(chance):
    """A record of a MADT: known, of a known type with another length, or of another type."""
    (kind, length), how = chance.choice(list(RECORDS)), chance.random()
    if how < 0.3:
        kind, length = kind if how < 0.1 else chance.randrange(256), chance.randrange(2, 20)
    return bytes([kind, length]) + chance.randbytes(length - 2)


def madt(chance):
    records = b"".join(record(chance) for _ in range(chance.randrange(6)))
    broken = chance.choice((b"\0", b"\0\1", b"\7\3")) if chance.random() < 0.05 else b""
    return table(chance, b"APIC", chance.randbytes(8) + records + broken)


class SetMaker(Chancy):
    """Makes one trial after another: of made-up tables, or of the known folders, given by the contents of their files.
    Where `gives` is set, most of them have a file for `--externals`; where `any_run` is, code outside methods and its option;
    where `is_deep` is, a third has its terms in a scope of 100 to 2,000 segments."""

    def __init__(self, chance, known=(), gives=False, any_run=False, is_deep=False):
        self.chance, self.known, self.gives, self.any_run, self.is_deep = chance, known, gives, any_run, is_deep

    def trial(self):
        self.given, self.paths = {}, []
        if self.known and self.happens(0.4):
            files = self.spoiled(self.chance.choice(self.known))
        else:
            files = self.made_files()
            if self.happens(0.15):
                files = self.spoiled(files)
        summed = [name for name, data in files.items() if len(data) > 9 and name != MAP_NAME]
        is_wrong = summed and self.happens(0.06)
        if is_wrong:
            name = self.chance.choice(summed)
            data = bytearray(files[name])
            data[8 if data.startswith(ROOT) else 9] ^= self.chance.randrange(1, 256)
            files = {**files, name: bytes(data)}
        return Trial(files, self.options(not is_wrong), self.externals() if self.gives and self.happens(0.8) else None)

    def options(self, is_summed):
        """Flags by their shares. A wrong sum wants its flag more often, code outside methods its own nearly always."""
        shares = FLAGS | ({} if is_summed else {"any_sum": 0.75}) | ({"any_run": 0.95} if self.any_run else {})
        flags = {flag: share > 0 and self.happens(share) for flag, share in shares.items()}
        return Options(**flags, workers=self.chance.choice((None, 1, 2, 3, 4)))

    def spoiled(self, files):
        """The files with a damage in one of them, most often in AML."""
        name = self.chance.choice(list(files))
        blocks = [name for name, data in files.items() if data.startswith(BLOCKS)]
        how = self.chance.random()
        if blocks and how < 0.85:
            name = self.chance.choice(blocks)
            return {**files, name: sealed(files[name][:36] + damaged(self.chance, files[name][36:]))}
        if how < 0.98:
            return {**files, name: damaged(self.chance, files[name])}
        return {kept: data for kept, data in files.items() if kept != name}

    def made_files(self):
        segments = int(100 * 20 ** self.chance.random()) if self.is_deep and self.happens(1 / 3) else 0
        maker = (RunMaker if self.any_run else Maker)(self.chance, self.gives, segments)
        codes = maker.tables()
        self.given, self.paths = maker.given, [path for path in maker.known if path]
        signatures = [b"DSDT"] + [b"SSDT"] * (len(codes) - 1)
        names = ["dsdt.dat", *(f"ssdt{number}.dat" for number in range(1, len(codes)))]
        names = names if self.happens(0.8) else self.chance.sample(ODD_NAMES, len(codes))
        made = (table(self.chance, signature, code) for signature, code in zip(signatures, codes))
        files = dict(zip(names, made)) | self.extra_files()
        if self.happens(0.3):
            files = self.chained(files, names)
        elif self.happens(0.1):
            files[MAP_NAME] = b""
        return {name: data + self.chance.randbytes(3) if self.happens(0.02) else data for name, data in files.items()}

    def externals(self):
        """A file of the counts that the tables want, and some that decide nothing, or seldom what they shouldn't."""
        chance, given = self.chance, [*self.given.items()]
        given += [(path, chance.randrange(count + 1)) for path, count in given if self.happens(0.2)]
        given += [(self.stray_path(), chance.choice(ARGUMENT_COUNTS)) for _ in range(chance.choice((0, 0, 1, 2, 5)))]
        lines = [f"{path_text(path)} {count}" for path, count in given if not self.happens(0.03)]
        chance.shuffle(lines)
        if self.happens(0.08):
            lines.insert(chance.randrange(len(lines) + 1), chance.choice(BAD_LINES))
        text = "".join(line + "\n" for line in lines).encode()
        if self.happens(0.003):
            return b"\\AAAA 1\n".ljust(MOST_BYTES + chance.choice((0, 1)), b"\n")
        if self.happens(0.04):
            return damaged(chance, text)
        return text[:-1] if self.happens(0.2) else text

    def stray_path(self):
        """A path that tables declare, or of such names as they have where they may lead nowhere."""
        how = self.chance.random()
        if self.paths and how < 0.4:
            return self.chance.choice(self.paths)
        segs = tuple(self.chance.choice(STRANGE_SEGMENTS) for _ in range(self.chance.choice((1, 1, 2, 3))))
        return (*segs, self.chance.choice(list(self.given))[-1]) if self.given and how < 0.6 else segs

    def extra_files(self):
        chance = self.chance
        other = lambda: table(chance, chance.choice(SIGNATURES), chance.randbytes(chance.randrange(40)))
        facs = lambda length: FACS + length.to_bytes(4, "little") + chance.randbytes(length - 8)
        makers = {
            "rsdp.dat": lambda: any_root(chance, chance.choice((0, 2)), *map(chance.randrange, (1 << 32, 1 << 64))),
            **{name: lambda name=name: self.stray_list(name) for name in LIST_FILES},
            "facp.dat": lambda: fadt(chance, chance.randrange(1 << 32)), "apic.dat": lambda: madt(chance),
            "facs.dat": lambda: facs(chance.choice((8, 9, 64))), "other.dat": other, "other2.dat": other,
        }
        return {name: make() for name, make in makers.items() if self.happens(0.25)}

    def stray_list(self, name):
        """An XSDT or RSDT that leads nowhere, now and then with a rest."""
        made = table_list(self.chance, name, [self.chance.randrange(1 << 64) for _ in range(self.chance.randrange(4))])
        return sealed(made + b"\0" * self.chance.randrange(1, 8)) if self.happens(0.05) else made

    def chained(self, files, blocks):
        """The files with the tables that lead to the blocks, and a map."""
        chance = self.chance
        lists = chance.choice((LIST_FILES[:1], LIST_FILES[1:], LIST_FILES))
        names = list(dict.fromkeys([*files, "rsdp.dat", *lists, "facp.dat"]))
        addresses = {name: page << 12 for name, page in zip(names, chance.sample(range(1, 1 << 20), len(names)))}
        if self.happens(0.08):
            addresses[blocks[0]] += chance.randrange(1 << 32) << 32
        files = {
            **files, "rsdp.dat": self.root_of(lists, addresses),
            **{name: table_list(chance, name, self.entries(files, blocks, addresses)) for name in lists},
            "facp.dat": fadt(chance, addresses[blocks[0]]),
        }
        return {**files, MAP_NAME: self.map_of(addresses)}

    def entries(self, files, blocks, addresses):
        """The addresses that a list has: of the FADT, of the SSDTs, of some others."""
        listed = ["facp.dat", *blocks[1:], *(name for name in files if self.happens(0.3))]
        if self.happens(0.2):
            self.chance.shuffle(listed)
        entries = [addresses[name] for name in listed if not self.happens(0.01)]
        return entries + [self.chance.randrange(1 << 64)] * self.happens(0.1)

    def root_of(self, lists, addresses):
        """A root pointer to these lists, now and then of a revision that has no XSDT, or to another table."""
        chance = self.chance
        places = {name: addresses["facp.dat" if self.happens(0.03) else name] for name in lists}
        xsdt, rsdt = places.get("xsdt.dat", 0), places.get("rsdt.dat", chance.choice((0, chance.randrange(1 << 32))))
        is_old = self.happens(0.04) or not xsdt and self.happens(0.6)
        return any_root(chance, chance.randrange(2) if is_old else chance.choice((2, 2, 3)), rsdt, xsdt)

    def map_of(self, addresses):
        first, second, *_ = addresses
        if self.happens(0.02):
            addresses = {**addresses, second: addresses[first]}
        lines = [f"{address:016X} {name}" for name, address in addresses.items() if not self.happens(0.01)]
        if self.happens(0.2):
            lines = [line[:16].lower() + line[16:] for line in lines]
        self.chance.shuffle(lines)
        if self.happens(0.05):
            lines.append(self.chance.choice([*lines[:1], "", "0000000000001000 none.dat", "100 dsdt.dat"]))
        return ("\n".join(lines) + self.chance.choice(("", "\n"))).encode()
