"""Dumps of tables after docs/tables.md: which are taken, the order of the definition blocks, the lines of all dumps; the
regular files of a folder as dumps, and the addresses that its map gives them. And the file that `--externals` names:
how many arguments paths take that no table says anything of."""

import os
import pathlib
import re
from collections import namedtuple

from printing import file_text, hexadecimal, quoted
from reading import require

MOST_DUMPS, MOST_BYTES = 512, 16_777_216
HEADER_LENGTH, FADT_LENGTH, MADT_LENGTH = 36, 116, 44
ROOT, FACS = b"RSD PTR ", b"FACS"
# The tables that list others, and how many bytes an address has in them.
LISTS = {b"XSDT": 8, b"RSDT": 4}
MAP_NAME = "tables.map"
SEGMENT = rb"[A-Z_][A-Z0-9_]{3}"
PLACE = re.compile(rb"([0-9a-fA-F]{16}) (.*)", re.DOTALL)
COUNT = re.compile(rb"\\(%s(?:\.%s)*) ([0-7])" % (SEGMENT, SEGMENT))

TABLES = (pathlib.Path(__file__).parent / "tables.txt").read_text().split("\n\n")
FADT, MADT = (table.splitlines()[1:] for table in TABLES)
# A field of the FADT: its label, its offset, its width.
FADT_FIELDS = [(label, int(at), int(width)) for label, at, width in map(str.split, FADT)]
# A record of the MADT by its type and length: its label, and of each field label, offset, width, and is_hex
RECORDS = {}
for head, *columns in (line.split(" | ") for line in MADT):
    kind, length, name = head.split()
    words = map(str.split, columns)
    fields = [(label.strip("-"), int(at), int(width), bool(is_hex)) for label, at, width, *is_hex in words]
    RECORDS[int(kind), int(length)] = (name, *fields)


class Bad(Exception):
    """Why a set of dumps is refused: the fault with its offset, if it has one, and the index of the dump that it is about."""

    def __init__(self, fault, dump=None):
        super().__init__(fault)
        self.dump = dump


class Unreadable(Exception):
    """Why the dumps of a folder can't be read, as the program says it."""


class LineFault(Exception):
    """Why a map or a file of counts is refused, and the number of its line, counted from 1."""

    def __init__(self, fault, line):
        super().__init__(fault)
        self.line = line


# The name of its file, the address at which the table stood, None where that isn't known, and its bytes
Dump = namedtuple("Dump", "name address data")


def dumps_of(files):
    """The dumps of files, by their names, without addresses."""
    return [Dump(name, None, data) for name, data in sorted(files.items())]


def little(data, at, width):
    return int.from_bytes(data[at:at + width], "little")


def sums_to_zero(data):
    return sum(data) % 256 == 0


def table_of(data):
    """The bytes of a table with the standard header."""
    require(HEADER_LENGTH <= little(data, 4, 4) <= len(data), Bad, "Short")
    return data[:little(data, 4, 4)]


def aml_of(data):
    return table_of(data)[HEADER_LENGTH:]


def is_wide(root):
    """Whether a root pointer has the fields of revision 2."""
    return root[15] >= 2


def has_sums(data):
    """Whether the checksums of a whole dump are right. A FACS has none."""
    if data.startswith(ROOT):
        return sums_to_zero(data[:20]) and (not is_wide(data) or sums_to_zero(data[:little(data, 20, 4)]))
    return data.startswith(FACS) or sums_to_zero(table_of(data))


def addresses_of(table, signature=None):
    """The addresses that an XSDT or an RSDT lists, by its signature or another one."""
    width = LISTS[signature or table[:4]]
    require(len(table) >= HEADER_LENGTH and (len(table) - HEADER_LENGTH) % width == 0, Bad, "BadRoot")
    return [little(table, at, width) for at in range(HEADER_LENGTH, len(table), width)]


def records_of(madt):
    require(len(madt) >= MADT_LENGTH, Bad, "Short")
    at, records = MADT_LENGTH, []
    while at < len(madt):
        length = madt[at + 1] if at + 1 < len(madt) else 0
        require(2 <= length <= len(madt) - at, Bad, f"MadtRecord at {at}")
        records.append(madt[at:at + length])
        at += length
    return records


def check_dump(data, any_sum):
    require(len(data) <= MOST_BYTES, Bad, "TooLarge")
    if data.startswith(ROOT):
        is_whole = len(data) >= 20 and (not is_wide(data) or len(data) >= 36 and 36 <= little(data, 20, 4) <= len(data))
        require(is_whole, Bad, "BadRoot")
    elif data.startswith(FACS):
        require(8 <= little(data, 4, 4) <= len(data), Bad, "Short")
    table = data if data.startswith((ROOT, FACS)) else table_of(data)
    require(any_sum or has_sums(data), Bad, "BadSum")
    require(not table.startswith(b"FACP") or len(table) >= FADT_LENGTH, Bad, "FadtShort")
    if table.startswith(b"APIC"):
        records_of(table)
    elif table[:4] in LISTS:
        addresses_of(table)


def order_of(dumps, any_sum):
    """The indexes of the definition blocks in load order."""
    require(len(dumps) <= MOST_DUMPS, Bad, "TooManyTables")
    for index, dump in enumerate(dumps):
        try:
            check_dump(dump.data, any_sum)
        except Bad as bad:
            raise Bad(str(bad), index) from bad
    return order_by_names(dumps) if all(dump.address is None for dump in dumps) else order_by_chain(dumps)


def signed(dumps, signature):
    """The indexes of the dumps that begin with a signature."""
    return [index for index, dump in enumerate(dumps) if dump.data.startswith(signature)]


def order_by_names(dumps):
    dsdts = signed(dumps, b"DSDT")
    require(dsdts, Bad, "NoDsdt")
    require(len(dsdts) == 1, Bad, "TwoDsdts", *dsdts[1:2])

    def place(index):
        """The number at the end of the name without its last part, and the name."""
        name = dumps[index].name
        stem = name.rpartition(".")[0] or name
        return int(re.search(r"[0-9]*\Z", stem)[0][-9:] or 0), name.encode(), index

    return dsdts + sorted(signed(dumps, b"SSDT"), key=place)


def indexes_by_address(dumps):
    """The first dump at each address."""
    return {dump.address: index for index, dump in reversed([*enumerate(dumps)]) if dump.address is not None}


def order_by_chain(dumps):
    at = indexes_by_address(dumps)
    roots, fadts, dsdts, ssdts = (signed(dumps, word) for word in (ROOT, b"FACP", b"DSDT", b"SSDT"))
    require(roots, Bad, "RootMissing")
    root = dumps[roots[0]].data
    xsdt = little(root, 24, 8) if is_wide(root) else 0
    signature, address = (b"XSDT", xsdt) if xsdt else (b"RSDT", little(root, 16, 4))
    tables = at.get(address)
    require(tables in signed(dumps, signature), Bad, "RootMissing", roots[0])
    listed = [at[address] for address in addresses_of(table_of(dumps[tables].data)) if address in at]
    fadts = [index for index in listed if index in fadts]
    require(fadts, Bad, "FadtMissing", tables)
    fadt = table_of(dumps[fadts[0]].data)
    dsdt = at.get((little(fadt, 140, 8) if len(fadt) >= 148 else 0) or little(fadt, 40, 4))
    require(dsdt in dsdts, Bad, "NoDsdt")
    return [dsdt, *dict.fromkeys(index for index in listed if index in ssdts)]


def dump_lines(dumps):
    """The first part of a listing."""
    owners = {address: dumps[index].name for address, index in indexes_by_address(dumps).items()}
    for dump in dumps:
        line = (root_line if dump.data.startswith(ROOT) else table_line)(dump)
        address = "" if dump.address is None else f" At {dump.address:016X}"
        yield line + address + ("" if has_sums(dump.data) else " BadSum")
        yield from (f"  {line}" for line in content_lines(dump.data, owners))


def root_line(dump):
    data = dump.data
    line = f"Root {file_text(dump.name)} Oem {quoted(data[9:15])} Revision {data[15]} Rsdt {little(data, 16, 4):08X}"
    if is_wide(data):
        line += f" Length {little(data, 20, 4)} Xsdt {little(data, 24, 8):016X}"
    return line


def table_line(dump):
    data = dump.data
    line = f"Table {file_text(dump.name)} {quoted(data[:4])} Length {little(data, 4, 4)}"
    if data.startswith(FACS):
        return line
    line += f" Revision {data[8]} Oem {quoted(data[10:16])} {quoted(data[16:24])} {little(data, 24, 4):08X}"
    return f"{line} Creator {quoted(data[28:32])} {little(data, 32, 4):08X}"


def content_lines(data, owners):
    """What stands below the line of a table. `owners` are the names of the files at addresses."""
    if data[:4] in LISTS:
        for address in addresses_of(table_of(data)):
            yield f"Entry {address:0{2 * LISTS[data[:4]]}X}" + (f" {file_text(owners[address])}" if address in owners else "")
    elif data.startswith(b"FACP"):
        table = table_of(data)
        for label, at, width in FADT_FIELDS:
            if len(table) >= at + width:
                yield f"{label} {little(table, at, width):0{2 * width}X}"
    elif data.startswith(b"APIC"):
        table = table_of(data)
        yield f"Controller {little(table, 36, 4):08X} Flags {little(table, 40, 4):08X}"
        yield from map(record_text, records_of(table))


def record_text(record):
    known = RECORDS.get((record[0], len(record)))
    if not known:
        return " ".join([f"Record {record[0]} Length {len(record)}", *hexadecimal(record[2:])])
    texts = [known[0]]
    for label, start, width, is_hex in known[1:]:
        value = little(record, start, width)
        texts += [label] * bool(label) + [f"{value:0{2 * width}X}" if is_hex else str(value)]
    return " ".join(texts)


# ---- folders


def read_folder(folder):
    """The dumps of a folder, ordered by the bytes of their names."""
    names = file_names(folder)
    dumps = [name for name in names if name != MAP_NAME]
    require(len(dumps) <= MOST_DUMPS, Unreadable, "TooManyTables")
    place = os.fsencode(folder)
    contents = [read_file(os.path.join(place, name.encode()), name) for name in dumps]
    addresses = {}
    if MAP_NAME in names:
        addresses = read_lines(os.path.join(place, MAP_NAME.encode()), MAP_NAME, MAP_NAME, parse_map, dumps)
    return [Dump(name, addresses.get(name.encode()), data) for name, data in zip(dumps, contents)]


def read_externals(file):
    """The paths in a file with their counts, in the order of its lines."""
    return read_lines(file, file, "externals", parse_externals)


def file_names(folder):
    """The names of the regular files of a folder, in the order of their bytes."""
    try:
        entries = [(entry.name.decode(), entry) for entry in os.scandir(os.fsencode(folder))]
        return sorted((name for name, it in entries if it.is_file(follow_symlinks=False)), key=str.encode)
    except (OSError, UnicodeDecodeError) as error:
        raise Unreadable("cannot read folder") from error


def read_file(path, name):
    """The first bytes of a file, one more than it may have."""
    try:
        with open(path, "rb") as file:
            return file.read(MOST_BYTES + 1)
    except OSError as error:
        raise Unreadable(f"cannot read {file_text(name)}") from error


def read_lines(path, name, what, parse, *more):
    """What is parsed of the text of a file, which may not be too long."""
    text = read_file(path, name)
    require(len(text) <= MOST_BYTES, Unreadable, f"cannot read {file_text(name)}")
    try:
        return parse(text, *more)
    except LineFault as fault:
        raise Unreadable(f"{what} line {fault.line}: {fault}") from fault


def lines_of(text, form):
    """The lines of a text with their numbers, all of which have this form. The last may end without a newline."""
    lines = text.split(b"\n")
    for number, line in enumerate(lines if lines[-1] else lines[:-1], 1):
        found = form.fullmatch(line)
        require(found, LineFault, "BadLine", number)
        yield number, found


def parse_map(text, names):
    """The addresses in a map, by the bytes of the names of files."""
    known, addresses = {name.encode() for name in names}, {}
    for number, line in lines_of(text, PLACE):
        address, name = int(line[1], 16), line[2]
        require(name and name in known, LineFault, "NoSuchFile", number)
        require(name not in addresses and address not in addresses.values(), LineFault, "Again", number)
        addresses[name] = address
    return addresses


def parse_externals(text):
    return [(tuple(line[1].decode().split(".")), int(line[2])) for _, line in lines_of(text, COUNT)]
