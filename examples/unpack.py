#!/usr/bin/env -S python3 -B
"""Makes a folder of dumps, as acpidis takes it, of a file that has ACPI tables in it.

    examples/unpack.py FILE FOLDER

FILE is what acpidump printed, as text, which may stand in a bug report with other lines around; or tables one behind the
other; or an image, as of a firmware, in which tables stand as they are: there those with a right sum are taken, each once.
What is compressed in an image has to be unpacked before. The files have the names that `acpixtract -a` gives. Where the text
tells the addresses, and they lead from the RSDP to the DSDT, they are written to tables.map.

Standard output has a line for each file. Status 1 is a file without tables, or with one that isn't whole: nothing is written
then. 2 is a command line that is at fault, a FOLDER that isn't empty, or a file that can't be read or written.
"""

import itertools
import os
import re
from collections import Counter, namedtuple

from acpidis_tools import command
from acpidis_tools.listing import MARKS
from acpidis_tools.running import Refused

TITLE = re.compile(r"[> \t]*(RSD PTR|[A-Z0-9!_]{4}) @ 0x([0-9A-Fa-f]{1,16})\s*")
# What a text ends with that is cut in a title
CUT_TITLE = re.compile(r"[> \t]*(RSD PTR|[A-Z0-9!_]{4})(?: @?| @ 0?x?)?")
ROW = re.compile(r"[> \t]*([0-9A-Fa-f]{4,8}): ((?:[0-9A-Fa-f]{2}(?: |$)){1,16})")
# The first row of a table, whose signature is of letters, digits, ! and _
UNTITLED = re.compile(r"[> \t]*0{4,8}: (?:(?:4[1-9A-Fa-f]|5[0-9AaFf]|3[0-9]|21) ){4}")
HEADER, ROOT, ROOT_LENGTH, WIDTH = 36, b"RSD PTR ", 20, 16
# A header as tables in images have them: a signature, a length, a revision, and names of printable bytes.
HEAD = re.compile(rb"(?=([A-Z][A-Z0-9]{3}|[A-Z0-9]{3}!).{4}[\0-\x20].[ -~\0]{6}[ -~\0]{8}.{4}[ -~\0]{4})", re.DOTALL)
SIGNATURE = re.compile(rb"[A-Z0-9_!]{4}")
MARK, *WIDE_MARKS = MARKS
# A table of the file: its bytes, its signature, and its address, 0 where none is known
Table = namedtuple("Table", "data signature address")


def plain(data):
    """A table of these bytes alone."""
    return Table(data, "RSDP" if data.startswith(ROOT) else data[:4].decode("latin-1"), 0)


def little(data, at, width):
    return int.from_bytes(data[at : at + width], "little")


def length_of(data):
    if data.startswith(ROOT):
        return little(data, ROOT_LENGTH, 4) if len(data) > 15 and data[15] >= 2 else ROOT_LENGTH
    return little(data, 4, 4)


def cut(where, name, data):
    whole = length_of(data) if len(data) > 7 else "its header"
    return Refused(f"{where}: {name} has {len(data)} bytes of {whole}")


def dumped(text):
    """The tables of acpidump's text."""
    tables, title, odd, lines = [], None, 0, text.split("\n")
    for number, line in enumerate(lines, 1):
        found, row = TITLE.fullmatch(line.rstrip("\r")), ROW.match(line.rstrip("\r"))
        if found:
            title = (number, found[1].replace("RSD PTR", "RSDP"), int(found[2], 16))
            tables.append((title, bytearray()))
            odd = 0
        elif row and title:
            had, more = len(tables[-1][1]), bytes.fromhex(row[2])
            if int(row[1], 16) != had:
                row = f"a whole row of {title[1]} at {had & -WIDTH:04X}"
                raise Refused(f"line {odd or number}: {row} should stand there")
            tables[-1][1].extend(more)
            odd = number * (len(more) < WIDTH)  # the first line that is no whole row
        elif row and UNTITLED.match(row[0]):
            raise Refused(f"line {number}: a table begins there without its title")
        elif not line.strip("> \t\r"):
            title = None
        else:
            odd = odd or number
    for (number, name, _), data in tables:
        if len(data) < 8 or length_of(data) > len(data):
            raise cut(f"line {number}", name, data)
    if tables and not title and CUT_TITLE.fullmatch(line):
        raise Refused(f"line {len(lines)}: the text ends in the title of a table, {line!r}")
    # A text may have a table twice: one of an address is taken once.
    found = [Table(bytes(data), name, address) for (_, name, address), data in tables]
    return list({table if table.address else place: table for place, table in enumerate(found)}.values())


def behind_each_other(data):
    """The tables of a file that has nothing else, or none."""
    tables, at = [], 0
    while at < len(data):
        size, rest = length_of(data[at : at + HEADER]), len(data) - at
        is_root, is_named = data.startswith(ROOT, at), SIGNATURE.match(data, at)
        if tables and is_named and (rest < HEADER or size > rest and HEAD.match(data, at)):
            raise cut(f"byte {at}", data[at : at + 4].decode(), data[at:])
        if not (is_root or is_named) or not (ROOT_LENGTH if is_root else HEADER) <= size <= rest:
            return []
        tables.append(plain(data[at : at + size]))
        at += size
    return tables


def found_in(image):
    """The tables in an image. What stands inside one that was found is part of it."""
    sums = bytes(itertools.accumulate(image, lambda total, byte: total + byte & 255, initial=0))
    tables, end = {}, 0
    for place in HEAD.finditer(image):
        at, size = place.start(), little(image, place.start() + 4, 4)
        if at >= end and HEADER <= size <= len(image) - at and sums[at] == sums[at + size]:
            end = at + size
            tables.setdefault(image[at:end], None)
    return list(map(plain, tables))


def tables_of(data):
    text = data.decode("utf-16", "replace") if data.startswith(tuple(WIDE_MARKS)) else data.removeprefix(MARK).decode("latin-1")
    is_text = any(map(TITLE.fullmatch, map(str.rstrip, text.split("\n"))))
    tables = dumped(text) if is_text else behind_each_other(data) or found_in(data)
    if not tables and HEAD.match(data) and length_of(data) > len(data):
        raise Refused(f"{text[:4]} has {len(data)} bytes of {length_of(data)}")
    if not tables:
        raise Refused("it is packed: unpack it first" if data.startswith(command.PACKED) else "no table is in it")
    return tables


def names_of(tables):
    """The names of the files, as acpixtract gives them: numbered where several tables have a signature."""
    counts, numbers = Counter(table.signature for table in tables), Counter()
    for signature in (table.signature for table in tables):
        numbers[signature] += 1
        base = re.sub(r"[^a-z0-9_!]", "_", signature.lower())
        yield f"{base}{numbers[signature] if counts[signature] > 1 else ''}.dat"


def leads(tables):
    """Whether the addresses lead from the RSDP to the DSDT (ACPI 6.5, 5.2.5 to 5.2.9)."""
    at = {table.address: table.data for table in reversed(tables) if table.address}
    root = next((table.data for table in tables if table.signature == "RSDP" and table.address), b"")
    extended = little(root, 24, 8) if len(root) >= HEADER and root[15] >= 2 else 0
    listed, width = at.get(extended or little(root, 16, 4), b""), 8 if extended else 4
    entries = (at.get(little(listed, place, width), b"") for place in range(HEADER, len(listed) - width + 1, width))
    fadt = next((data for data in entries if data.startswith(b"FACP")), b"")
    dsdt = (little(fadt, 140, 8) if len(fadt) >= 148 else 0) or little(fadt, 40, 4)
    return at.get(dsdt, b"").startswith(b"DSDT")


def write(folder, tables):
    if os.path.lexists(folder) and (not os.path.isdir(folder) or os.listdir(folder)):
        command.leave(f"{folder!r} is there, and isn't an empty folder")
    names = list(names_of(tables))
    with command.whole(folder) as part:
        part.mkdir()
        for name, table in zip(names, tables):
            (part / name).write_bytes(table.data)
        if leads(tables):
            files = {table.address: name for name, table in zip(names[::-1], tables[::-1]) if table.address}
            lines = (f"{address:016X} {name}\n" for address, name in reversed(files.items()))
            (part / "tables.map").write_text("".join(lines), encoding="ascii")
        part.chmod(0o755)
    for name, table in zip(names, tables):
        print(name, table.signature, len(table.data))


def main():
    asked = command.parser(__doc__, "FILE", "FOLDER").parse_args()
    with command.reading(asked.file):
        write(asked.folder, tables_of(command.read(asked.file)))


if __name__ == "__main__":
    command.run(main)
