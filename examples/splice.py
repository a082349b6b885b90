#!/usr/bin/env -S python3 -B
"""Puts a method, a name or a device that iasl compiled into the dump of a table, and changes nothing else.

    examples/splice.py [--oem-revision] [--initrd FILE] [-o PATCHED] DUMP NEW PATH..

NEW is a table in which iasl compiled what stands at each PATH, as \\_SB_.PCI0._PTS: all of DUMP beside it, or that alone. Of
DUMP change the bytes of what is declared there behind its name, the package lengths around them, each in its width while its
value has room, the header's length and its sum. With --oem-revision the header's OEM revision is one more: Linux passes over an
override that isn't newer. With --initrd FILE the table is also written as an archive for the front of an initrd. Without -o it
goes to standard output. Neither file may be DUMP.

Status 1 is a table in which PATH is declared not at all, several times or as something else, or that can't be read: nothing is
written then. 2 is a command line that is at fault, or a file that can't be read or written.
"""

import os
import sys
from collections import namedtuple

from acpidis_tools import aml, command
from acpidis_tools.running import Refused

HEADER, SUM, OEM_REVISION = aml.HEADER, 9, 24
# The terms with a scope of their own, so that names inside mean the same wherever they stand.
SCOPED = aml.OPENERS | {"Method"}
ARCHIVE = "kernel/firmware/acpi"
# Where a path is declared: the term's word, the byte behind its name, and the one behind it; the node of the scope that
# it stands in, and the package lengths around it, the outer first, with its own where it has one
Place = namedtuple("Place", "word named end scope lengths")


class Reader(aml.Reader):
    """Keeps where a path is declared first, and how many times it is."""

    def __init__(self, code, path):
        super().__init__("", code, aml.Space(len(code)))
        self.asked, self.place, self.times, self.packages = self.space.node(path), None, 0, []

    def operation(self, term, kinds, at, end, kind, level):
        scope, around, start = self.scope, len(self.packages), at
        if kinds[:1] == "P":
            self.packages.append(at)
            start += self.length(at, end)[1]
        made, after = super().operation(term, kinds, at, end, kind, level)
        if kind == "R" and term.word in aml.DECLARERS and term.word not in aml.NAMED_LAST:
            name, named = self.name(start, len(self.code))
            if self.space.place(scope, name) is self.asked:
                self.place = self.place or Place(term.word, named, after, scope, list(self.packages))
                self.times += 1
        del self.packages[around:]
        return made, after


def code_of(dump, file):
    if not HEADER <= int.from_bytes(dump[4:8], "little") <= len(dump):
        raise Refused(f"{file!r} is no table")
    return aml.code_of(dump)


def place_in(code, path, file):
    """Where the one declaration of a path is."""
    reader = Reader(code, path)
    try:
        stopped = reader.read()
    except aml.TooManySteps:
        raise Refused(f"{file!r}: the scopes are too deep for this script to follow") from None
    if stopped < len(code):
        raise Refused(f"{file!r} can't be read behind byte {HEADER + stopped}")
    if reader.times != 1:
        none = f"{file!r} doesn't declare {path} by a term of its own, as a unit of a field list has none"
        raise Refused(f"{file!r} declares {path} {reader.times} times" if reader.times else none)
    return reader.place


def spelled(value, width):
    """A package length in so many bytes, or in as many as it needs."""
    width = next((it for it in range(width, 5) if value < aml.LIMITS[it - 1]), None)
    if width is None:
        raise Refused("a package would be longer than a package length can say")
    if width == 1:
        return bytes([value])
    return bytes([width - 1 << 6 | value & 15]) + (value >> 4).to_bytes(width - 1, "little")


def spliced(code, place, content):
    """The code in which this follows the name of a declaration."""
    grown = len(content) - (place.end - place.named)
    code = code[: place.named] + content + code[place.end :]
    for at in reversed(place.lengths):
        value, width = aml.Reader("", code, aml.Space(0)).length(at, len(code))
        again = spelled(value + grown, width)
        again = spelled(value + grown + len(again) - width, len(again))
        code = code[:at] + again + code[at + width :]
        grown += len(again) - width
    return code


def patched(dump, new, path, files):
    """The dump in which what the new table declares at a path stands there."""
    code, other = code_of(dump, files[0]), code_of(new, files[1])
    place, source = place_in(code, path, files[0]), place_in(other, path, files[1])
    if place.word != source.word:
        raise Refused(f"{path} is a {place.word} in {files[0]!r}, and a {source.word} in {files[1]!r}")
    here, there = place.scope.path(), source.scope.path()
    if place.word not in SCOPED and here != there:
        raise Refused(f"{path} stands in the scope {here} of {files[0]!r}, and in {there} of {files[1]!r}")
    return sealed(dump[:HEADER] + spliced(code, place, other[source.named : source.end]))


def sealed(table):
    """A table with the length and the sum that it wants."""
    table = bytearray(table)
    table[4:8] = len(table).to_bytes(4, "little")
    table[SUM] = 0
    table[SUM] = -sum(table) & 255
    return bytes(table)


def archive(table):
    """A cpio archive, in the form that Linux wants, of a table where it looks for overrides."""
    name = f"{ARCHIVE}/{table[:4].decode('ascii', 'replace').lower()}.aml"
    folders = [ARCHIVE[:at] for at in range(len(ARCHIVE) + 1) if at == len(ARCHIVE) or ARCHIVE[at] == "/"]
    entries = [entry(number, folder, 0o040755, b"") for number, folder in enumerate(folders, 1)]
    whole = b"".join([*entries, entry(len(folders) + 1, name, 0o100644, table), entry(0, "TRAILER!!!", 0, b"")])
    return whole + bytes(-len(whole) % 512)


def entry(number, name, mode, data):
    """A file of a cpio archive, padded to four bytes."""
    fields = (number, mode, 0, 0, 1, 0, len(data), 0, 0, 0, 0, len(name) + 1, 0)
    head = b"070701" + b"".join(b"%08X" % field for field in fields) + name.encode() + b"\0"
    return head + bytes(-len(head) % 4) + data + bytes(-len(data) % 4)


def main():
    words = command.parser(__doc__, "DUMP", "NEW")
    words.add_argument("--oem-revision", action="store_true")
    words.add_argument("--initrd", metavar="FILE")
    words.add_argument("-o", "--output", metavar="PATCHED")
    words.add_argument("paths", metavar="PATH", nargs="+", type=command.path_of)
    asked = words.parse_args()
    if sys.stdout.isatty() and not asked.output:
        words.error("a table isn't for a terminal: name a file for it by -o")
    taken = {os.path.realpath(asked.dump): "DUMP", os.path.realpath(asked.new): "NEW"}
    for file in filter(None, (asked.output, asked.initrd)):
        named = "no name of a file" if file == "-" else taken.setdefault(os.path.realpath(file), file)
        if named is not file:
            words.error(f"{file!r} is {named}: name another")
    table, new = command.read(asked.dump), command.read(asked.new)
    for path in asked.paths:
        table = patched(table, new, path, (asked.dump, asked.new))
    if asked.oem_revision:
        revision = int.from_bytes(table[OEM_REVISION : OEM_REVISION + 4], "little") + 1
        if revision >> 32:
            raise Refused("the OEM revision can't be raised: it is FFFFFFFF")
        table = sealed(table[:OEM_REVISION] + revision.to_bytes(4, "little") + table[OEM_REVISION + 4 :])
    if asked.initrd:
        command.write(asked.initrd, archive(table))
    if asked.output:
        command.write(asked.output, table)
    else:
        sys.stdout.buffer.write(table)


if __name__ == "__main__":
    command.run(main)
