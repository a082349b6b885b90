#!/usr/bin/env -S python3 -B
"""Makes ASL of a listing of acpidis, which iasl compiles to the same AML.

    examples/asl.py [--edit | --method PATH] [--tables FOLDER] LISTING OUT

LISTING is what acpidis wrote to standard output. Each of its definition blocks becomes a file of the folder OUT, whose first
line is the command that compiles it: to the bytes of the dump, but for the header's creator and sum. Each line of the listing
becomes a line. What ASL can't spell as the listing has it is told on standard error, with the listing's line, and the status
is 3: what iasl makes of that has other bytes, or is refused by it.

With --edit the text is one to be changed: what other tables declare is declared as External, so that iasl finds a name that
is typed wrongly. With --method it is an SSDT with one method alone, for splice.py. What stands for a raw body iasl refuses, so
that no method is emptied. A file that is there and isn't as it would be made may have been changed: it isn't written over.
--tables names the folder of the dumps, and tells which of them has lengths or names that aren't in their shortest form: the
listing doesn't show that, and iasl writes the shortest.

Status 1 is a text that is no listing, or that hasn't got the method, or has it raw: then nothing is written. 2 is a command
line that is at fault, or a file that can't be read or written.
"""

import os
import re
import shlex
import sys
from collections import Counter, namedtuple

from acpidis_tools import command
from acpidis_tools.asl import forms, language
from acpidis_tools.asl.blocks import Reader
from acpidis_tools.asl.names import said_by
from acpidis_tools.listing import NoListing, path_of, path_text

TOLD = 3
# What all blocks together have no more Externals than, of what they don't use.
MOST_EXTERNALS = 200_000
MOST_LINES = 8
# A text that is to be written: the table that it is of, its lines, and what ASL can't spell
Made = namedtuple("Made", "table lines told")


def of_listing(asked):
    """The blocks of the listing, and the texts that are to be written."""
    reader = Reader(asked.listing, asked.edit)
    found = reader.blocks
    if asked.method:
        found = [method for block in reader.blocks for method in block.methods_at(path_of(asked.method))]
        check_method(asked.method, found, reader)
    rows = reader.rows if len(reader.rows) * len(found) <= MOST_EXTERNALS else []
    said = said_by(reader.blocks)
    return reader.blocks, [Made(it.table, it.text(rows, said), it.told) for it in found]


def check_method(path, found, reader):
    """Refuses a path at which not just one method with terms is found."""
    if not found:
        methods = (path_text(row) for row in reader.rows if isinstance(reader.space.kinds[row], int))
        ends = [row for row in methods if row.endswith("." + path[1:])]
        where = f": name it from the root, as {ends[0]}; acpidis-show has all that end so" if ends else ""
        raise NoListing(f"it declares no method {path}{where}")
    if len(found) > 1:
        lines = ", ".join(str(method.line.number) for method in found[:MOST_LINES])
        more = f" and {len(found) - MOST_LINES:,} more" if len(found) > MOST_LINES else ""
        raise NoListing(f"it declares {path} on the lines {lines}{more}: change the table as a whole, with --edit")
    if not found[0].has_terms:
        raise NoListing(f"line {found[0].line.number}: the body of {path} is raw: it has no terms to be changed")


def files_of(made):
    """A name for the file of each table, of signs that no command takes for anything else."""
    taken, numbers = set(), Counter()
    for it in made:
        base = name = re.sub(r"\\x..|[^A-Za-z0-9._+-]|^[.-]", "_", it.table.file[1:-1])
        while name in taken:
            numbers[base] += 1
            name = f"{base}-{numbers[base] + 1}"
        taken.add(name)
        yield name + ".asl"


def head(file, is_edited):
    """The command that compiles a file, and a word on each message that it turns off."""
    off = language.OFF if is_edited else dict(sorted({**language.OFF, **language.OFF_UNCHANGED}.items()))
    options = ["-oa", "-of", *([] if is_edited else ["-oE"]), *(f"-vw {number}" for number in off)]
    yield f"// {' '.join(['iasl', *options, shlex.quote(file)])}"
    yield "// iasl doesn't ask about"
    for number, what in off.items():
        yield f"//   {number} {what}"


def write(folder, made, is_edited):
    """Writes the files. One that is there and is another may have been changed, and stays."""
    os.makedirs(folder, exist_ok=True)
    texts = {}
    for it, file in zip(made, files_of(made)):
        lines = "".join(f"{line}\n" for line in (*head(file, is_edited), *it.lines))
        texts[os.path.join(folder, file)] = lines.encode("ascii")
    for file, text in texts.items():
        if os.path.lexists(file) and not (os.path.isfile(file) and command.read(file) == text):
            command.leave(f"{file!r} is there, and may have been changed: remove it, or name another folder")
    for file, text in texts.items():
        command.write(file, text)


def main():
    words = command.parser(__doc__, "LISTING", "OUT")
    kinds = words.add_mutually_exclusive_group()
    kinds.add_argument("--edit", action="store_true")
    kinds.add_argument("--method", metavar="PATH", type=command.path_of)
    words.add_argument("--tables", metavar="FOLDER")
    asked = words.parse_args()
    with command.reading(asked.listing):
        blocks, made = of_listing(asked)
        more = list(forms.told(asked.tables, blocks)) if asked.tables else []
        write(asked.out, made, asked.edit or asked.method)
    told = [f"{it.table.file[1:-1]}: line {number} of the listing: {what}" for it in made for number, what in it.told]
    for line in (*told, *more):
        command.tell(line)
    if told or more:
        sys.exit(TOLD)


if __name__ == "__main__":
    command.run(main)
