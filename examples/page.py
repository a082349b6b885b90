#!/usr/bin/env -S python3 -B
"""Makes one HTML page of a listing of acpidis, to be looked at in a browser.

    examples/page.py [--errors FILE] [--compare OTHER] [--name NAME] [--only WHAT] LISTING >page.html

LISTING is what acpidis wrote to standard output, FILE what it wrote to standard error, OTHER the listing of a second
machine. NAME stands on top, else the name of LISTING, or of its folder where that is called `text`. With --only the page
has what stands at and below a path, as \\_SB_.PCI0.LPCB, or in a file, as ssdt3.dat.

The page has the namespace as a tree, the tables, and the definition blocks, where each name leads to what it means, and
each number and buffer has beside it what it says. It stands alone: it asks no network for anything. Each path is an
anchor, as in page.html#\\_SB_.PCI0, and so is each line's number.

Status 1 is a text that is no listing, or one that is too large; 2 a command line that is at fault, or a file that can't be
read or written.
"""

import argparse
import pathlib
import sys

from acpidis_tools import command
from acpidis_tools.comparison import compare
from acpidis_tools.errors import read_errors
from acpidis_tools.listing import read_file
from acpidis_tools.page.markup import page
from acpidis_tools.page.sheet import Sheet

# A browser opens the page of the first in some seconds. The second can be read, for a part of it.
MOST_BYTES, MOST_TO_READ = 20_000_000, 256_000_000
NO_LISTING = " is no listing for a page"


def text_of(file: str, most: int) -> bytes:
    way = "; --only makes one of a path or of a file alone" if most < MOST_TO_READ else ""
    return read_file(file, most, f", which are too many for one page{way}")


def name_of(file: str) -> str:
    path = pathlib.Path(file).absolute()
    return path.parent.name if path.name == "text" else path.name


def sheet_of(asked: argparse.Namespace) -> Sheet:
    most = MOST_TO_READ if asked.only else MOST_BYTES
    with command.reading(asked.listing, NO_LISTING):
        sheet = Sheet(text_of(asked.listing, most))
        if asked.only:
            sheet.only(asked.only)
    sheet.name = asked.name or name_of(asked.listing)
    if asked.errors:
        with command.reading(asked.errors, " isn't the standard error of this listing"):
            sheet.faults = read_errors(text_of(asked.errors, MOST_BYTES), sheet.listing)
    if asked.compare:
        with command.reading(asked.compare, NO_LISTING):
            other = Sheet(text_of(asked.compare, most))
        name = name_of(asked.compare)
        sheet.comparison = compare(sheet.decoder, other.decoder, f"the other {name}" if name == sheet.name else name)
    return sheet


def main() -> None:
    words = command.parser(__doc__, "LISTING")
    for option, value in {"--errors": "FILE", "--compare": "OTHER", "--name": "NAME", "--only": "WHAT"}.items():
        words.add_argument(option, metavar=value)
    sys.stdout.write(page(sheet_of(words.parse_args())))


if __name__ == "__main__":
    command.run(main)
