#!/usr/bin/env -S python3 -B
"""Shows what a listing has at a path, with the blocks that it stands in.

    examples/show.py LISTING PATH

PATH is one from the root, as \\_SB_.PCI0._PTS or \\_sb.pci0._pts, or the end of some, as _STA or PCI0._CRS: all that end so
are shown. Each declaration comes behind the lines of the blocks around it, but for those that it shares with the one before,
and with its own lines: a method with its body, a device with all that is in it, a unit of a field list by itself. Behind units
stand their bytes and bits.

Status 1 is a text that is no listing, or that declares no such path: then an External that names it is told, or what is like
it; 2 is a command line that is at fault, or a file that can't be read or written.
"""

import difflib
from collections.abc import Iterator

from acpidis_tools import command
from acpidis_tools.decoding import bits_text
from acpidis_tools.listing import Line, path_text
from acpidis_tools.names import PREDEFINED
from acpidis_tools.page.sheet import Sheet

MOST_LIKE = 8


def shown(sheet: Sheet, ends: tuple[str, ...]) -> Iterator[str]:
    """The declarations of the paths that end so, each behind the heads of the blocks around it that don't stand there yet."""
    above: list[Line] = []
    for heads, lines in sheet.parts(lambda line: declared(line, sheet).endswith(ends)):
        same = next((number for number, (one, other) in enumerate(zip(above, heads)) if one is not other), len(above))
        yield from (head.text for head in heads[same:])
        above = heads
        for line in lines:
            unit = sheet.decoder.units.get(line.number)
            yield f"{line.text}  // {bits_text(unit.bit, unit.width)}" if unit else line.text


def declared(line: Line, sheet: Sheet) -> str:
    """The path that a line declares, if it does."""
    meaning = sheet.decoder.declared(line)
    return path_text(meaning.path) if meaning and meaning.path else ""


def ends(word: str) -> tuple[str, ...]:
    """How the paths end that a word means. One from the root has its sign nowhere else."""
    path = command.path_of(word)
    return (path,) if word.startswith("\\") else (path, "." + path[1:])


def other(sheet: Sheet, asked: tuple[str, ...]) -> str:
    """What a listing has in place of a path that it doesn't declare: the line of an External, paths with the same last
    segment, or segments that have it in them, or are like it."""
    for path, line in sheet.names.externals.items():
        if path_text(path).endswith(asked):
            return f"; only an External names it, in line {line.number}"
    if any(path_text(path).endswith(asked) for path in PREDEFINED):
        return "; it is predefined, and Scopes open it"
    last, paths = asked[0].lstrip("\\").rpartition(".")[2], [row.path for row in sheet.listing.rows]
    segments = sorted({path[-1] for path in paths if path})
    like = [path_text(path) for path in paths if path[-1:] == (last,)]
    like = like or [it for it in segments if last.rstrip("_") in it]
    like = like or difflib.get_close_matches(last, segments, MOST_LIKE)
    return f"; like it: {', '.join(like[:MOST_LIKE])}" if like else ""


def main() -> None:
    words = command.parser(__doc__, "LISTING")
    words.add_argument("path", metavar="PATH", type=ends)
    asked = words.parse_args()
    with command.reading(asked.listing):
        sheet = Sheet(command.read(asked.listing))
    is_there = False
    for line in shown(sheet, asked.path):
        is_there = True
        print(line)
    if not is_there:
        command.refuse(f"{asked.listing!r} declares no such path{other(sheet, asked.path)}")


if __name__ == "__main__":
    command.run(main)
