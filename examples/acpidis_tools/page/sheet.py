"""What a page is made of, and the small pieces of HTML that all of its parts are written with; and parts of a page
that are packed, since they are too many to be laid out at once: a browser unpacks those that come into sight."""

from __future__ import annotations

import base64
import zlib
from collections.abc import Callable, Iterator

from acpidis_tools.comparison import Comparison
from acpidis_tools.decoding import Decoder
from acpidis_tools.errors import Fault
from acpidis_tools.listing import Line, NoListing, Path, path_of, path_text, read_listing
from acpidis_tools.names import PREDEFINED, Meaning, Names, Sort, Uses

# The page of a longer listing has its lines packed.
LONG_TEXT = 200_000
# A browser's tree of elements ends at 512 levels.
DEEPEST_FOLD = 60
# What stands between the lines of a packed part and their uses.
BETWEEN = "\n<!-- uses -->\n"


class Sheet:
    """What a page is made of, by the text of a listing: a long one is packed. Where the page hasn't all, `shown` are the
    numbers of the lines, `paths` the declared paths."""

    def __init__(self, text: bytes):
        self.listing = read_listing(text)
        self.names = Names(self.listing)
        self.decoder = Decoder(self.listing, self.names)
        self.name, self.is_packed = "", len(text) > LONG_TEXT
        self.faults: dict[int, Fault] = {}
        self.comparison: Comparison | None = None
        self.shown: set[int] | None = None
        self.paths: set[Path] | None = None

    def mark(self, path: Path | None) -> str:
        return self.comparison.mark(path) if self.comparison and path is not None else ""

    def shows(self, number: int) -> bool:
        return self.shown is None or number in self.shown

    def has_path(self, path: Path) -> bool:
        return self.paths is None or path in self.paths

    def uses_html(self, uses: Uses) -> str:
        number = lambda it: f"<a href=#{it}>{it}</a>" if self.shows(it) else f"<span>{it}</span>"
        items = (f"<li>{path_text(path)} {' '.join(map(number, numbers))}" for path, numbers in uses.items())
        return f"<ul>{''.join(items)}</ul>"

    def has_anchor(self, meaning: Meaning) -> bool:
        """Whether what a name leads to stands on the page."""
        if meaning.anchor.isdigit() or meaning.path is None:
            return True
        line = self.names.lines.get(meaning.path) or self.names.externals.get(meaning.path)
        return self.shows(line.number) if line else meaning.path in PREDEFINED

    def only(self, wanted: str) -> None:
        """Leaves what stands at and below a path, or in a file of that name."""
        path = tuple(segment.ljust(4, "_") for segment in path_of(wanted))
        if wanted.startswith("\\"):
            lines = self.lines_at(path)
        else:
            lines = {it.number for block in self.listing.blocks if block.file == f'"{wanted}"' for it in block.lines}
        if not lines:
            ways = "a path like \\_SB_.PCI0 or a file like dsdt.dat"
            raise NoListing(f"nothing in it is {wanted[:80]}: --only takes {ways}")
        self.shown, self.is_packed = lines, len(lines) > LONG_TEXT // 40
        self.paths = {path for path, line in self.names.lines.items() if line.number in lines}

    def lines_at(self, wanted: Path) -> set[int]:
        """The lines at and below a path, with the heads and ends of the blocks that they stand in."""

        def is_wanted(line: Line) -> bool:
            # The paths that it declares, or opens
            sorts = [Sort.DECLARES, Sort.AGAIN] + [Sort.LEADS] * (line.term == "Scope")
            paths = (it.path for it in self.names.meanings[line.number] if it.sort in sorts)
            return any(path is not None and path[:len(wanted)] == wanted for path in paths)

        found: set[int] = set()
        for heads, lines in self.parts(is_wanted):
            found.update(line.number for line in lines)
            found.update(number for head in heads for number in (head.number, head.end))
        return found

    def parts(self, is_wanted: Callable[[Line], bool]) -> Iterator[tuple[list[Line], list[Line]]]:
        """The lines that are wanted, each with what is in its block, behind the heads of the blocks around."""
        for block in self.listing.blocks:
            kept_to, heads = 0, []
            for place, line in enumerate(block.lines):
                while heads and heads[-1].end < line.number:
                    heads.pop()
                if line.number > kept_to and is_wanted(line):
                    kept_to = max(line.number, line.end)
                    yield heads.copy(), block.lines[place : place + kept_to - line.number + 1]
                if line.end:
                    heads.append(line)


def link(path: Path) -> str:
    return f"<a href=#{path_text(path)}>{path_text(path)}</a>"


def classed(word: str) -> str:
    return f" class={word}" if word else ""


def packed(html: str) -> str:
    return base64.b64encode(zlib.compress(html.encode(), 6)).decode()


def unpacked(text: str) -> str:
    return zlib.decompress(base64.b64decode(text)).decode()
