"""Compares two listings: what each path's declaration says, wherever it stands, and the lines of the tables."""

from __future__ import annotations

import hashlib
from collections import Counter, namedtuple
from difflib import SequenceMatcher
from functools import lru_cache

from acpidis_tools.decoding import Decoder
from acpidis_tools.listing import Dump, Line, Path, path_text
from acpidis_tools.names import FIRST_WORD

LONGEST = 200
# Of more pairs of lines the longest common ones aren't looked for: that takes time as their product.
MOST_PAIRS = 10_000
# The text of a declaration, in lines, each with the number of the line that it is of.
Said = list[tuple[int, str]]
Text = tuple[str, ...]
# Lines, each with `del` where the first of two texts alone has it, `ins` where the second, and nothing where both
Marked = list[tuple[str, str]]


class Comparison(namedtuple("Comparison", "other adds lacks changes here lines tables outside")):
    """What another listing says: the texts of the paths that it adds and of those that it changes, and the paths that
    it lacks, with the texts here of those that it changes; the numbers of the lines here that differ; of the tables, by
    their files, the lines that differ, None where it has no such file; and those that do outside declarations."""

    def mark(self, path: Path) -> str:
        """How a path differs, in a word, and nothing where it doesn't."""
        kinds = {"added": self.adds, "lacking": self.lacks, "changed": self.changes}
        return next((word for word, paths in kinds.items() if path in paths), "")


def compare(one: Decoder, other: Decoder, name: str) -> Comparison:
    here, there = texts_of(one), texts_of(other)
    changed = [path for path in sorted(here.keys() & there.keys()) if text_of(here[path]) != text_of(there[path])]
    lines = {number for path in changed for number in different_lines(here[path], text_of(there[path]))}
    tables, table_lines = compare_tables(one.listing.dumps, other.listing.dumps)
    outside, outside_lines = alone(lines_outside(one, here), lines_outside(other, there))
    lines |= table_lines | outside_lines
    adds = {path: text_of(there[path]) for path in sorted(there.keys() - here.keys())}
    ours, theirs = ({path: text_of(texts[path]) for path in changed} for texts in (here, there))
    return Comparison(name, adds, here.keys() - there.keys(), theirs, ours, lines, tables, outside)


def text_of(said: Said) -> Text:
    return tuple(text for _, text in said)


def alike(here: Text, there: Text) -> tuple[int, int]:
    """How many lines two texts begin, and how many more they end with alike."""
    least = min(len(here), len(there))
    first = next((place for place in range(least) if here[place] != there[place]), least)
    rest = least - first
    return first, next((place for place in range(rest) if here[-1 - place] != there[-1 - place]), rest)


def differences(here: Text, there: Text) -> Marked:
    """The lines of two texts in their order."""
    first, last = alike(here, there)
    ours, theirs = here[first:len(here) - last], there[first:len(there) - last]
    found = [("", line) for line in here[:first]]
    if len(ours) * len(theirs) <= MOST_PAIRS:
        blocks = SequenceMatcher(None, ours, theirs, autojunk=False).get_opcodes()
    else:
        blocks = [("replace", 0, len(ours), 0, len(theirs))]
    for word, one, end, other, other_end in blocks:
        is_same = word == "equal"
        found += [("" if is_same else "del", line) for line in ours[one:end]]
        found += [("ins", line) for line in theirs[other:other_end] if not is_same]
    return found + [("", line) for line in here[len(here) - last:]]


def different_lines(here: Said, there: Text) -> list[int]:
    """The numbers of the lines that the other text hasn't, between what both begin and end with alike."""
    first, last = alike(text_of(here), there)
    others = Counter(there[first:len(there) - last])
    numbers = []
    for number, text in here[first:len(here) - last]:
        others[text] -= 1
        numbers += [number] if others[text] < 0 else []
    return numbers


def alone(here: Said, there: Said) -> tuple[Marked, set[int]]:
    """The lines that one of two texts alone has, and the numbers of those here."""
    ours, theirs = set(different_lines(here, text_of(there))), set(different_lines(there, text_of(here)))
    marked = [("del", text) for number, text in here if number in ours]
    return marked + [("ins", text) for number, text in there if number in theirs], ours


def lines_outside(decoder: Decoder, texts: dict[Path, Said]) -> Said:
    """The lines that no declaration's text has, as those of code outside methods, but for the ends of blocks."""
    inside = {number for said in texts.values() for number, _ in said}
    return [(line.number, line.bare) for line in decoder.listing.lines if line.term and line.number not in inside]


def texts_of(decoder: Decoder) -> dict[Path, Said]:
    """The marks of each path's row and the text of its declarations, without the paths that are declared inside it."""
    texts = {row.path: [(row.number, row.marks)] if row.marks else [] for row in decoder.listing.rows}
    by_number = {line.number: line for line in decoder.listing.lines}
    for path, lines in decoder.names.declarations.items():
        texts[path] += (said for line in lines for said in declaration_text(line, path, decoder, by_number))
    return texts


def declaration_text(line: Line, path: Path, decoder: Decoder, by_number: dict[int, Line]) -> Said:
    # The path stands in place of the name, which may stand in another scope.
    pieces = list(line.pieces)
    pieces[2 * (line.declared % len(line.words)) + 1] = path_text(path)
    head = line.number, "".join(pieces)
    if line.declared == FIRST_WORD:
        unit = decoder.units[line.number]
        place = f"{shortened(unit.head)} {shortened(unit.behind) if unit.behind else ''} bit {unit.bit}"
        return [(line.number, place), head]
    if line.end and line.term == "Method":
        inside = (by_number[number] for number in range(line.number + 1, line.end + 1))
        return [head, *((inner.number, inner.text[2 * line.depth:]) for inner in inside)]
    return [head]


@lru_cache(maxsize=2)
def shortened(line: Line) -> str:
    """A line that stands before each unit of a list: a long one by its sum, so that all of them take little room."""
    text = line.bare
    return text if len(text) <= LONGEST else f"{text[:LONGEST]}.. {hashlib.sha256(text.encode()).hexdigest()}"


def compare_tables(here: list[Dump], there: list[Dump]) -> tuple[dict[str, Marked | None], set[int]]:
    """For each file whose lines differ those that do, None where the other listing has no such file, and the numbers of
    the lines here that it hasn't."""
    ours, theirs = ({it.file: [(it.number, it.text), *it.notes] for it in dumps} for dumps in (here, there))
    tables, numbers = {}, set()
    for file in sorted(ours.keys() | theirs.keys()):
        one, other = ours.get(file, []), theirs.get(file, [])
        if text_of(one) != text_of(other):
            lines, lacking = alone(one, other)
            numbers |= lacking
            tables[file] = lines if other else None
    return tables, numbers
