"""Reads the words of a line as a term with its arguments (docs/listing.md), and says what becomes of its names."""

from __future__ import annotations

import re
from collections import namedtuple
from collections.abc import Iterator

from acpidis_tools import aml

# Between two words stand parentheses, commas, decimal numbers and the bytes of a buffer.
MARK = re.compile(r"\{[0-9A-F]{2}(?:, [0-9A-F]{2})*\}|[(){},]|[0-9A-F]+")
# Those whose last or only target is handed on as an object, or changed in its place.
OBJECT_OPERATORS = "RefOf SizeOf ObjectType Wait Acquire Signal Reset Release Unload Notify".split()
# Where a term stands: in which operator or call, as its part of which kind, and which part that is
Place = namedtuple("Place", "within kind number")


class Term:
    """A word with its arguments in parentheses, None for an empty one, and what stands behind them in braces: the bytes
    of a buffer or the elements of a package. `place` is the word's place in its line."""

    __slots__ = ("word", "place", "arguments", "braced")

    def __init__(self, word: str, place: int):
        self.word, self.place = word, place
        self.arguments: list[Term | None] = []
        self.braced: bytes | list[Term] | None = None

    @property
    def number(self) -> int | None:
        """The value of an integer constant, but for Ones, whose width depends on the table."""
        if self.word.startswith("0x"):
            return int(self.word, 16)
        return aml.SMALL.get(self.word)

    def argument(self, place: int) -> Term | None:
        return self.arguments[place] if place < len(self.arguments) else None


def terms_in(pieces: list[str]) -> list[Term]:
    """The terms of a line's pieces, of which every second is a word: in `FLD0, 8` stand two, as siblings."""
    siblings: list[Term | None] = []
    # The parts that are open, each with whether something stands in the last of them
    opened: list[list] = [[siblings, False]]
    last: Term | None = None
    for at, piece in enumerate(pieces):
        tokens = [piece] if at % 2 else MARK.findall(piece)
        for number, token in enumerate(tokens, 1):
            if at % 2 or token[0] not in "(){},":
                last = Term(token, at // 2 if at % 2 else -1)
                opened[-1][0].append(last)
                opened[-1][1] = True
            elif token in ",)}":
                if token != "}":
                    # It ends an argument, which may be empty.
                    opened[-1][0] += [] if opened[-1][1] else [None]
                    opened[-1][1] = False
                if token != "," and len(opened) > 1:
                    opened.pop()
                    last = opened[-1][0][-1] if opened[-1][0] else None
            elif last and token == "(":
                opened.append([last.arguments, False])
            elif last and token == "{" and not (at == len(pieces) - 1 and number == len(tokens)):
                last.braced = []
                opened.append([last.braced, False])
            elif last and token[0] == "{":
                last.braced = bytes.fromhex(token[1:-1].replace(",", ""))
    return [term for term in siblings if term is not None]


def places(terms: list[Term]) -> Iterator[tuple[Term, Place]]:
    """All terms of a line, each with its place, in the order of the text."""
    waiting = [(term, Place(None, "R", 0)) for term in reversed(terms)]
    while waiting:
        term, place = waiting.pop()
        yield term, place
        kinds = aml.PARTS.get(term.word, "")
        parts = [
            (part, Place(term, kinds[number] if number < len(kinds) else "A", number))
            for number, part in enumerate(term.arguments) if part is not None
        ]
        elements = term.braced if isinstance(term.braced, list) else []
        parts += [(part, Place(term, "D", 0)) for part in elements if part is not None]
        waiting += reversed(parts)
