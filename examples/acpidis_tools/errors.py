"""The faults of raw bodies, from what acpidis wrote to standard error, and what stands at the byte of a fault."""

from __future__ import annotations

import re
from collections import defaultdict, deque, namedtuple

from acpidis_tools import aml
from acpidis_tools.listing import PATH, Line, Listing, NoListing, path_of, path_text

BODY = "acpidis: body "
MOST_SHOWN = 80
FAULT = re.compile(rf"acpidis: body ({PATH}): ([A-Z][A-Za-z]+)(?: at ([0-9]{{1,9}}))?")


class Fault(namedtuple("Fault", "word at")):
    @classmethod
    def of(cls, form: re.Match) -> Fault:
        return cls(form[2], int(form[3]) if form[3] else None)

    def __str__(self) -> str:
        return self.word if self.at is None else f"{self.word} at {self.at}"


def raw_lines(listing: Listing) -> list[Line]:
    """The lines with the bytes of raw bodies."""
    return [line for line in listing.lines if line.term == "Raw" and line.method]


def read_errors(text: bytes, listing: Listing) -> dict[int, Fault]:
    """The faults of raw bodies that the text names, by the numbers of their lines: of several bodies of one path in
    their order. Lines that don't begin as those of a body do are passed over."""
    raw, faults = defaultdict(deque), {}
    for line in raw_lines(listing):
        raw[line.method].append(line.number)
    lines = text.decode("latin-1").splitlines()
    if lines and not any(line.startswith("acpidis: ") for line in lines):
        raise NoListing("none of its lines is one of acpidis")
    for number, line in enumerate(lines, 1):
        if not line.startswith(BODY):
            continue
        form = FAULT.fullmatch(line)
        if not form:
            raise NoListing(f"line {number} isn't one of standard error of acpidis")
        path = path_of(form[1])
        if not raw[path]:
            raise NoListing(f"line {number}: the body of {path_text(path)[:MOST_SHOWN]} isn't raw in the listing")
        faults[raw[path].popleft()] = Fault.of(form)
    left = min((numbers[0] for numbers in raw.values() if numbers), default=None)
    if left is not None:
        raise NoListing(f"it says nothing of the raw body in line {left} of the listing")
    return faults


def name_at(fault: Fault | None, code: bytes) -> str | None:
    """The name that a raw body of these bytes waits for (docs/names.md), by its fault; None where none stands there."""
    if not fault or fault.word != "UnknownName" or fault.at is None:
        return None
    try:
        name, _ = aml.Reader(0, code, aml.Space(0)).name(fault.at, len(code))
    except aml.Stopped:
        return None
    return str(name) if name.segments else None
