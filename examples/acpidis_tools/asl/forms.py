"""Which lengths and names of a table aren't in the form that iasl writes: a listing doesn't show forms."""

import os

from acpidis_tools import aml, command
from acpidis_tools.listing import file_name


def shortest(size):
    """How many bytes iasl takes for the length of so many bytes behind it, or of a unit of so many bits."""
    return next((width for width, limit in enumerate(aml.LIMITS, 1) if size + width < limit), len(aml.LIMITS))


class Reader(aml.Reader):
    """Reads a table by its text: `said` are the names of that, each with how many arguments it has, and `bodies` tell
    of each method whether it has terms."""

    def __init__(self, code, said, bodies):
        super().__init__("", code, aml.Space(0))
        # Of each length and of each name whether it is in another form than the shortest
        self.said, self.bodies, self.lengths, self.names = iter(said), iter(bodies), [], []
        self.arguments = 0

    def length(self, at, end):
        value, width = super().length(at, end)
        self.lengths.append(width > shortest(value - width))
        return value, width

    def bits(self, at, end):
        value, width = super().bits(at, end)
        self.lengths.append(width > shortest(value))
        return value, width

    def name(self, at, end):
        name, after = super().name(at, end)
        count, text = len(name.segments), str(name)
        lead = 1 if count in (0, 2) else 2 * (count > 2)
        self.names.append(after - at > name.root + name.ups + 4 * count + lead)
        if text:
            said, self.arguments = next(self.said, None) or ("", 0)
            if said != text:
                raise aml.Stopped(at)
        return name, after

    def named(self, at, end, kind, level):
        name, rest = self.name(at, end)
        for _ in range(self.arguments if kind in "TR" and name.segments else 0):
            rest = self.term(rest, end, "T", level + 1)[1]
        return aml.Term(at, str(name)), rest

    def block(self, term, at, end, level):
        self.terms(at, end, level + 1)

    def body(self, term, at, end, level):
        if next(self.bodies, False):
            self.terms(at, end, level + 1)

    def declare(self, term):
        """Nothing is looked up here."""


def told(folder, blocks):
    """A line for each dump of the folder that has a length or a name in another form than the shortest."""
    for block in blocks:
        path = os.path.join(os.fsencode(folder), file_name(block.table.file))
        code = aml.code_of(command.read(path))
        reader = Reader(code, block.said, block.bodies)
        at = reader.read()
        if at < len(code) or next(reader.said, None):
            where = f"they differ at byte {at + aml.HEADER}"
            command.leave(f"{os.fsdecode(path)!r} isn't the dump of this listing: {where}")
        forms = {"lengths": reader.lengths, "names": reader.names}
        what = ", ".join(f"{sum(it)} of {len(it)} {word}" for word, it in forms.items() if any(it))
        if what:
            yield f"{block.table.file[1:-1]}: {what} aren't in their shortest form, which iasl writes"
