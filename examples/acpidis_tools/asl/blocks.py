"""The definition blocks of a listing as texts of ASL."""

import re
from collections import namedtuple

from acpidis_tools import command, listing, running
from acpidis_tools.asl import fields, language, terms
from acpidis_tools.asl.names import Names, Scope, Use, externals
from acpidis_tools.listing import ROOT, path_text

TABLE = re.compile(
    r'Table ("[^"]*") ("[^"]*") Length \d+ Revision (\d{1,3}) Oem ("[^"]*") ("[^"]*") ([0-9A-F]{8}) Creator .*'
)
GUARD = "If (Zero) {"
OTHERS = "  // What else the tables declare:"


class Table(namedtuple("Table", "number file signature revision oem oem_table oem_revision")):
    """A line of the listing about a table with a header: its number, and the header's fields as the line has them."""

    def head(self, signature, tell):
        """The line that begins its definition block."""
        oem, oem_table = (terms.quoted(re.sub(r"(\\x00)+$", "", it[1:-1]), tell) for it in (self.oem, self.oem_table))
        return f'DefinitionBlock ("", {signature}, {self.revision}, {oem}, {oem_table}, 0x{self.oem_revision}) {{'


class Block:
    """A definition block: a line for each of the listing's, from the line `first` on. `said` are the names on its
    lines, with their counts of arguments, `methods` the heads and paths of its methods, and `bodies` tell whether these
    have terms. A text that is to be changed has the Externals that it needs, and is without the `guards`, the first and
    the last line of each If that has Externals alone: iasl writes one of its own around those."""

    def __init__(self, table, space, is_edited, lines):
        self.table, self.names, self.is_edited, self.lines = table, Names(space), is_edited, []
        self.unspelled, self.said, self.bodies, self.methods, self.guards = [], [], [], [], set()
        self.number = table.number
        self.head = table.head(table.signature, self.tell)
        self.first = lines[1].number
        for place, line in enumerate(lines[1:-1], 1):
            self.number = line.number
            try:
                self.lines.append("  " * line.depth + self.turned(line))
            except ValueError as fault:
                raise misread(line.number) from fault
            if line.depth == 1 and line.bare == GUARD:
                inside = lines[place + 1 : place + line.end - line.number]
                self.guards |= {line.number, line.end} if all(it.term == "External" for it in inside) else set()

    def tell(self, what):
        self.unspelled.append((self.number, what))

    @property
    def told(self):
        """What ASL can't spell, or iasl makes otherwise, with the numbers of the lines."""
        return sorted([*self.unspelled, *self.names.told()], key=lambda it: it[0])

    def turned(self, line):
        """A line as one of ASL."""
        if not line.term:
            return "}"
        if line.above.term in language.FLAGS:
            turned, unit, used = fields.element(line.bare, self.tell)
            self.names.unit(line, unit, used)
            self.said += [(name, 0) for name in (unit, used) if name]
            return turned
        if line.above.term == "Method" and line.bare.startswith("Raw"):
            self.tell("a body without terms")
            self.bodies[-1] = False
            # No ASL, which iasl refuses: else it would make an empty method of it
            return f"Raw {{}} //{line.pieces[2]}"
        turner = terms.Turner(int(self.table.revision), self.tell)
        turned = turner.line(line.bare)
        self.said += [(named.name, named.count) for named in turner.names if named.name]
        path = self.names.line(line, turner.names)
        if line.term == "Method":
            self.bodies.append(True)
            self.methods.append((line, path))
        return turned

    def methods_at(self, wanted):
        """The methods with this path. What stands inside one that is found is part of it."""
        found = []
        for (line, path), has_terms in zip(self.methods, self.bodies):
            if path == wanted and not (found and line.number < found[-1].line.end):
                found.append(Found(self, self.table, line, path, has_terms))
        return found

    def text(self, rows, said):
        """The lines of the block in ASL. With Externals those of these rows stand at its end."""
        if not self.is_edited:
            return [self.head, *self.lines, "}"]
        names, lines, is_guarded = self.names, [], False
        for number, line in enumerate(self.lines, self.first):
            if number in self.guards:
                is_guarded = not is_guarded
            else:
                lines.append(line[2 * is_guarded :])
        return around(self.head, lines, names.space, names.uses, names.own | names.externals.keys(), said, rows)


def around(head, lines, *about):
    """A definition block of these lines with its Externals."""
    wanted, others = ([f"  {line}" for line in some] for some in externals(*about))
    return [head, *wanted, *lines, *([OTHERS, *others] if others else []), "}"]


class Found(namedtuple("Found", "block table line path has_terms")):
    """A method of a listing, as a definition block with nothing else."""

    @property
    def told(self):
        return [it for it in self.block.unspelled if self.line.number < it[0] < self.line.end]

    def text(self, rows, said):
        names, first, end = self.block.names, self.line.number, self.line.end
        # By its whole path the method needs no Scope around it.
        lines = self.block.lines[first - self.block.first : end + 1 - self.block.first]
        head = re.sub(r"Method \([^,]*", lambda _: f"Method ({path_text(self.path)}", lines[0])
        lines = [line[2 * self.line.depth - 2 :] for line in (head, *lines[1:])]
        above = Use(Scope(ROOT, None), terms.Named(path_text(self.path[:-1])), first)
        uses = [*(use for use in names.uses if first <= use.number < end), above]
        return around(self.table.head('"SSDT"', self.block.tell), lines, names.space, uses, {self.path}, said, rows)


class Reader:
    """The blocks, the namespace and the rows of a listing, for texts that are to be changed, or as they are."""

    def __init__(self, file, is_edited):
        found, self.space, self.blocks = listing.read_listing(command.read(file)), running.Namespace(), []
        self.rows = [self.space.add(row) for row in found.rows]
        forms = [(dump, TABLE.fullmatch(dump.text)) for dump in found.dumps]
        tables = {dump.file: Table(dump.number, *form.groups()) for dump, form in forms if form}
        for block in found.blocks:
            # Each stands once, behind the line of its table.
            if block.file not in tables:
                raise misread(block.lines[0].number)
            self.blocks.append(Block(tables.pop(block.file), self.space, is_edited, block.lines))


def misread(number):
    return listing.NoListing(f"line {number} isn't one of a listing of acpidis")
