#!/usr/bin/env -S python3 -B
"""Says what stands where a set is refused: the term, its scope, both declarations or who wants a name; and the way on.

    python3 examples/refused.py [OPTION..] FOLDER

Offsets count from the first byte behind a table's header, bytes from the first of the file. The terms are read by a
reader of this folder, from the left and as far as it can; what they mean the program alone says. Each OPTION is one of
acpidis, but not --check. ACPIDIS names another program. Status 0 is a set that isn't refused, 1 one that is, or of which
acpidis writes more than 64 MB, 2 a command line, a program or an output that is at fault.
"""

import contextlib
import itertools
import os
import pathlib
import re
import shutil
import sys
import tempfile

from acpidis_tools import aml, command, running
from acpidis_tools.listing import file_name
from acpidis_tools.standard import counted, escaped

HEADER, MOST_BYTES, SHOWN_BYTES, MOST_SHOWN, MOST_OF_LINE = aml.HEADER, 16_777_216, 16, 5, 200
BLOCKS = (b"DSDT", b"SSDT")
CHAIN = (b"RSD PTR ", b"XSDT", b"RSDT", b"FACP")
LINE = re.compile(r'acpidis: (?:table "(?P<file>[^"]*)": )?(?P<word>\w+)(?: at (?P<at>\d+)| (?P<path>\\\S*))?|.*')
GIVEN = re.compile(r"(\\[A-Z0-9_.]+) ([0-7])")
METHOD = re.compile(rb"\x14(?:[\x00-\x3f]|[\x40-\x4f].|[\x80-\x8f]..|[\xc0-\xcf]...)([A-Z_][A-Z0-9_]{3})(.)", re.DOTALL)

AT_LINE = re.compile(r"(tables\.map|externals) line (\d+)")
DUMPED = re.compile(rb"\s*(?:RSD PTR|[A-Z0-9!_]{4}) @ 0x[0-9A-Fa-f]+\s")


def read_words(text):
    """The tables of refusals.txt: ways on; what each word says, with those for an SSDT and DSDT; so with --any-run."""
    named, *tables = ([line for line in part.splitlines() if not line.startswith("#")] for part in text.split("\n\n"))
    ways = dict(line.split(" ", 1) for line in named)
    ways_in = lambda cell: [ways.get(way, way) for way in cell.split("; ") if way]
    cells = lambda line: [cell.strip() for cell in line.split("|")]
    tables = ({word: (says, *map(ways_in, on)) for word, says, *on in map(cells, lines)} for lines in tables)
    return (ways, *tables)


WAYS, WORDS, RAN = read_words((pathlib.Path(command.__file__).parent / "refusals.txt").read_text())
# What is said of a byte of a table's AML.
AT_BYTES = "ModuleCode Truncated PkgPast PkgBits BadName UnknownOp NotHere StrayElse EmptyName BadCount TooDeep".split()


class Refusal:
    """The line of standard error: the file's name, the word, the offset, the path."""

    def __init__(self, line):
        form = LINE.fullmatch(line)
        self.line, self.word, self.path = line.removeprefix("acpidis: "), form["word"] or "", form["path"]
        self.file = None if form["file"] is None else os.fsdecode(file_name(form["file"]))
        self.at = int(form["at"]) if form["at"] else None


def head_of(data):
    """A table of the same kind that says nothing but where others are."""
    if data.startswith(BLOCKS):
        return data[:4] + HEADER.to_bytes(4, "little") + data[8:HEADER].ljust(HEADER - 8, b"\0")
    return data if data.startswith(CHAIN) else b"NONE" + HEADER.to_bytes(4, "little") + bytes(HEADER - 8)


def load_order(program, folder):
    """The names of the definition blocks in the order in which they load: the program says it of the headers alone."""
    files = (entry.name for entry in os.scandir(folder) if entry.is_file(follow_symlinks=False))
    names, found = sorted(name for name in files if name != "tables.map"), []
    with tempfile.TemporaryDirectory() as room:
        for name in names:
            (pathlib.Path(room) / name).write_bytes(head_of(read_file(folder, name)))
        there = pathlib.Path(folder) / "tables.map"
        if there.is_file() and not there.is_symlink() and there.stat().st_size <= MOST_BYTES:
            shutil.copy(there, room)
        done, _ = running.started([program, "--any-sum", "--", room], "replace")
        if done.returncode == 0:
            found = re.findall(r'^DefinitionBlock \("(.*)"\) \{$', done.stdout.decode(), re.MULTILINE)
    loaded = [os.fsdecode(file_name(shown)) for shown in found]
    return loaded or [name for name in names if read_file(folder, name).startswith(BLOCKS)]


def read_file(folder, name):
    with open(pathlib.Path(folder) / name, "rb") as file:
        return file.read(MOST_BYTES + 1)


def path_of(node):
    return aml.cut(node.path())


def bytes_at(code, at):
    shown = code[at : at + SHOWN_BYTES].hex(" ").upper()
    return shown + (" .." if len(code) > at + SHOWN_BYTES else "") if shown else "the table's end"


class Tables:
    """The tables in load order, read up to where the set is refused, and where it is asked for behind that too; and
    what they say of the refusal."""

    def __init__(self, asked, program, refusal):
        self.refusal, self.order = refusal, load_order(program, asked.folder)
        if refusal.file not in self.order:
            self.order.append(refusal.file)
        self.codes = [aml.code_of(read_file(asked.folder, name)) for name in self.order]
        self.space = aml.Space(sum(map(len, self.codes)))
        self.any_run, self.wants_any_run = asked.any_run, asked.has_any_run and not asked.any_run
        given = read_file("", asked.externals)[:MOST_BYTES].decode("latin-1") if asked.externals else ""
        for path, count in GIVEN.findall(given):
            node = self.space.node(path)
            node.given = max(node.given or 0, int(count))
        # Those in front of the one at fault, and that one to where the fault is
        end = self.order.index(refusal.file)
        for number in range(end + 1):
            stop = refusal.at if number == end else None
            reader = self.at_fault = aml.Reader(number, self.codes[number], self.space, stop, self.any_run)
            reader.stopped = reader.read()

    def read_rest(self):
        for number in range(self.at_fault.table + 1, len(self.codes)):
            aml.Reader(number, self.codes[number], self.space, has_calls=self.any_run).read()

    def place(self, table, at):
        return f"{escaped(os.fsencode(self.order[table]))}, offset {at}, byte {at + HEADER} of the file"

    def told(self, node):
        """Where a path is declared, in words."""
        places = [f"{word} at {self.place(table, at)}" for table, at, word in node.places]
        other = "nowhere in the tables" if node.external is None else "an External"
        return " and ".join(places) or ("predefined" if node.is_predefined else other)

    def say_code(self):
        """Of a fault with an offset."""
        reader = self.at_fault
        yield f"{self.place(reader.table, self.refusal.at)}, in the scope {path_of(reader.scope)}"
        yield f"  bytes {bytes_at(reader.code, self.refusal.at)}"
        if reader.stopped != self.refusal.at:
            yield f"  the reader of this script came to {reader.stopped} only"
            return
        # A line for each of the terms that the reader is in, the inner first
        blocks = [f"  in {aml.text(term)}, offset {term.at}" for term in reversed(reader.open[-MOST_SHOWN:])]
        before = reader.before
        # The last names of the term in front, and of the one that the reader is in
        front = before or next(reversed(reader.open), None)
        uses = [use for use in reader.uses[-MOST_SHOWN:] if front is not None and use.term.at >= front.at]
        term, stopped = reader.term_at(self.refusal.at) if self.refusal.word == "ModuleCode" else (None, None)
        if term is not None:
            yield from (f"  {line}" for line in aml.lines(term))
        if stopped is not None:
            yield f"  which this script can read to {stopped}"
        yield from blocks
        if before is not None:
            yield f"  behind {aml.text(before)}, offset {before.at}"
        yield from self.say_counts(reader, uses)

    def say_counts(self, reader, uses):
        """Which of the names may be calls with arguments, which would shift all that follows."""
        # The methods that the bytes seem to declare, by the last segments of their names
        methods = METHOD.finditer(reader.code) if self.any_run else ()
        ahead = {form[1].decode(): (form.start(), form[2][0] & 7) for form in methods}
        for use in uses:
            known = self.space.count(use.scope, use.name)
            if known and known[0] and use.read == 0:
                takes = f"takes {counted(known[0], 'argument')} ({self.told(known[1])}), and was read without them"
                with_them = ": `--any-run` reads calls outside the methods" if self.wants_any_run else ""
                yield f"  {use.name} {takes}{with_them}"
            elif self.any_run and not known and use.name.segments and use.name.segments[-1] in ahead:
                at, count = ahead[use.name.segments[-1]]
                method = f"a Method of {counted(count, 'argument')} may stand at offset {at}"
                yield f"  nothing tells of {use.name} before it; {method}"
                # From outside a name that is looked for above is told by its path below the root.
                place = self.space.place(self.space.root if use.name.is_searched else use.scope, use.name)
                path = path_of(place) if place else "?"
                yield f"  a line `{path} {count}` in the file of --externals would tell it"

    def say_duplicate(self):
        node = self.space.node(self.refusal.path)
        yield f"{path_of(node)} is declared"
        for table, at, word in node.places:
            yield f"  as a {word} at {self.place(table, at)}"
        if not node.places:
            yield "  where this script can't follow"

    def say_missing(self):
        """Who wants a path, and what declares it later."""
        reader, node = self.at_fault, self.space.node(self.refusal.path)
        # With --any-run a path may be refused that leads somewhere, but not in each run to the same.
        found = reader.wanted if self.any_run else reader.missing
        wanted = [(term, scope) for term, scope, place in found if place is node]
        for term, scope in wanted[:MOST_SHOWN]:
            where = f"{self.place(reader.table, term.at)}, in {path_of(scope)}"
            yield f"{path_of(node)} is wanted by {aml.text(term)} at {where}"
        if len(wanted) > MOST_SHOWN:
            yield f"  and {len(wanted) - MOST_SHOWN} more"
        for term, scope in wanted[:1] if self.any_run else []:
            for meant in self.space.candidates(scope, term.names()[0]):
                if meant.is_declared() or meant.external is not None:
                    yield f"  it may mean {path_of(meant)}: {self.told(meant)}"
        self.read_rest()
        yield f"  declared: {self.told(node)}"

    def say_above(self):
        reader = self.at_fault
        above = [(term, scope) for term, scope, place in reader.missing if place is None]
        for term, scope in above[:MOST_SHOWN]:
            yield f"{aml.text(term)} at {self.place(reader.table, term.at)}, in the scope {path_of(scope)}"

    def say_calls(self):
        """The names outside the methods that take arguments; with --any-run those of the path."""
        reader, shown = self.at_fault, 0
        wanted = self.space.node(self.refusal.path) if self.refusal.path else None
        self.read_rest()
        for use in reader.uses:
            known = self.space.count(use.scope, use.name)
            if not (self.space.place(use.scope, use.name) is wanted if wanted else known and known[0]):
                continue
            shown += 1
            if shown > MOST_SHOWN:
                yield "  and more"
                return
            term = f", in {aml.text(use.around)}" if use.around else ""
            yield f"{use.name} at {self.place(reader.table, use.term.at)}, in the scope {path_of(use.scope)}{term}"
            takes = f"it takes {counted(known[0], 'argument')}: {self.told(known[1])}" if known else ""
            yield f"  read with {counted(use.read, 'argument')}; {takes or 'nothing tells how many it takes'}"


SAYERS = {
    "Duplicate": Tables.say_duplicate, "ScopeMissing": Tables.say_missing, "AliasMissing": Tables.say_missing,
    "AboveRoot": Tables.say_above, "ModuleCall": Tables.say_calls,
}


def say_file(refusal, data):
    """What a file has that is no whole table."""
    least = " at least" * (len(data) > MOST_BYTES)
    yield f"{escaped(os.fsencode(refusal.file))} has {len(data)} bytes{least}, and begins with"
    yield f"  {bytes_at(data, 0)}"
    length = int.from_bytes(data[4:8], "little")
    if len(data) >= 8 and not data.startswith(b"RSD PTR "):
        total = f", and so many bytes sum to {sum(data[:length]) % 256}" if length <= len(data) else ""
        yield f"  its Length is {length}{total}"
    if refusal.at is not None:
        yield f"  at byte {refusal.at} stands {bytes_at(data, refusal.at)}"


def has_dsdt(folder):
    with contextlib.suppress(OSError):
        files = (entry for entry in os.scandir(folder) if entry.is_file(follow_symlinks=False))
        return any(read_file(folder, file.name).startswith(b"DSDT") for file in files)


def say_folder(asked, refusal):
    """What a folder has that isn't read: a name that isn't UTF-8, links and folders, which are passed over; or the line
    at fault of a file."""
    folder, form = os.fsencode(asked.folder), AT_LINE.match(refusal.line)
    if form:
        text = read_file("", asked.externals) if form[1] == "externals" else read_file(asked.folder, "tables.map")
        yield "  " + escaped(text.split(b"\n")[int(form[2]) - 1][:MOST_OF_LINE])
        return
    names = sorted(os.listdir(folder)) if os.access(folder, os.R_OK | os.X_OK) and os.path.isdir(folder) else []
    for name in names:
        place = os.path.join(folder, name)
        if os.path.islink(place):
            yield f"  {escaped(name)} is a link, which is passed over"
        elif refusal.word == "NoDsdt" and has_dsdt(os.fsdecode(place)):
            yield f"  {escaped(name)} is a folder, which is passed over: did you mean {escaped(place)}?"
        elif "\ufffd" in name.decode(errors="replace"):
            yield f"  {escaped(name)} isn't UTF-8"


def words_on(asked, refusal, data):
    """What is said of a refusal, and the ways on, of an SSDT and of a DSDT."""
    if refusal.word == "Short" and data.startswith(command.PACKED):
        return WORDS["a packed file"]
    if refusal.word == "Short" and DUMPED.match(data):
        return WORDS["the text of acpidump"]
    # No option takes a Return outside the methods.
    code = aml.code_of(data)[refusal.at :] if refusal.word == "ModuleCode" and refusal.at is not None else b""
    told_by = {**WORDS, **RAN} if asked.any_run or code[:1] == b"\xa4" else WORDS
    return told_by.get(refusal.word, ("", [], []))


def say_all(asked, program, refusal):
    yield refusal.line
    data = b"" if refusal.file is None else read_file(asked.folder, refusal.file)
    what, ways, ways_of_dsdt = words_on(asked, refusal, data)
    if refusal.file is not None and (refusal.word in AT_BYTES or refusal.word in SAYERS):
        try:
            yield from SAYERS.get(refusal.word, Tables.say_code)(Tables(asked, program, refusal))
        except aml.TooManySteps:
            yield "  the scopes are too deep for this script to follow"
    elif refusal.file is not None:
        yield from say_file(refusal, data)
    else:
        yield from itertools.islice(say_folder(asked, refusal), MOST_SHOWN)
    ways = ways_of_dsdt if data.startswith(b"DSDT") else ways
    without = [WAYS["no-count"]] * (not asked.externals) + [WAYS["any-run"]] * (not asked.has_any_run)
    ways = [way for way in ways if way not in without]
    if what:
        yield what
    if AT_LINE.match(refusal.line):
        way = "mend the line"
    else:
        way = "look at `ls -la` of it" if refusal.line.startswith("cannot read") else "see refusals.md"
    yield "Way on: " + ("; or ".join(ways) or way)


def main():
    sys.stdout.reconfigure(errors="backslashreplace")
    sys.stderr.reconfigure(errors="backslashreplace")
    asked = command.parse(command.parser(__doc__, "FOLDER", usage="%(prog)s [OPTION..] FOLDER"))
    program = running.program()
    words = [program, *command.words_of(asked.options), "--check", "--", asked.folder]
    *_, line = running.ended(words, "surrogateescape")
    if line is None:
        print("the set isn't refused")
        return
    asked.any_run, asked.externals = "--any-run" in asked.options, asked.options.get("--externals")
    asked.has_any_run = "--any-run" in command.known()
    print("\n".join(say_all(asked, program, Refusal(line))))
    sys.exit(command.REFUSED)


if __name__ == "__main__":
    command.run(main)
