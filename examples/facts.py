#!/usr/bin/env -S python3 -B
"""Makes facts of listings of acpidis, to be asked by SQL: names, uses, regions, fields, resources and more.

    examples/facts.py [--errors FILE] [--dumps FOLDER] LISTING FACTS
    examples/facts.py [--jobs N] [--dumps FOLDER] TEXTS FACTS
    examples/facts.py --json .. LISTING|TEXTS >facts.jsonl

LISTING is what acpidis wrote to standard output, FILE what it wrote to standard error. TEXTS is a folder of many machines:
each folder below it with a file `text` is one, and `errors` beside it is its standard error (many.md); so is each
file in TEXTS itself, but for hidden ones. FACTS is an SQLite file, which may take the place of older facts, and of nothing else; with --json each
fact is a line of its own on standard output. With --dumps each table has the sum of its dump, from FOLDER or the folder of
the same name below it. The page facts.md has the tables, and what to ask.

Status 0 is that all machines have facts, 3 that one at least has none: its row says why. 1 is a text that is no listing,
and 2 a command line, a file or an output that is at fault: with both, older facts stay.
"""

import argparse
import contextlib
import hashlib
import json
import multiprocessing
import os
import pathlib
import re
import signal
import sqlite3
import sys
from collections import deque
from collections.abc import Callable, Iterator
from concurrent.futures.process import BrokenProcessPool, ProcessPoolExecutor
from functools import partial

from acpidis_tools import command
from acpidis_tools.collecting import LENGTH, Collector, header_of, record_rows
from acpidis_tools.errors import read_errors
from acpidis_tools.listing import BLOCK, Dump, NoListing, Reader, file_name, read_file, read_listing
from acpidis_tools.names import Names
from acpidis_tools.schema import COLUMNS, INDEXES, OF_CODE, SCHEMA, shifted

# A line takes half a kilobyte of memory.
MOST_BYTES, MOST_LINES = 256_000_000, 1_000_000
MOST_DUMP = 16_777_216
ALL_OTHERS = 1_000
LONGEST_FAULT = 200
INCOMPLETE = 3
NO_MEMORY, ENDED = "there is not enough memory to read it", "the process that read it was ended"
# So many machines a process wait in their order.
WAITING = 4
# Processes that end by this script alone, which an interrupt reaches too
pool_of = partial(ProcessPoolExecutor, initializer=signal.signal, initargs=(signal.SIGINT, signal.SIG_IGN))
BLOCKS = re.compile(rb"^Namespace [0-9]", re.MULTILINE)


class Machine:
    """A machine: its name, its listing, its standard error and the folder of its dumps."""

    def __init__(self, name: str, text: pathlib.Path, errors: "pathlib.Path | None", dumps: "pathlib.Path | None"):
        self.name, self.files = printable(name), (text, errors)
        self.fault, self.text, self.errors, self.tables, self.records, self.above = "", b"", b"", [], [], None
        self.lost = 0  # dumps that aren't there, or are others
        try:
            self.text, self.errors = self.read()
            if not self.text:
                line = printable(self.errors.decode("latin-1").partition("\n")[0])  # why the set was refused
                raise NoListing(f"refused: {line[9:]}" if line.startswith("acpidis: ") else "it is empty")
            if self.text.count(b"\n") > MOST_LINES:
                raise NoListing(f"it has more than {MOST_LINES:,} lines")
            reader = Reader(self.text)
            found, self.above = reader.dumps(), reader.at
            blocks = filter(None, map(BLOCK.fullmatch, reader.lines[reader.at :]))
            order = {form[1]: number for number, form in enumerate(blocks, 1)}
            # The sums of the dumps by the names of files as the listing has them
            sums = {file: sum_in(dumps, dump) for file, dump in {it.file: it for it in found}.items()} if dumps else {}
            self.lost = sum(it is None for it in sums.values())
            self.tables = [[*header_of(dump), order.get(dump.file), sums.get(dump.file)] for dump in found]
            self.records = record_rows(found)
        except Exception as fault:
            self.fault = said(fault)

    def read(self) -> tuple[bytes, bytes]:
        text, errors = self.files
        return read_file(str(text), MOST_BYTES), read_file(str(errors), MOST_BYTES) if errors else b""


def sum_in(folder: pathlib.Path, dump: Dump) -> "str | None":
    """The sum of a dump of this folder, if it is there with the length that the listing has."""
    file, length = file_of(folder, dump.file), header_of(dump)[LENGTH]
    data = file.read_bytes() if file else b""
    at = 20 if data.startswith(b"RSD PTR ") else 4
    is_this = file and length in (None, int.from_bytes(data[at : at + 4], "little"))
    return hashlib.sha256(data).hexdigest() if is_this else None


def file_of(folder: pathlib.Path, quoted: str) -> "pathlib.Path | None":
    """The dump of a file's name in quotes, if it is a plain file of the folder."""
    data = file_name(quoted)
    if data in (b"", b".", b"..") or b"/" in data or b"\0" in data:
        return None
    file = folder / os.fsdecode(data)
    return file if file.is_file() and not file.is_symlink() and file.stat().st_size <= MOST_DUMP else None


def printable(name: str) -> str:
    """A name of a file, with each byte as \\x and two digits that isn't UTF-8, or of what isn't printed, as the survey has it."""
    shown = os.fsencode(name).decode("utf-8", "surrogateescape")
    coded = lambda char: "".join(f"\\x{byte:02X}" for byte in char.encode("utf-8", "surrogateescape"))
    return "".join(char if char.isprintable() else coded(char) for char in shown)


def said(fault: Exception) -> str:
    """Why a machine has no facts, by whatever ended the reading of it."""
    if isinstance(fault, OSError) and fault.filename:
        return f"cannot read {printable(os.fsdecode(fault.filename))}: {fault.strerror}"[:LONGEST_FAULT]
    if isinstance(fault, NoListing):
        return str(fault)[:LONGEST_FAULT]
    return NO_MEMORY if isinstance(fault, MemoryError) else f"this script fails at it: {fault!r}"[:LONGEST_FAULT]


def sum_of(text: bytes, errors: bytes) -> str:
    """A sum of what a listing says of the tables' code: all but the lines of the dumps, which machines don't share."""
    form = BLOCKS.search(text)
    return hashlib.sha256((text[form.start():] if form else text) + b"\0" + errors).hexdigest()[:32]


def facts_of(text: bytes, errors: bytes) -> tuple[str, dict[str, list[list]]]:
    """The rows of a listing's code by their tables; or why it has none, and no rows. Made in a process of its own."""
    what = ""
    try:
        listing = read_listing(text)
        names, what = Names(listing, ALL_OTHERS), "its errors aren't those of this listing: "
        faults = read_errors(errors, listing) if errors else {}
    except NoListing as fault:
        return f"{what}{fault}"[:LONGEST_FAULT], {}
    rows = Collector(listing, names, faults).collect()
    rows["code"] = [[1, sum_of(text, errors), listing.line_count - listing.above]]
    return "", dict(rows)


def has_facts(file: str) -> bool:
    """Whether a file is one that this script made, so that other facts may take its place."""
    where = f"{pathlib.Path(file).absolute().as_uri()}?mode=ro"
    with contextlib.suppress(sqlite3.Error), contextlib.closing(sqlite3.connect(where, uri=True)) as there:
        return bool(there.execute("SELECT shift, sum, dump_sum FROM machine, code, acpi_table LIMIT 0"))
    return False


class Database:
    """An SQLite file."""

    def __init__(self, file: pathlib.Path):
        self.connection = sqlite3.connect(file, isolation_level=None)
        self.connection.executescript(f"PRAGMA journal_mode = OFF; PRAGMA synchronous = OFF; BEGIN; {SCHEMA}")

    def add(self, table: str, rows: list[list]) -> None:
        marks = ", ".join("?" * len(COLUMNS[table]))
        self.connection.executemany(f"INSERT INTO {table} VALUES ({marks})", rows)

    def close(self) -> None:
        self.connection.execute("COMMIT")
        self.connection.executescript(f"{INDEXES} ANALYZE;")
        self.connection.close()


class Lines:
    """A line of JSON for each fact, on standard output."""

    def add(self, table: str, rows: list[list]) -> None:
        for row in rows:
            pairs = ((column, value) for column, value in zip(COLUMNS[table], row) if value is not None)
            sys.stdout.write(json.dumps({"fact": table, **dict(pairs)}) + "\n")

    def close(self) -> None:
        sys.stdout.flush()


class Facts:
    """Numbers the rows of all machines, and hands them on. Code that machines share is kept once, with the lines of the
    first one's text: `codes` has its row, or why there is none, and how many lines stand above it there, by its sum.
    `lacking` are the machines without facts, each with its fault, and so many dumps are `lost`."""

    def __init__(self, sink: "Database | Lines"):
        self.sink = sink
        self.bases = dict.fromkeys(COLUMNS, 0)
        self.codes: dict[str, tuple[int | None, str, int]] = {}
        self.lacking: list[tuple[str, str]] = []
        self.lost = 0

    def add_code(self, code_sum: str, above: int, fault: str, rows: dict[str, list[list]]) -> None:
        tables = ("code", *OF_CODE) if rows else ()
        numbered = {table: shifted(rows.get(table, []), table, self.bases) for table in tables}
        for table, found in numbered.items():
            self.sink.add(table, found)
            self.bases[table] += len(found)
        self.codes[code_sum] = (self.bases["code"] if rows else None), fault, above

    def add_machine(self, machine: Machine, code_sum: str) -> None:
        code, fault, above = self.codes[code_sum] if code_sum else (None, machine.fault, 0)
        shift = machine.above - above if code else None
        self.bases["machine"] += 1
        number, before = self.bases["machine"], self.bases["acpi_table"]
        self.sink.add("machine", [[number, machine.name, code, shift, fault or None]])
        self.sink.add("acpi_table", [[before + place, number, *row] for place, row in enumerate(machine.tables, 1)])
        records = enumerate(machine.records, self.bases["record"] + 1)
        self.sink.add("record", [[place, before + table, *row] for place, (table, *row) in records])
        self.bases["acpi_table"] += len(machine.tables)
        self.bases["record"] += len(machine.records)
        self.lacking += [(machine.name, fault)] if fault else []
        self.lost += machine.lost


def machines_of(asked: argparse.Namespace) -> Iterator[Machine]:
    top = pathlib.Path(asked.listing)
    dumps = pathlib.Path(asked.dumps) if asked.dumps else None
    if not top.is_dir():
        yield Machine(asked.listing, top, pathlib.Path(asked.errors) if asked.errors else None, dumps)
        return
    for folder, folders, files in os.walk(top):
        folders.sort()
        here = pathlib.Path(folder)
        name = here.relative_to(top)
        if "text" in files:
            errors = here / "errors" if "errors" in files else None
            yield Machine(str(name), here / "text", errors, dumps and dumps / name)
        elif here == top:
            for file in sorted(file for file in files if not file.startswith(".")):
                yield Machine(file, here / file, None, dumps and dumps / file)


class Processes:
    """Processes that read listings; for one job there is none. Where one is ended, new ones take the place of all."""

    def __init__(self, jobs: int):
        self.jobs, self.pool = jobs, pool_of(jobs)

    def submit(self, *words: bytes) -> Callable:
        """What gives the facts of a listing, once they are there."""
        if self.jobs == 1:
            return partial(facts_of, *words)
        try:
            return self.pool.submit(facts_of, *words).result
        except BrokenProcessPool:
            self.pool.shutdown()
            self.pool = pool_of(self.jobs)
            return self.pool.submit(facts_of, *words).result


def add_all(facts: Facts, machines: Iterator[Machine], jobs: int) -> None:
    """Adds the facts of all machines in their order."""
    progress, processes = command.Progress("machine"), Processes(jobs)
    waiting: deque = deque()
    seen = {""}

    def add_but(last: int) -> None:
        while len(waiting) > last:
            machine, code_sum, result = waiting.popleft()
            if result:
                facts.add_code(code_sum, machine.above, *outcome(machine, result))
            facts.add_machine(machine, code_sum)
            progress.step()

    try:
        for machine in machines:
            code_sum = "" if machine.fault else sum_of(machine.text, machine.errors)
            result = None if code_sum in seen else processes.submit(machine.text, machine.errors)
            seen.add(code_sum)
            machine.text = machine.errors = b""
            waiting.append((machine, code_sum, result))
            add_but(WAITING * jobs if jobs > 1 else 0)
        add_but(0)
    finally:
        end_processes()
        processes.pool.shutdown()
        progress.end()


def end_processes() -> None:
    for process in multiprocessing.active_children():
        process.kill()


def stop(number: int, _: object) -> None:
    """Ends what reads listings with this script, whose part of the facts goes."""
    end_processes()
    raise KeyboardInterrupt if number == signal.SIGINT else SystemExit(128 + number)


def outcome(machine: Machine, result: Callable) -> tuple[str, dict[str, list[list]]]:
    """What comes of a machine's listing. Where a process was ended, which may have read another one's, this is read
    again by a process of its own."""
    try:
        with contextlib.suppress(BrokenProcessPool):
            return result()
        with pool_of(1) as pool:
            return pool.submit(facts_of, *machine.read()).result()
    except BrokenProcessPool:
        return ENDED, {}
    except Exception as fault:
        return said(fault), {}


def arguments() -> argparse.Namespace:
    words = command.parser(__doc__)
    words.add_argument("listing", metavar="LISTING|TEXTS")
    words.add_argument("facts", metavar="FACTS", nargs="?")
    words.add_argument("--json", action="store_true", help="lines of JSON on standard output in place of FACTS")
    words.add_argument("--errors", metavar="FILE", help="what acpidis wrote to standard error with LISTING")
    words.add_argument("--dumps", metavar="FOLDER", help="the folder of the dumps, or of all sets")
    words.add_argument("--jobs", metavar="N", type=int, default=os.cpu_count() or 1, help="processes at a time")
    asked = words.parse_args()
    if asked.json == bool(asked.facts):
        words.error("either FACTS or --json is wanted")
    if asked.jobs < 1:
        words.error("--jobs takes a number from 1 on")
    for there in filter(None, (asked.errors, asked.dumps)):
        if not os.path.exists(there):
            words.error(f"there is no {there!r}")
    return asked


def main() -> None:
    for number in (signal.SIGINT, signal.SIGTERM):
        signal.signal(number, stop)
    asked = arguments()
    is_one = not os.path.isdir(asked.listing)
    if asked.facts and os.path.lexists(asked.facts) and not (os.path.isfile(asked.facts) and has_facts(asked.facts)):
        command.leave(f"{asked.facts!r} is there, and has no facts: name another file")
    try:
        with command.whole(asked.facts) if asked.facts else contextlib.nullcontext() as part:
            facts = Facts(Database(part) if part else Lines())
            add_all(facts, machines_of(asked), 1 if is_one else asked.jobs)
            if not facts.bases["machine"]:
                command.refuse(f"no listing is in {asked.listing!r}: a file `text` is one, in a folder of each machine")
            name, fault = facts.lacking[-1] if facts.lacking else ("", "")
            if fault and is_one:
                if fault.startswith("cannot read "):
                    command.leave(fault)
                command.refuse(f"{asked.listing!r}: {fault}")
            facts.sink.close()
    except sqlite3.Error as error:
        command.leave(f"cannot write {asked.facts!r}: {error}")
    if facts.lost:
        command.tell(f"{facts.lost} dumps aren't in {asked.dumps!r}, or have other lengths: no sum stands for them")
    if fault:
        said_of = f"{len(facts.lacking)} of {facts.bases['machine']} machines without facts; the last, {name}: {fault}"
        command.tell(f"{said_of}; all: SELECT name, fault FROM machine WHERE fault IS NOT NULL")
        sys.exit(INCOMPLETE)


if __name__ == "__main__":
    command.run(main)
