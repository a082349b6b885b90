#!/usr/bin/env python3
"""Checks the facts that examples/facts.py gathers of a listing, beside the independent reading.

    python3 tests/facts.py [--sets N] [FOLDER ..]

Of the samples of telling.py the names with their kinds, the uses of names with what becomes of each, the regions and
the units of field lists are those that the independent reading says. Then come the tables, resources and identifiers
of a set that is written down here, many machines with shared code, and what the command line refuses."""

import ast
import contextlib
import hashlib
import io
import json
import os
import pathlib
import re
import signal
import sqlite3
import subprocess
import sys
import time
from collections.abc import Iterator

from tally import TOP, Outcome, Tally, asked, ended, first_difference, parts_in, written
from acpidis_tools import command
from hostile import facts_script, head_of, text_of
from made_aml import SETS, VERSIONS, table, tables
from namespaces import path_text
from running import REFUSED, Options, run_folder
from acpidis_tools.schema import COLUMNS, REFERENCES
from telling import Teller, samples, small


def regions_told(teller: Teller, has_raw: bool) -> list:
    """The regions, with the values of Names that nothing writes, passes on, or may be declared again."""
    space = teller.space
    changed = {path for *_, path, is_own, _, how in teller.uses if how in ("written", "passed") and not is_own}
    for path in list(changed):
        kind = space.kind(tuple(path[1:].split("."))) if path and path != "\\" else None
        changed |= {path_text(kind[1])} if kind and kind[0] == "Alias" else set()
    sure = {path for path, kind, marks in space.rows() if kind[0] == "Name" and not marks}

    def value(number: int | None, paths: list) -> int | None:
        if number is not None or has_raw or len(paths) != 1 or paths[0] not in sure or path_text(paths[0]) in changed:
            return number
        found = teller.values.get(paths[0], [])
        return small(found[0]) if len(found) == 1 else None

    return [(*head, *map(value, numbers, meant)) for head, numbers, meant in teller.regions]


def names_told(teller: Teller) -> Iterator[tuple]:
    for path, kind, marks in teller.space.rows():
        times = int(" ".join(marks).partition("Times ")[2] or 1)
        count = kind[1] if kind[0] == "Method" else None
        yield path_text(path), kind[0], count, "maybe" if "Maybe" in marks else "always", times


class Read:
    """The rows of the facts of a listing by their tables, each as a dictionary."""

    def __init__(self, rows: dict):
        self.rows = {table: [dict(zip(COLUMNS[table], row)) for row in found] for table, found in rows.items()}
        self.paths = {row["id"]: row["path"] for row in self.of("name")}
        self.methods = {row["id"]: self.paths[row["name"]] for row in self.of("method")}

    def of(self, table: str) -> list:
        return self.rows.get(table, [])

    def told(self, table: str, columns: str) -> list:
        """Some columns of each row, with the paths of methods and names in place of their numbers."""
        shown = {"method": self.methods, "name": self.paths}
        told = lambda row, column: shown[column].get(row[column]) if column in shown else row[column]
        return [tuple(told(row, column) for column in columns.split()) for row in self.of(table)]


# The questions of docs/facts.md, from 1 on
QUESTIONS = re.findall(r'ask.py facts "(.*?)"$', (TOP / "docs/facts.md").read_text().replace("\n> ", "\n"), re.DOTALL | re.M)
# Facts of a folder, whose processes are ended at a text of these words, as by a system without memory, or get none.
ENDS = """
import os, sys
sys.path[:0] = sys.argv.pop(1).split(":")
import tally, facts
real = facts.facts_of
def facts_of(text, errors):
    if b"ENDED" in text:
        os.kill(os.getpid(), 9)
    if b"LARGE" in text:
        raise MemoryError
    return real(text, errors)
facts.facts_of = facts_of
facts.main()
"""


def columns_text() -> Iterator[str]:
    """The tables with their columns, and behind those that name a row the table that it is of."""
    for table, columns in COLUMNS.items():
        targets = dict(REFERENCES[table])
        shown = (column + (f">{targets[place]}" if place in targets else "") for place, column in enumerate(columns))
        yield f"{table:<12}{', '.join(shown)}"


class Checks(Tally):
    def compare(self, what: str, folder: pathlib.Path, options: Options, outcome: Outcome) -> None:
        self.is_same(f"{what} is taken", outcome.status != REFUSED, True)
        fault, rows = facts_script.facts_of(outcome.out.encode(), outcome.err.encode())
        self.is_same(f"the facts of {what}", fault, "")
        read, teller = Read(rows), Teller(folder, options)
        names = {row for row in read.told("name", "path kind arguments stands times") if row[3] in ("always", "maybe")}
        self.is_same(f"the names of {what}", sorted(names.symmetric_difference(names_told(teller)), key=str), [])
        uses = read.told("use", "method scope text name is_local place how")
        self.is_same(f"the uses of {what}", first_difference(uses, teller.uses), None)
        raw = outcome.err.count("\n")
        regions = sorted(read.told("region", "method path space first length"), key=str)
        self.is_same(f"the regions of {what}", regions, sorted(regions_told(teller, raw > 0), key=str))
        units = [row for row in read.told("field", "method path made_by bit width") if not row[2].startswith("Create")]
        self.is_same(f"the units of {what}", units, teller.units)
        found = sum(row["is_raw"] and row["fault"] is not None for row in read.of("method"))
        self.is_same(f"the raw bodies of {what}", found, raw)
        lines = outcome.out.splitlines()
        wrong = [row for row in read.of("use") if row["text"] not in lines[row["line"] - 1]]
        self.is_same(f"the lines of {what}, with the names that are used there", wrong, [])
        for name, found in rows.items():
            self.is_same(f"the rows of {name} of {what}", [row[0] for row in found], list(range(1, len(found) + 1)))

    def rows(self, file: str, sql: str) -> list:
        with contextlib.closing(sqlite3.connect(self.room / file)) as connection:
            return connection.execute(sql).fetchall()

    def check_many(self) -> None:
        """Machines with one code, and machines without facts."""
        first, second = VERSIONS.values()
        other = {"dmar.dat": table(b"DMAR", b"\7\7", b"BOARD"), "more.dat": table(b"MORE", b"", b"BOARD")}
        sets = {"rack/a": first, "rack/b": {**first, **other}, "second": second, "none": {"notes": b"no table"}}
        # The texts and errors of these, as docs/many.md has them
        for name, files in sets.items():
            outcome = run_folder(written(self.room / "sets" / name, files), Options())
            written(self.room / "texts" / name, {"text": outcome.out.encode(), "errors": outcome.err.encode()})
        lines = (self.room / "texts/second/text").read_bytes().splitlines(keepends=True)
        written(self.room / "texts/cut", {"text": b"".join(lines[:20])})
        said = '2 of 5 machines without facts; the last, none: refused: table "notes": Short; '
        said += "all: SELECT name, fault FROM machine WHERE fault IS NOT NULL"
        lost = "2 dumps aren't in 'sets', or have other lengths: no sum stands for them\nacpidis-facts: "
        self.refuses("many machines", ["facts.py", "--jobs", 2, "--dumps", "sets", "texts", "facts"], lost + said, 3, "")
        (self.room / "longer").mkdir()
        (self.room / "longer/dmar.dat").write_bytes(table(b"DMAR", b"\7\7\7", b"BOARD"))
        made = self.run("facts.py", "--json", "--dumps", "longer", "texts/rack/b/text")
        self.is_so("a dump of another length", "dump_sum" not in made.out and " dumps aren't in 'longer'" in made.err)
        sql = "SELECT dump_sum FROM acpi_table WHERE signature = 'DMAR' AND dump_sum IS NOT NULL"
        wanted = {hashlib.sha256(files["dmar.dat"]).hexdigest() for files in list(sets.values())[:3]}
        self.is_same("the sums of dumps", {row[0] for row in self.rows("facts", sql)}, wanted)
        counts = {name: len(self.rows("facts", f"SELECT id FROM {name}")) for name in COLUMNS}
        made = self.run("facts.py", "--json", "--dumps", "sets", "texts").out
        lines = [json.loads(line) for line in made.splitlines()]
        self.is_same("lines of JSON", {name: sum(line["fact"] == name for line in lines) for name in COLUMNS}, counts)
        written(self.room / "odd/a\x1b[2J\nb", {"text": b"", "errors": b"acpidis: \x1b[2J\r"})
        ran = self.run("facts.py", "odd", "odd.facts")
        shown = (ran.status, r"the last, a\x1B[2J\x0Ab: refused: \x1B[2J\x0D" in ran.err, ran.err.count("\n"), "\x1b" in ran.err)
        self.is_same("control characters", shown, (3, True, 1, False))
        files = dict.fromkeys(("one", "two"), (self.room / "texts/rack/a/text").read_bytes())
        written(self.room / "flat", {**files, ".hidden": b"\0"})
        self.run("facts.py", "flat", "flat.facts")
        names = {(line["id"], line["path"]) for line in lines if line["fact"] == "name"}
        self.is_same("their names", names, set(self.rows("facts", "SELECT id, path FROM name")))

    def check_progress(self) -> None:
        """A line on a terminal alone, and from two seconds on."""
        for is_terminal, after, wanted in ((True, 0, "\rmachine 1\r\x1b[K"), (True, 2, ""), (False, 0, "")):
            stream = io.StringIO()
            stream.isatty = lambda is_terminal=is_terminal: is_terminal
            with contextlib.redirect_stderr(stream):
                progress = command.Progress("machine")
                progress.next += after - progress.AFTER
                progress.step()
                progress.step()
                progress.end()
            self.is_same("progress", stream.getvalue(), wanted)

    def check_fleet(self) -> None:
        """A machine that can't be read takes no other's facts with it."""
        good = (self.room / "texts/rack/a/text").read_bytes()
        texts = {f"good{number:02d}": good.replace(b", 0x80)", b", 0x%02X)" % number) for number in range(12)}
        texts |= {name: good.replace(b"_INI", name[:4].encode()) + f"{name}\n".encode() for name in ("ENDED", "LARGE")}
        texts |= {"odd\udcff": good, "long": b"\n" * 1_000_001}
        for name, text in texts.items():
            written(self.room / "fleet" / name, {"text": text})
        (self.room / "fleet/pipe").mkdir()
        os.mkfifo(self.room / "fleet/pipe/text")
        words = [sys.executable, "-c", ENDS, f"{TOP}/examples:{TOP}/tests", "--jobs", "2", "fleet", "fleet.facts"]
        found = ended(*words, cwd=self.room, timeout=60)
        self.is_same(f"the status of a fleet: {found.err}", (found.status, found.err.count("\n")), (3, 1))
        wanted = {
            "ENDED": "the process that read it was ended", "LARGE": "there is not enough memory to read it",
            "pipe": "cannot read fleet/pipe/text: it is a pipe, which may never end",
            "long": "it has more than 1,000,000 lines",
        }
        machines = dict(self.rows("fleet.facts", "SELECT name, fault FROM machine ORDER BY name"))
        self.is_same("those without facts", {name: fault for name, fault in machines.items() if fault}, wanted)
        names = [f"good{number:02d}" for number in range(12)] + ["odd\\xFF"]
        self.is_same("those with facts", [name for name, fault in machines.items() if fault is None], names)

    def check_end(self) -> None:
        """A signal ends the processes too, at once, and no part of the facts is left."""
        for count in range(8):
            lines = [f"Method (AAAA, {count}, NotSerialized, 0) {{", *["  Store (Add (Arg0, 0x01, ), Local0)"] * 100_000, "}"]
            written(self.room / f"ended/{count}", {"text": text_of([f"\\AAAA Method {count}"], lines).encode()})
        words = [sys.executable, TOP / "examples/facts.py", "--jobs", "2", "ended", "ended.facts"]
        for number, status in ((signal.SIGTERM, 143), (signal.SIGINT, 2)):
            with subprocess.Popen(words, cwd=self.room, stderr=subprocess.PIPE, start_new_session=True) as script:
                while not any(it.startswith(".part") for it in os.listdir(self.room)):
                    time.sleep(0.01)
                time.sleep(1)
                before = time.monotonic()
                script.send_signal(number)
                said = script.communicate()
            left = [it for it in os.listdir(self.room) if it.startswith((".part", "ended."))]
            with contextlib.suppress(ProcessLookupError):
                os.killpg(script.pid, 0)
                left.append("a process")
            self.is_same(f"what ends by {number}: {said}", (script.returncode, left), (status, []))
            self.is_so("it ends at once", time.monotonic() - before < 3)

    def check_dumps(self) -> None:
        """A dump that several lines name is read once."""
        text, dumps = self.text("again", head_of("d", "SSDT") * 3 + "Namespace 0\n"), written(self.room / "again.d", {"d": b""})
        read, real = [], facts_script.file_of
        facts_script.file_of = lambda *words: read.append(words) or real(*words)
        facts_script.Machine("again", text, None, dumps)
        facts_script.file_of = real
        self.is_same("a dump of three lines", len(read), 1)

    def check_asking(self) -> None:
        """What ask.py takes for no facts, and for no question."""
        self.rows("a.facts", "CREATE TABLE machine (name TEXT)")
        for words, said in {
            ("/dev/null", "select 1"): "no such table: machine", ("again", "select 1"): "file is not a database",
            ("a.facts", "ATTACH 'b.facts' AS b"): "not authorized",
            ("a.facts", "VACUUM INTO 'b.facts'"): "authorization denied",
        }.items():
            self.refuses(f"ask.py {words}", ["ask.py", *words], said)
        self.is_so("nothing is written", not (self.room / "b.facts").exists())

    def check_questions(self) -> None:
        """The questions of tests/facts.txt, each with a row of its answer a line."""
        self.run("facts.py", TOP / "tests/records.text", "records.facts")
        for name in ("wired", "pci", "ports"):
            outcome = run_folder(written(self.room / name, tables(*SETS[name])), Options())
            self.run("facts.py", self.text(f"{name}.text", outcome.out), f"{name}.facts")
        for head, rows in parts_in("facts.txt")[1:]:
            (name, _, file), lines = head.rpartition(": "), rows.split("\n")
            wanted = [ast.literal_eval(line) for line in lines if line.startswith("(")]
            sql = " ".join(line for line in lines if not line.startswith("("))
            sql = QUESTIONS[int(sql) - 1].replace("EmbeddedControl", "SystemIO") if sql.isdigit() else sql
            found = self.rows(file, sql)
            self.is_same(name, found, wanted)

    def check_words(self) -> None:
        """What the command line refuses. Files without facts stay, and facts where a run fails."""
        text, notes, out, other = files = "texts/rack/a/text", "sets/none/notes", "out", "other"
        (self.room / out).write_bytes((self.room / "facts").read_bytes())
        self.rows(other, "CREATE TABLE machine (name TEXT)")
        kept = {file: (self.room / file).read_bytes() for file in files}
        for words in ([text], ["--json", text, out], ["--jobs", "0", text, out], ["--dumps", "none", text, out], []):
            self.is_same(f"status of {words}", self.run("facts.py", *words).status, 2)
        others = [notes, out], ["--errors", text, text, out], [notes, "new"]
        taken = ["nowhere", out], *([text, file] for file in (text, notes, other, ".", "/dev/full/facts"))
        for status, words in [*((1, words) for words in others), *((2, words) for words in taken)]:
            found = self.run("facts.py", *words)
            self.is_same(f"{words}: {found.err}", (found.status, found.err.count("\n")), (status, 1))
        self.is_same("what stays", {file: (self.room / file).read_bytes() for file in files}, kept)
        self.is_same("no part is left", [it for it in os.listdir(self.room) if ".part" in it or it == "new"], [])
        self.is_same("one that isn't there", self.run("facts.py", "nowhere", out).err.count("nowhere"), 1)
        status, is_kept = self.run("facts.py", text, out).status, (self.room / out).read_bytes() == kept[out]
        self.is_same("facts in place of facts", (status, is_kept), (0, False))
        written(self.room / "listed/none/dumps", {"dsdt.dat": b"DSDT"})
        said = "no listing is in 'listed/none': a file `text` is one, in a folder of each machine"
        self.refuses("a folder without a listing", ["facts.py", "listed/none", "none"], said)
        self.fills_disk("facts.py", "--json", text)
        lines = [line for line in (TOP / "docs/facts.md").read_text().splitlines() if line.partition(" ")[0] in COLUMNS]
        self.is_same("the columns of docs/facts.md", lines, list(columns_text()))


def main() -> None:
    words = asked(__doc__, sets=40, folders=())
    with Checks() as checks:
        for sample in samples(checks.room, words.folders, words.sets):
            checks.compare(*sample)
        checks.room /= "many"
        checks.room.mkdir()
        checks.check_all()


main()
