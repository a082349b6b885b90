#!/usr/bin/env python3
"""Tries examples/missing.py, calls.py and refused.py on sets made here.

    python3 tests/examples.py [--stop]

They run the program as they find it: ACPIDIS names another."""

import functools
import itertools
import os
import re
import resource
import shlex
import sys

from tally import TOP, Tally, asked, ended, executable, parts_in, timed, written
from made_aml import SETS, device, method, table, tables

GIVEN = "\\PCIU 0\n\\_SB_.PCIU 0\n\\_SB_.PCID 0\n"
BAD_NAME = "a\" {\n      Raw {5A}\n$(touch bad)`touch bad`.dat"


class Tries(Tally):
    def folder(self, name, code, file="dsdt.dat"):
        written(self.room / name, {file: table(b"DSDT", code)})
        return name

    def fake(self, name, text):
        """A program in place of acpidis."""
        return str(executable(self.room / name, f"#!/bin/sh\n{text}\n"))

    def run(self, script, *words, **variables):
        return super().run(script, *words, env={**os.environ, **variables})

    def row(self, name, run, status, out, said=(), is_whole=True):
        """This status and standard output, or these lines of it, and these lines among those of standard error."""
        missing = [line for line in said if line not in run.err.splitlines()]
        missing += [] if is_whole else [line for line in out.splitlines() if line not in run.out.splitlines()]
        printed = f"{run.out}{run.err}wanted\n{out}{missing}"
        is_right = run.status == status and (run.out == out or not is_whole) and not missing
        self.is_so(f"{name}: status {run.status}, not {status}\n{printed}", is_right)

    def make_sets(self):
        for name, codes in SETS.items():
            written(self.room / name, tables(*codes))
        written(self.room / "noted", {**tables(*SETS["twice"]), "notes.txt": b"no table"})
        written(self.room / "packed", {"dsdt.dat": b"\x1f\x8b\x08\0" + b"a.packed.table" * 9})
        written(self.room / "above/twice", tables(*SETS["twice"]))
        (self.room / "linked").mkdir()
        (self.room / "linked/dsdt.dat").symlink_to("../twice/dsdt.dat")
        written(self.room / "misnamed", {"DSD\udce9": b""})
        self.folder("odd", *SETS["branch"], BAD_NAME)
        self.folder("$(touch bad)", *SETS["ejects"], BAD_NAME)
        self.folder("text", b'\x08TEXT\x0d"\n      Raw {5A}\nMethod (AAAA, 7, \0' + SETS["ejects"][0])
        (self.room / "given").write_text(GIVEN)

    def check_rows(self):
        for name, rest in parts_in("examples.txt")[1:]:
            if name.startswith("fake "):
                self.fake(name.removeprefix("fake "), rest)
                continue
            command, *lines, ending = rest.split("\n")
            words = shlex.split(command)[1:]
            variables = {"ACPIDIS": str(self.room / words.pop(0).partition("=")[2])} if "=" in words[0] else {}
            file = words.pop()[1:] if words[-1].startswith(">") else None
            run = self.run(*words, **variables)
            said = [line.removeprefix("2> ") for line in lines if line.startswith("2> ")]
            out = "".join(f"{line}\n" for line in lines if not line.startswith("2> "))
            _, status, *more = ending.split()
            self.row(name, run, int(status), out, said, not more)
            if file:
                (self.room / file).write_text(run.out)
        self.is_so("nothing is executed", not list(self.room.glob("**/bad")))

    def check_many_missing(self):
        """Names in bodies of their own are tried together, in as many runs as one; of one body they end with a word."""
        names = [b"X%03d" % number for number in range(300)]
        many = b"".join(method(b"M" + name[1:], 0, b"\xa4" + name) for name in names)
        launched, calls = ended(TOP / "acpidis", "--program").out.rstrip("\n"), self.room / "calls"
        program = os.environ.get("ACPIDIS") or launched
        counting = self.fake("counting", f"echo run >>'{calls}'\nexec '{program}' \"$@\"\n")
        found = self.run("missing.py", "--try", self.folder("many", many), ACPIDIS=counting)
        wanted = "".join(f"\\{name.decode()} 0\n" for name in names)
        self.row("300 names", found, 0, wanted, ["# \\X299: 1 body waits, the first \\M299 at 1"])
        self.is_so("few runs", len(calls.read_text().splitlines()) < 30)
        pair = method(b"MAIN", 0, b"\x72AAAA\\BBBB\1\x60") + method(b"NEXT", 0, b"\x70BBBB\x0a\1\x5b\x31")
        found = self.run("missing.py", self.folder("pair", pair))
        self.row("two names of one body", found, 0, "\\AAAA ?\n\\BBBB ?\n", ["#   with 0: 1 reads"])

    def check_options(self):
        """Options that a program's help has are passed on, whatever they are, and others are refused."""
        said, fake = self.room / "said", str(self.room / "later")
        for script, line in {"calls.py": "", "missing.py": "", "refused.py": "the set isn't refused\n"}.items():
            said.write_text("")
            found = self.run(script, "--from", "a file", "rounds", "--later", "--from=--later", ACPIDIS=fake)
            self.row(f"{script}: options", found, 0, line)
            passed = said.read_text()
            self.is_so(f"{script}: words of options\n{passed}", passed.startswith("--from\n--later\n--later\n"))
            for option in ("--check", "--version", "--other", "--froma", "--later=1"):
                found = self.run(script, option, "rounds", ACPIDIS=fake)
                self.is_so(f"{script}: {option}", found.status == 2 and not found.out)
            self.is_so(f"{script}: no run with them", said.read_text() == passed)

    def check_old_python(self):
        """Each script says which Python it needs to one that is older."""
        old = "import runpy, sys; sys.version_info = 3, 8; del sys.argv[0]; runpy.run_path(sys.argv[0])"
        for script in sorted((TOP / "examples").glob("*.py")):
            run = ended(sys.executable, "-c", old, script, cwd=script.parent)
            self.row(script.name, run, 1, "", [f"acpidis-{script.stem} needs Python 3.9, this is 3.8"])

    def check_damage(self):
        """No table is so damaged that there is no answer."""
        found = self.run("refused.py", "returns").out
        is_so = "`--any-run`" not in found and "A Return outside the methods" in found
        self.is_so("a Return, which the option doesn't take", is_so)
        (self.room / "noted/notes.txt").write_text("DSDT @ 0x0000000000000000\n    0000: 44 53 44 54 24 00 00 00\n")
        found = self.run("refused.py", "noted")
        self.is_so("the text of acpidump", "Way on: `acpidis-unpack FILE FOLDER`" in found.out and not found.err)
        self.fills_disk("refused.py", "twice")
        (self.room / "long.map").write_bytes(bytes(2_000_000))
        (self.room / "twice/tables.map").symlink_to("../long.map")
        found = super().run("refused.py", "twice", preexec_fn=lambda: resource.setrlimit(resource.RLIMIT_FSIZE, (10**6, 10**6)))
        self.is_so("a map that is a link", "Way on: " in found.out and not found.err)
        (self.room / "twice/tables.map").unlink()
        end, closed = os.pipe()
        os.close(end)
        found = super().run("missing.py", "ejects", stdout=closed)
        is_quiet = found.status == 2 and "missing:" not in found.err and "Errno" not in found.err
        self.is_so(f"missing.py, a closed pipe: {found.status}, {found.err}", is_quiet)
        self.folder("damaged", *SETS["branch"])
        data, file = table(b"DSDT", SETS["branch"][0] + b"\x5b\x80REG0\0"), self.room / "damaged/dsdt.dat"
        for at, byte in itertools.product(range(36, 86, 7), (0x00, 0x5B, 0xFF)):
            file.write_bytes(data[:at] + bytes([byte]) + data[at + 1 :])
            found = self.run("refused.py", "--any-sum", "damaged")
            self.is_so("a damaged table", found.status in (0, 1) and not found.err)

    def check_deep(self):
        """Paths of many segments, and many names below them: an answer in time, or a line why not."""
        deep = b"\\\x2f\xff" + b"".join(b"S%03d" % level for level in range(255))
        longs = b"".join(b"\x08" + deep[:-4] + b"X%03d\0" % number for number in range(60))
        # Devices in each other, around a Name
        nested = functools.reduce(lambda code, level: device(b"S%03d" % level, code), range(480), b"\x08DUPE\0")
        self.folder("nested", nested * 2)
        self.folder("long", longs + b"\x08" + deep[:-4] + b"X000\0")
        self.folder("below", method(deep, 0, b"\x70XXXX\x60" * 300))
        for folder in ("nested", "long", "below"):
            for command in ("refused.py", "refused.py --any-run", "calls.py --any-run", "missing.py --any-run"):
                script, *words = command.split()
                run, seconds = timed(self.run, script, *words, folder, most=2)
                is_said = run.status in (0, 1, 2) and "Traceback" not in run.err and run.err.count("\n") < 50
                self.is_so(f"{script}, {folder}: {run.status}, {run.err[-300:]}", is_said)
                self.is_so(f"{script}, {folder}: {seconds} seconds", seconds < 2)
        said = "acpidis-missing: line [0-9]+: a scope of more than 64 segments.*\n"
        self.is_so("the line of a deep scope", re.fullmatch(said, self.run("missing.py", "--any-run", "nested").err))


def main():
    with Tries(asked(__doc__, stop=False).stop) as tries:
        tries.make_sets()
        tries.check_all()


main()
