#!/usr/bin/env python3
"""Gives the scripts of examples/ texts that no run prints: each has to take it in time, or say in a line why not.

    python3 tests/hostile.py [--mutations N]

First come texts that are written down here, for page.py, facts.py, asl.py, calls.py and missing.py, each with at most
2 seconds of processor time and 1 GB of memory; then files of errors that are others, outputs that take nothing or a
part, and pipes; then damaged listings for page.py, facts.py and asl.py: nothing but a word may come of them."""

import os
import pathlib
import random
import re
import resource
import subprocess

from tally import TOP, Tally, asked, executable, module_of, parts_in, tables_in, timed, written
from acpidis_tools.asl.blocks import Reader
from acpidis_tools.asl.names import said_by
from acpidis_tools.errors import read_errors
from acpidis_tools.listing import NoListing
from acpidis_tools.page.markup import page
from dumps import dumps_of
from made_aml import VERSIONS, segment, table
from running import Options, run as run_dumps
from acpidis_tools.page.sheet import Sheet
from telling import HOSTILE_FILES, PAGES_FILES, RUNS_FILES

facts_script = module_of("facts_script", TOP / "examples/facts.py")
SECONDS, MOST_MEMORY = 2, 1_000_000_000
SAMPLES = {"pages": PAGES_FILES, "hostile": HOSTILE_FILES, "runs": RUNS_FILES, **VERSIONS}


def head_of(file: str, signature: str, revision: int = 2, length: int = 67) -> str:
    names = f'Table "{file}" "{signature}" Length {length} Revision {revision} Oem "TEST  " "EXAMPLE "'
    return f'{names} 00000001 Creator "TEST" 00000001\n'


def text_of(rows: list, lines: list, file: str = "d", **more: int) -> str:
    """A listing with these rows, and with these lines in its one definition block."""
    shown, inside = ("".join(f"  {it}\n" for it in some) for some in (rows, lines))
    block = f'DefinitionBlock ("{file}") {{\n{inside}}}\n'
    return f"{head_of(file, 'DSDT', **more)}Namespace {len(rows)}\n{shown}{block}"


def repeated(form: re.Match) -> str:
    """So many of a text, each with its number."""
    return "".join(form[1].replace("###", f"{number % 1000:03d}") for number in range(int(form[2]))).replace("|", "\n")


def nested(heads: list) -> list:
    """Lines that open blocks, each in the one before."""
    opened = [f"{'  ' * number}{head} {{" for number, head in enumerate(heads)]
    return opened + ["  " * number + "}" for number in reversed(range(len(heads)))]


NAMES = [segment(number).decode() for number in range(4000)]
ROWS = [f"\\{'.'.join(NAMES[:number])} Device" for number in range(1, 201)]
PAIRS = list(zip(NAMES, NAMES[1:]))
CHAIN = ["Method (AAAA, 0, NotSerialized, 0) {", "}", *map("Alias ({0[0]}, {0[1]})".format, PAIRS)]
TEXTS = {
    "200 scopes in each other": text_of(ROWS, nested(list(map("Device ({})".format, NAMES[:200])))),
    "600 Names in each other":
        text_of(list(map("\\{} Name".format, NAMES[:600])), nested(list(map("Name ({}, One)".format, NAMES[:600])))),
    "a chain of Aliases": text_of(
        ["\\AAAA Method 0", *map("\\{0[1]} Alias \\{0[0]}".format, PAIRS)], CHAIN + list(map("{} (One)".format, NAMES))
    ),
}  # fmt: skip
for what, lines in parts_in("hostile.txt")[1:]:
    lines = re.sub(r"<(.*?)\*(\d+)>", repeated, lines).split("\n")
    rows = [line for line in lines if line.startswith("\\")]
    TEXTS[what] = text_of(rows, lines[len(rows) :])
# What is for the scripts too that look for names alone.
LOOKED_FOR = re.compile("names|scopes|calls|brackets|segments|Raw|digits")


def mutated(lines: list, dice: random.Random) -> str:
    lines = lines.copy() or [""]
    for _ in range(dice.randint(1, 3)):
        at, kind = dice.randrange(len(lines)), dice.randrange(6)
        if kind == 0:
            del lines[at]
        elif kind == 1:
            lines.insert(at, dice.choice(lines))
        elif kind == 2:
            lines[at] = dice.choice(lines)
        elif kind == 3:
            words = re.split(r"(\W)", lines[at])
            words[dice.randrange(len(words))] = dice.choice(re.split(r"(\W)", dice.choice(lines)))
            lines[at] = "".join(words)
        else:
            place = dice.randrange(len(lines[at]) + 1)
            new, gone = (dice.choice([*'(){}\\^",.0AZ_a ', "{,", " {"]), 0) if kind == 4 else ("", dice.randint(1, 4))
            lines[at] = lines[at][:place] + new + lines[at][place + gone:]
        if not lines:
            return ""
    return "\n".join(lines) + "\n"


def make_page(text: bytes, errors: bytes, is_packed: bool) -> str:
    sheet = Sheet(text)
    sheet.is_packed, sheet.faults = is_packed, read_errors(errors, sheet.listing) if errors else {}
    return page(sheet)


def make_asl(text: pathlib.Path) -> None:
    reader = Reader(text, True)
    [block.text(reader.rows, said_by(reader.blocks)) for block in reader.blocks]


class Checks(Tally):
    def bounded(self, script: str, *words: object, printed: int = subprocess.DEVNULL, **variables: str) -> tuple:
        """The status, standard error and the seconds of processor time of a script."""
        bound = lambda: resource.setrlimit(resource.RLIMIT_AS, (MOST_MEMORY, MOST_MEMORY))
        how = {"stdout": printed, "env": {**os.environ, **variables}, "preexec_fn": bound}
        done, seconds = timed(self.run, script, *words, most=SECONDS, **how)
        return done.status, done.err, seconds

    def check_texts(self) -> None:
        fake = executable(self.room / "acpidis", f"#!/bin/sh\nexec cat '{self.room}/text'\n")
        spoken = set()
        for what, text in TEXTS.items():
            self.text("text", text)
            trials = ["page.py text", "facts.py --jobs 1 text facts", "asl.py --edit text asl"]
            trials += ["calls.py .", "missing.py ."] if LOOKED_FOR.search(what) else []
            trials += ["asl.py --method AAAA text asl"] if "methods" in what else []
            for script, *words in map(str.split, trials):
                name = script.removesuffix(".py")
                with open(self.room / "printed", "w+b") as printed:
                    status, said, seconds = self.bounded(script, *words, printed=printed.fileno(), ACPIDIS=str(fake))
                    spoken.update([script] if printed.tell() or (self.room / name).exists() else [])
                # It took its text, or said in a line why not.
                is_good = status in (0, 3) or status in (1, 2) and re.fullmatch(f"acpidis-{name}: (?!.*fails).{{,480}}\n", said)
                self.is_so(f"{script}, {what}: status {status}, {said[:500]}", is_good)
                self.is_so(f"{script}, {what}: {seconds:.1f} seconds", seconds < SECONDS)
        for script in ("page.py", "facts.py", "asl.py"):
            self.is_so(f"{script} tells of none of the texts", script in spoken)

    def check_outputs(self) -> None:
        """Files of errors that are others, and outputs that take nothing."""
        body = ["Method (\\AAAA, 0, NotSerialized, 0) {", "  Raw {A4, 5A, 5A, 5A, 5A}", "}"]
        self.text("text", text_of(["\\AAAA Method 0"], body))
        lines = {
            "of another set": "acpidis: body \\BBBB: UnknownName at 0\n", "of another tool": "a line\n" * 9,
            "twice": "acpidis: body \\AAAA: UnknownName at 1\n" * 2, "changed": "acpidis: body \\AAAA: \n",
            "empty": "", "large": "x" * 300_000_000,
        }
        for what, said_there in lines.items():
            self.text("errors", said_there)
            status, said, _ = self.bounded("page.py", "--errors", "errors", "text")
            self.is_so(f"page.py, errors {what}: {status}, {said}", status == 1 and "errors" in said)
            status, said, _ = self.bounded("facts.py", "--errors", "errors", "text", "facts")
            self.is_same(f"facts.py, errors {what}: {said}", status, int(bool(said_there)))
        self.fills_disk("page.py", "text")
        self.fills_disk("facts.py", "--json", "text")
        for script in sorted(file.name for file in TOP.glob("examples/*.py")):
            words, said = [script, "--help"], "cannot write: Bad file descriptor"
            how = {"stdout": None, "preexec_fn": lambda: os.close(1)}
            self.refuses(f"{script}, a closed output", words, said, 2, **how)

    def check_files(self) -> None:
        """The rows of tests/outputs.txt. Unbuffered, a write of a part must not pass for one of the whole."""
        files = {"dump": table(b"DSDT", b"\x08NAM1\x0D" + b"x" * 9000 + b"\0\x08NAM2\1")}
        room, text = written(self.room / "files", files), text_of([], ["Noop"] * 1000)
        self.text("files/text", text)
        os.mkfifo(room / "fifo")
        bound = lambda: resource.setrlimit(resource.RLIMIT_FSIZE, (4096, 4096))
        for row, said in (line.split("  # ") for line in tables_in("outputs.txt")[0]):
            with open(room / "printed", "wb") as printed:
                how = {"stdout": printed, "cwd": room, "env": {**os.environ, "PYTHONUNBUFFERED": "1"}}
                self.refuses(row, row.split(), said, 2, timeout=20, preexec_fn=bound, **how)
        for place in ("/dev/stdin", "/proc/self/fd/0", "-"):
            words, said = ["show.py", place, "AAAA"], f"{place!r} declares no such path"
            self.refuses(f"a pipe as {place}", words, said, input=text)
        self.is_same("what is left of the parts", sorted(os.listdir(room)), ["dump", "fifo", "new", "printed", "text"])

    def mutate(self, count: int) -> None:
        """Damaged listings are read, or are no listings."""
        outcomes = [run_dumps(dumps_of(files), Options(any_run=True)) for files in SAMPLES.values()]
        dice, refused = random.Random(0), 0
        for number in range(count):
            outcome = outcomes[number % len(outcomes)]
            text = mutated(outcome.out.splitlines(), dice)
            errors = mutated(outcome.err.splitlines(), dice).encode("ascii", "replace")
            data, file = text.encode("ascii", "replace"), self.text("mutated", text)
            for make, *words in (
                (facts_script.facts_of, data, errors), (make_page, data, errors, number % 3 == 0), (make_asl, file)
            ):
                fault = None
                try:
                    make(*words)
                except NoListing:
                    refused += make is make_asl
                except Exception as caught:  # whatever it is, it fails the check
                    fault = repr(caught)
                self.is_so(f"mutation {number}, {make.__name__}: {fault}\n{text}", not fault)
        self.is_so(f"{refused} of {count} are no listings", count / 25 < refused < 24 * count / 25)


def main() -> None:
    count = asked(__doc__, mutations=500).mutations
    with Checks() as checks:
        checks.check_all()
        checks.mutate(count)


if __name__ == "__main__":
    main()
