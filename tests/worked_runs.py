#!/usr/bin/env python3
"""Runs acpidis over the sets of the files RUNS, and compares status, text and error lines with those below each run.

    python3 tests/worked_runs.py [--read] [PROGRAM]

The rows are in the language of crates/acpi_cases (README.md there). A row `run` is a run over the dumps of the rows
before it, from the last `set` on, in a folder of their own; below it, two columns in, stand its status, its text and
its error lines. Each of them is also what the independent reading of tests/oracle says; with --read that alone."""

import itertools

from tally import PROGRAM, TOP, Tally, asked, first_difference
from cases import Rows
from compare import laid, run_program
from dumps import MAP_NAME
from made_sets import Trial
from namespaces import path_text

RUNS = ["worked_runs.txt", "worked_runs_any_run.txt"]
MARGIN = "  "


class ProgramRows(Rows):
    def __init__(self, program):
        super().__init__()
        self.program = program

    def run(self, options):
        counts = "".join(f"{path_text(path)} {count}\n" for path, count in self.given).encode()
        places = "".join(f"{it.address:016X} {it.name}\n" for it in self.dumps if it.address is not None)
        files = {it.name: it.data for it in self.dumps} | ({MAP_NAME: places.encode()} if places else {})
        with laid(Trial(files, options, counts or None)) as laid_out:
            return run_program(self.program, *laid_out)


def examples(file):
    """Each row with its number and the lines below it."""
    found = []
    for number, line in enumerate((TOP / "tests" / file).read_text().splitlines(), 1):
        if line.startswith(MARGIN):
            found[-1][2].append(line.removeprefix(MARGIN))
        else:
            found.append((number, line, []))
    return found


def main():
    words, checks = asked(__doc__, read=False, program=PROGRAM), Tally()
    for file in RUNS:
        rows = examples(file)
        checks.is_so(f"{file} has no examples", any(wanted for *_, wanted in rows))
        readers = {"tests/oracle": Rows()} | ({} if words.read else {"acpidis": ProgramRows(words.program)})
        for (number, row, wanted), (name, reader) in itertools.product(rows, readers.items()):
            got = reader.answer(row)
            if wanted or got:
                other = first_difference(got, wanted)
                checks.is_so(f"{file} line {number}, {row}: {name} differs at {other}", not other)
    checks.end()


main()
