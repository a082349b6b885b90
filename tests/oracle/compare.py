#!/usr/bin/env python3
"""Compares what acpidis prints with an independent reading, over folders that are made up near the grammar and then
damaged.

    python3 tests/oracle/compare.py [--sets N] [--seed N] [--with-externals] [--any-run] [--workers N,N..] [--deep]
        [--mutated] [--read] [FOLDER ..]

Standard output, standard error and the status are compared whole; besides, a run may take 10 seconds of processor
time, a minute in all, and 2 GB. A FOLDER is compared as it stands, and then damaged copies of it. The first sets that
differ are kept. With --with-externals most made-up sets come with a file for the option --externals, and with
--any-run with code outside methods and this option, which FOLDERs are run with too. With --deep the terms of a third
of the made-up sets stand in a deep scope. With --mutated each set has one to four changes more. With --workers each is
run by each of these numbers of workers. With --read it is only said how the sets end."""

import collections
import contextlib
import os
import pathlib
import random
import re
import resource
import shutil
import subprocess
import tempfile

from trying import Outcome, asked, built, first_difference, new_room, run, written
from dumps import file_names
from made_sets import SetMaker
from mutating import MutatedMaker
from running import DONE, REFUSED, Options, run_folder
from tally import Tally

FOLDER, EXTERNALS = "set", "externals.txt"
MARK = re.compile(r"(?<= )(Maybe|Times)(?= [0-9]+$|$| Times [0-9]+$)", re.MULTILINE)
LONGEST_RUN, MOST_SECONDS = 60, 10
MOST_MEMORY, MEMORY_STOP = 2 << 30, 6 << 30
MOST_DIFFERENCES = 5


def measured_run(program, folder, options):
    """What the program does, and what it takes that is too much."""
    limit = lambda: resource.setrlimit(resource.RLIMIT_AS, (MEMORY_STOP, MEMORY_STOP))
    with tempfile.TemporaryFile() as out, tempfile.TemporaryFile() as err:
        how = {"stdout": out, "stderr": err, "stdin": subprocess.DEVNULL, "preexec_fn": limit}
        took = run([program, *options.words(), folder], LONGEST_RUN, **how)
        texts = [os.pread(file.fileno(), os.fstat(file.fileno()).st_size, 0).decode("latin-1") for file in (out, err)]
    much = [f"{took.processor:.1f} s of a processor"] * (took.processor > MOST_SECONDS)
    much += [f"{took.peak / 1e6:.0f} MB"] * (took.peak > MOST_MEMORY)
    return Outcome(took.status, *texts), ", ".join(much)


def run_program(program, folder, options):
    return measured_run(program, folder, options)[0]


def difference_of(got, wanted):
    """Which line two outcomes differ in first, of status, errors and text; None where they are the same."""
    status = lambda it: f"status {it.status} {it.err.partition(chr(10))[0]}".strip()
    return first_difference(*([status(it), *it.err.split("\n"), *it.out.split("\n")] for it in (got, wanted)))


class Comparison(Tally):
    """Compares folders, and counts what they have and how they end, so that a reader sees what was compared."""

    def __init__(self, program, workers):
        super().__init__()
        self.program, self.workers, self.met = program, workers, collections.Counter()

    def compare(self, folder, options):
        wanted, said = run_folder(folder, options), ""
        self.count(wanted)
        if options.externals is not None and wanted.status != REFUSED:
            self.met["changed by externals"] += wanted != run_folder(folder, options._replace(externals=None))
        runs = [options._replace(workers=it) for it in self.workers or [options.workers]]
        for one in runs if self.program else []:
            got, much = measured_run(self.program, folder, one)
            difference = difference_of(got, wanted) or much
            if difference:
                said = f"acpidis {' '.join(kept_words(folder, one))}: {difference}"
                break
        self.is_so(said, not said)

    def count(self, outcome):
        """Counts sets by their ends, and what is listed of them: methods, bodies, and paths with marks."""
        if outcome.status == REFUSED:
            self.met[f"refused for {outcome.err.rsplit(': ', 1)[-1].split()[0]}"] += 1
        else:
            self.met["accepted" if outcome.status == DONE else "with raw bodies"] += 1
            self.met.update({"methods": outcome.out.count("  Method ("), "bodies raw": outcome.err.count("\n")})
            self.met.update(MARK.findall(outcome.out))


def kept_words(folder, options):
    """Copies what a run reads, and gives the words of the run over the copies."""
    room = pathlib.Path(tempfile.mkdtemp())
    kept = shutil.copytree(folder, room / FOLDER)
    if options.externals is not None and os.path.exists(options.externals):
        options = options._replace(externals=str(shutil.copy(options.externals, room / EXTERNALS)))
    return [*options.words(), str(kept)]


@contextlib.contextmanager
def laid(trial):
    """The folder of what a trial reads, as long as it is wanted, and the options of its run."""
    with new_room() as room:
        folder, options = written(room / FOLDER, trial.files), trial.options
        if trial.externals is not None:
            (room / EXTERNALS).write_bytes(trial.externals)
            options = options._replace(externals=str(room / EXTERNALS))
        yield folder, options


def main():
    words = asked(
        __doc__, sets=1000, seed=0, with_externals=False, any_run=False, deep=False, mutated=False, read=False,
        workers="", folders=(),
    )  # fmt: skip
    workers = [int(it) for it in words.workers.split(",")] if words.workers else None
    comparison = Comparison(None if words.read else built(), workers)
    for folder in words.folders:
        comparison.compare(folder, Options(any_run=words.any_run))
        comparison.compare(folder, Options(any_run=words.any_run, check=True))
    known = [{name: (folder / name).read_bytes() for name in file_names(folder)} for folder in words.folders]
    make = MutatedMaker if words.mutated else SetMaker
    maker = make(random.Random(words.seed), known, words.with_externals, words.any_run, words.deep)
    for _ in range(words.sets):
        if comparison.failed < MOST_DIFFERENCES:
            with laid(maker.trial()) as laid_out:
                comparison.compare(*laid_out)
    print(f"seed {words.seed}:", ", ".join(f"{count} {what}" for what, count in comparison.met.most_common()))
    comparison.end()


if __name__ == "__main__":
    main()
