#!/usr/bin/env python3
"""Runs made-up tables in every way, and compares what stands then with what acpidis --any-run tells of them.

    python3 tests/oracle/terms_agree.py [--counts N] [--seed N] [--read]

All runs of a few terms are made here, as an interpreter would run them: a declaration is passed over, with all that
stands inside, where its path is there already, or the path above it isn't; an Alias too where its source isn't; a
Scope where its path isn't, or is of another kind than a scope's, but one of a Name may run; and of a block the first
terms run, up to all, or none.

Behind the terms stand methods that ask: in the body of each a name, now and then behind a local path, and seven
values, so that the text tells how many of them the name takes. This count it has in each run that finds something for
it. Besides, what a run declares stands in the namespace, and what is no Maybe there stands in each run. What is
counted are the counts of names in runs."""

import functools
import itertools
import random
import re
from collections import namedtuple

from trying import asked, built, end
from compare import laid, run_program
from namespaces import PREDEFINED, path_text
from runs_agree import found_count, kind_at
from made_aml import method, tables
from made_code import shortest
from made_sets import Trial, table
from made_terms import BLOCKS, DEVICES, RARE_SEGMENTS, SEGMENTS, TermMaker
from made_terms import code_of, root_name, text_of
from printing import row_text
from reading import Name
from running import DONE, RAW, REFUSED, Options, run_folder

SCOPES = {"Scope", *DEVICES}
MOST_RUNS, QUESTIONS = 100, 12
# As many values as a method can take arguments
VALUES = 7
# What the segments of the methods that ask begin with
ASKING = "Q"
LAWFUL_FAULTS = {"ScopeMissing", "AliasMissing", "AboveRoot"}
# It ends after so many sets with something wrong, or so many in which no count is told, one after the other.
MOST_WRONG, MOST_SILENT = 5, 200
ROW = re.compile(r"^  (\\\S*) \w+.*?( Maybe)?(?: Times \d+)?$", re.MULTILINE)
METHOD = re.compile(r"^  Method \((\\\S*), 0, NotSerialized, 0\) \{\n((?:    .*\n)*)  \}$", re.MULTILINE)


# A run has the paths that it declared, with their kinds: that of an Alias has the path at which it aims.
def found(run, scope, name):
    """The first candidate of a name at which a run has something."""
    return next((path for path in name.candidates(scope) if kind_at(run, path)), None)


def behind_all(runs, scope, terms):
    """How runs may be behind some terms, each of which they meet."""
    for term in terms:
        after = (one for run in runs for one in behind(run, scope, term))
        runs = list({frozenset(run.items()): run for run in after}.values())
    return runs


def behind(run, scope, term):
    """How a run may be behind a term."""
    if term.word in BLOCKS:
        runs = ends = [run]
        for inner in term.inside:
            runs = behind_all(runs, scope, [inner])
            ends = ends + runs
        return ends
    if term.word == "Scope":
        path = found(run, scope, term.names[0])
        word = kind_at(run, path)[0] if path is not None else None
        inside = behind_all([run], path, term.inside) if word in {"Name", *SCOPES} else []
        return inside if word in SCOPES else [run, *inside]
    if term.word == "Field":
        return behind_all([run], scope, term.inside)
    path, kind = term.names[-1].placed(scope), kind_of(run, scope, term)
    if path is None or kind is None or path in run or not kind_at(run, path[:-1]):
        return [run]
    return behind_all([{**run, path: kind}], path, term.inside)


def kind_of(run, scope, term):
    """The kind that a run declares by a term, if any."""
    if term.word == "Method":
        return "Method", term.count
    if term.word == "Alias":
        source = found(run, scope, term.names[0])
        kind = None if source is None else kind_at(run, source)
        return kind and ("Alias", kind[1] if kind[0] == "Alias" else source)
    return None if term.word == "External" else (term.word,)


class Question(namedtuple("Question", "method name local")):
    """A method that asks what a name takes, with a local path in front, if there is one."""

    def __str__(self):
        local = f" behind the local {path_text(self.local)}" if self.local else ""
        return f"{self.name} in {path_text(self.method)}{local}"

    def local_code(self):
        return b"\x08" + shortest(root_name(self.local)) + b"\0" if self.local else b""

    def code(self):
        asking = self.local_code() + shortest(self.name) + b"\1" * VALUES
        return method(shortest(root_name(self.method)), 0, asking, width=1)

    def lines(self, count):
        """The lines of the body where the name takes so many arguments."""
        local = [f"Name ({path_text(self.local)}, Zero)"] if self.local else []
        taken = f" ({', '.join(['One'] * count)})" if count else ""
        return [*local, f"{self.name}{taken}", *["One"] * (VALUES - count)]


def questions_of(chance, runs):
    """What is asked of the paths that runs declare, and in them. The methods that ask are no candidates of a name."""
    paths = sorted({path for run in runs for path in run})
    scopes = [(), *paths, *itertools.product(SEGMENTS, SEGMENTS)]
    names = [root_name(path) for path in paths] * 3 + [Name(False, 1, list(path)) for path in paths]
    names += [Name(False, ups, [segment]) for segment in SEGMENTS + RARE_SEGMENTS for ups in range(3)]
    for number in range(QUESTIONS):
        local = chance.choice(paths) if paths and chance.random() < 0.1 else None
        yield Question((*chance.choice(scopes), f"{ASKING}{number:03}"), chance.choice(names), local)


class Wrong(Exception):
    """What is told that can't be."""


class Told:
    """What a text tells: the paths of its namespace, with whether each is sure, and how many arguments names take."""

    def __init__(self, outcome, questions):
        rows = ROW.findall(outcome.out.partition("\nNamespace ")[2].partition("\nDefinitionBlock ")[0])
        rows = {tuple(path[1:].split(".")): not mark for path, mark in rows}
        self.rows = {path: is_sure for path, is_sure in rows.items() if not path[-1].startswith(ASKING)}
        bodies = METHOD.findall(outcome.out)
        self.bodies = {path: [line.strip() for line in lines.splitlines()] for path, lines in bodies}
        self.errors = set(outcome.err.splitlines())
        self.counts = {question.method: self.told(question) for question in questions}

    def told(self, question):
        """How many arguments a name takes, if anybody knows that by the kinds that may stand at its candidates."""
        lines = self.bodies.get(path_text(question.method), [])
        unknown = f"acpidis: body {path_text(question.method)}: UnknownName at {len(question.local_code())}"
        if "".join(lines).startswith("Raw ") and unknown in self.errors:
            return None
        counts = [count for count in range(VALUES + 1) if lines == question.lines(count)]
        if not counts:
            raise Wrong(f"{question}: the body is {lines}")
        declared = {question.local, *self.rows, *PREDEFINED}
        return counts[0] if declared.intersection(question.name.candidates(question.method)) else None

    def compared(self, run, questions):
        """Of each count in a run None where it is told so, else what is wrong; and what is wrong with the rows."""
        for question in questions:
            candidates = question.name.candidates(question.method)
            told, count = self.counts[question.method], found_count(run, candidates, {question.local})
            if told is not None and count is not None:
                yield None if told == count else f"{question} takes {told}, but {count}"
        yield from (f"{path_text(path)} is in no row, but" for path in run if path not in self.rows)
        missing = (path for path, is_sure in self.rows.items() if is_sure and path not in run)
        yield from (f"{path_text(path)} is sure, but not" for path in missing)


def compared(program, chance, terms):
    """Of each count in a run, with that run, None or what is wrong. None in all where there are too many runs."""
    runs = behind_all([{}], (), itertools.chain.from_iterable(terms))
    if len(runs) > MOST_RUNS:
        return None
    questions = list(questions_of(chance, runs))
    files = tables(*map(code_of, terms), code_of(questions), make=functools.partial(table, chance))
    with laid(Trial(files, Options(any_run=True))) as laid_out:
        # The independent reading, where there is no program
        outcome = run_program(program, *laid_out) if program else run_folder(*laid_out)
    fault = outcome.err.strip().rpartition(": ")[2].partition(" ")[0]
    if outcome.status == REFUSED and fault in LAWFUL_FAULTS:
        return []
    if outcome.status not in (DONE, RAW):
        return [(None, f"status {outcome.status}, {outcome.err.strip()}")]
    try:
        told = Told(outcome, questions)
    except Wrong as wrong:
        return [(None, str(wrong))]
    return [(run, it) for run in runs for it in told.compared(run, questions)]


def main():
    words = asked(__doc__, counts=20_000, seed=0, read=False)
    program, maker = None if words.read else built(), TermMaker(random.Random(words.seed))
    passed = failed = sets = silent = 0
    while passed + failed < words.counts and sets < MOST_WRONG and silent < MOST_SILENT:
        tables = maker.tables()
        found = compared(program, maker.chance, tables)
        if found is None:
            continue
        wrong = [(run, it) for run, it in found if it]
        silent = 0 if found else silent + 1
        passed, failed, sets = passed + len(found) - len(wrong), failed + len(wrong), sets + bool(wrong)
        for run, it in wrong[:1]:
            stands = ", ".join(itertools.starmap(row_text, run.items())) or "nothing" if run is not None else ""
            print(f"FAILED {' | '.join(map(text_of, tables))}: {it}" + (f" in the run with {stands}" if stands else ""))
    if silent >= MOST_SILENT:
        failed += 1
        print(f"FAILED {MOST_SILENT} sets one after the other tell no count")
    end(passed, failed)


main()
