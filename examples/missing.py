#!/usr/bin/env -S python3 -B
"""Names what the bodies of a set wait for: the names that no table declares, each as a line for --externals.

    python3 examples/missing.py [--try] [OPTION..] FOLDER >counts

Standard output has a line for each name, `PATH ?`, where the digit is for you to set. Standard error says of each, in
lines with #, how many bodies wait for it and with which counts from 0 to 7 they read. With --try the name has its line
only where just one count reads, and this count on it, so that the lines are a file for --externals as they stand.

A body shows its first such name alone. So the set is read in rounds, each with the counts that fit best so far, until
no body waits. With --any-run a name outside the methods may be missing too, for which the set is refused as ModuleCall:
it comes first. Each OPTION is one of acpidis, but not --check or --unknown-zero; --externals names counts that you know
already. ACPIDIS names another program. Status 1 is a folder that is refused, 2 a command line or a program that is at
fault.
"""

import itertools
import re
import sys
import tempfile
from collections import defaultdict
from concurrent.futures import ThreadPoolExecutor
from functools import partial

from acpidis_tools import command, listing, running
from acpidis_tools.errors import name_at
from acpidis_tools.listing import Name, path_text

COUNTS = range(8)
MOST_NAMES = 1000
MOST_PASSES = 3
MOST_RUNS = 1000
SEGMENT = re.compile(listing.SEGMENT)
ANYWHERE = re.compile(rf"(?=({listing.SEGMENT}))".encode())
OUTSIDE = re.compile(r'table "[^"]*": ModuleCall (\\\S+)')


def name_of(body):
    """The path of the name that a raw body waits for, for a line of --externals; None where it leads above the root."""
    text, at = name_at(body.fault, body.raw), body.fault.at or 0
    if text is None:
        raise running.Unusable(f"no name stands at {at} of a body that wants one: is this another version of acpidis?")
    name = Name.of(text)
    place = name.segments if name.is_searched else name.placed(body.path)
    return None if place is None else path_text(place)


class Trial:
    """What comes of the bodies that wait for a name, where it has a count, or of what stands outside the methods, where
    the set is refused for the name."""

    def __init__(self, run, bodies):
        now = [] if run.refused else [run.listing.methods[body.number] for body in bodies]
        self.refused, self.faults = run.refused, [body.fault for body in now if body.fault]
        read = [body.lines for body in now if not body.fault] if bodies or run.refused else [run.listing.outside]
        values = [sum(running.is_lone(line, run.listing.namespace) for line in lines) for lines in read]
        # What is read, without and with values that stand alone
        self.read, self.loose = values.count(0), len(values) - values.count(0)
        self.rank = bool(run.refused), len(self.faults), sum(values)


class Search:
    """The names in the order of the rounds, each with the count that fits best so far.

    Names that no body has both of are tried in one run, since what comes of one says nothing of the other."""

    def __init__(self, program, folder, options, given):
        self.program, self.folder, self.options, self.given = program, folder, options, given
        self.counts = {}
        self.waiting = {}  # the bodies that wait for each name
        self.rounds = []
        self.progress = command.Progress("run")
        self.outside = set()  # the segments outside the methods

    def run(self, counts, more=()):
        self.progress.step()
        if self.progress.done > MOST_RUNS:
            met = f"the {len(self.counts)} names that are met so far stand in the same bodies"
            raise running.Unusable(f"more than {MOST_RUNS} runs are wanted: {met}; give what you know by --externals")
        with tempfile.NamedTemporaryFile("w", prefix="counts") as file:
            file.write(self.given)
            file.writelines(f"{path} {count}\n" for path, count in counts.items())
            file.flush()
            return running.run([self.program, *self.options, *more, "--externals", file.name, "--", self.folder])

    def fit(self, names, more=()):
        """Keeps of each name the count that fits best beside the others, and answers the trials of its counts."""
        all_trials = {}
        for group in self.apart(names):
            with ThreadPoolExecutor(4) as pool:
                of_counts = list(pool.map(partial(self.outcomes, group, more), COUNTS))
            for name in group:
                trials, before = [found[name] for found in of_counts], self.counts.get(name, 0)
                self.counts[name] = min(COUNTS, key=lambda count: (*trials[count].rank, count != before))
                all_trials[name] = trials
        return all_trials

    def outcomes(self, names, more, count):
        """What comes of each name where all have this count. A set that is refused for one is tried in halves."""
        run = self.run({**self.counts, **dict.fromkeys(names, count)}, more)
        if run.refused and len(names) > 1:
            half = len(names) // 2
            return {**self.outcomes(names[:half], more, count), **self.outcomes(names[half:], more, count)}
        return {name: Trial(run, self.waiting[name]) for name in names}

    def go(self):
        """Goes round until no body waits, and answers the bodies that are raw all the same."""
        while True:
            run = self.run(self.counts)
            outside = OUTSIDE.fullmatch(run.refused or "")
            # For a name outside the methods, for which the set is refused, no body waits.
            found = {outside[1]: []} if outside and outside[1] not in self.counts else self.found_in(run.raw)
            if run.refused and not found:
                raise running.refused(run.refused, self.options)
            if not found:
                return run.raw
            if len(self.counts) + len(found) > MOST_NAMES:
                raise running.Unusable(f"more than {MOST_NAMES} names are missing: a table is, more likely")
            if not run.refused and "--any-run" in self.options:
                self.outside = {it for line in run.listing.outside for it in SEGMENT.findall(line.bare)}
            self.waiting.update(found)
            self.rounds.append(sorted(found, key=lambda name: -len(found[name])))
            # What stands behind may be unknown still, and is taken to have no arguments meanwhile.
            self.fit(self.rounds[-1], ["--unknown-zero"])

    def apart(self, names):
        """The names in groups, none of which has two that a body has both of."""
        # The numbers of the waiting bodies by each segment that may stand in them, at whatever byte
        bodies_with = defaultdict(set)
        for body in itertools.chain.from_iterable(self.waiting.values()):
            for segment in ANYWHERE.findall(body.raw):
                bodies_with[segment].add(body.number)
        # Each with the bodies that have one of its names
        groups, alone = [], []
        for name in names:
            segment = name[-4:]  # the last
            bodies = bodies_with[segment.encode()] | {body.number for body in self.waiting[name]}
            if not self.waiting[name] or segment in self.outside:
                alone.append([name])  # its count may change how the tables themselves are read
                continue
            fitting = next((it for it in groups if it[1].isdisjoint(bodies)), None)
            if fitting:
                fitting[0].append(name)
                fitting[1].update(bodies)
            else:
                groups.append(([name], bodies))
        return alone + [names for names, _ in groups]

    def found_in(self, bodies):
        found = defaultdict(list)
        for body in bodies:
            name = name_of(body) if body.fault.word == "UnknownName" else None
            if name and name not in self.counts:
                found[name].append(body)
        return found

    def settle(self):
        """The trials of each name beside the best counts of the others."""
        for _ in range(MOST_PASSES):
            before = self.counts.copy()
            trials = self.fit(list(before))
            if self.counts == before:
                break
        return trials


def spans(counts):
    """Counts in words: 0, 1 or 3 to 7."""
    runs = [[count for _, count in run] for _, run in itertools.groupby(enumerate(counts), lambda it: it[1] - it[0])]
    words = [word for run in runs for word in ([f"{run[0]} to {run[-1]}"] if len(run) > 2 else map(str, run))]
    return " or ".join(filter(None, [", ".join(words[:-1]), words[-1]]))


def number_of(count, verb):
    return f"{count} {verb}{'s' if count == 1 else ''}"


def outcome(trial, is_outside):
    if trial.refused:
        return f"the set is refused: {trial.refused}"
    if is_outside:
        loose = ", with values that stand alone as terms outside the methods" if trial.loose else ""
        return f"the set is read{loose}"
    words = [number_of(trial.read, "read")] if trial.read else []
    words += [number_of(trial.loose, "read") + " with values that stand alone as terms"] if trial.loose else []
    words += [number_of(len(trial.faults), "stay") + f" raw, {trial.faults[0]}"] if trial.faults else []
    return ", ".join(words)


def say(text):
    print(f"# {text}", file=sys.stderr, flush=True)


def report(name, bodies, trials):
    waiting = "1 body waits" if len(bodies) == 1 else f"{len(bodies)} bodies wait"
    first = f"{waiting}, the first {path_text(bodies[0].path)} at {bodies[0].fault.at or 0}" if bodies else ""
    say(f"{name}: {first or 'it stands outside the methods'}")
    said = {}
    for count in COUNTS:
        said.setdefault(outcome(trials[count], not bodies), []).append(count)
    for words, counts in said.items():
        say(f"  with {spans(counts)}: {words}")
    if trials[0].read:
        say("  0 is also the count of what is no method")


def show(search, all_trials, must_be_one):
    for number, names in enumerate(search.rounds, 1):
        say(f"Round {number}")
        for name in names:
            trials = all_trials[name]
            report(name, search.waiting[name], trials)
            if number < len(search.rounds):
                say(f"  taken with {search.counts[name]} in the next rounds")
            reading = [count for count in COUNTS if trials[count].read]
            if not must_be_one:
                print(f"{name} ?", flush=True)
            elif len(reading) == 1:
                print(f"{name} {reading[0]}", flush=True)
            else:
                say("  no line, since not just one count reads")
    if not search.rounds:
        say("no body waits for a name")


def main():
    words = command.parser(__doc__, "FOLDER", usage="%(prog)s [--try] [--externals FILE] [OPTION..] FOLDER")
    words.add_argument("--try", action="store_true", dest="must_be_one", help="lines only where just one count reads")
    words.add_argument("--externals", metavar="FILE", help="counts that are known already")
    # With --unknown-zero no body waits for a name.
    asked = command.parse(words, ("--externals", "--unknown-zero"))
    given = command.read(asked.externals).decode("ascii") if asked.externals else ""
    given += "\n" if given and not given.endswith("\n") else ""
    search = Search(running.program(), asked.folder, command.words_of(asked.options), given)
    try:
        left, all_trials = search.go(), search.settle()
    finally:
        search.progress.end()
    show(search, all_trials, asked.must_be_one)
    for body in left:  # those that no count mends
        say(f"{path_text(body.path)} stays raw: {body.fault}")


if __name__ == "__main__":
    command.run(main)
