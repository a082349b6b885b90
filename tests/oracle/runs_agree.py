#!/usr/bin/env python3
"""Tries the promise of --any-run on made-up declarations: where what stands surely or maybe tells a name's count, each
run that finds the name has this count; and where it tells none, of kinds that are no Alias, two runs differ.

    python3 tests/oracle/runs_agree.py [--lists N] [--seed N]

A run is a selection of the declarations that keeps the sure ones; all are tried. Of a path the first that is kept
counts. An open Alias is kept with any target. What is counted are the lists; 150 names are asked of each."""

import itertools
import random

from trying import asked
from namespaces import PREDEFINED, Namespace, agreed, own_count
from reading import Name
from tally import Tally

SEGMENTS = ["AAAA", "BBBB", "_OSI", "_SB_"]
PATHS = [(one,) for one in SEGMENTS] + [("_SB_", "AAAA"), ("_SB_", "BBBB"), ("_SB_", "AAAA", "BBBB"), ("AAAA", "BBBB")]
SCOPES = [(), *PATHS, ("_SB_", "AAAA", "AAAA")]
NAMES = [Name(False, 0, [one]) for one in SEGMENTS[:3]] + [Name(True, 0, ["_SB_", "AAAA"]), Name(False, 1, ["BBBB"])]
LOCALS = [(), {("AAAA",)}, {("_SB_", "BBBB")}]
MOST_MAYBES, MOST_OPEN = 7, 1
# What the kind of an open Alias has behind its target
IS_OPEN = (True,)


def made_declarations(chance):
    """Paths with a kind, and whether it is sure."""
    made, maybes, opens = [], 0, 0
    for _ in range(chance.randrange(1, 10)):
        is_sure = maybes == MOST_MAYBES or chance.random() < 0.3
        maybes += not is_sure
        is_open = opens < MOST_OPEN and chance.random() < 0.3
        kinds = [("Name",), ("Alias", chance.choice(PATHS), is_open), *(("Method", count) for count in (0, 1, 1, 2))]
        made.append((chance.choice(PATHS), chance.choice(kinds), is_sure))
        opens += made[-1][1][2:] == IS_OPEN
    return made


def space_of(declarations, externals):
    space = Namespace()
    for path, kind, is_sure in declarations:
        space.declare_so((), Name(True, 0, list(path)), kind, is_sure)
    for path, count in externals:
        space.add_external(path, count)
    return space


def runs_of(declarations):
    """All runs, each with the kinds of its paths: of a declaration one of some kinds, or none of an unsure one."""
    kept = []
    for _, kind, is_sure in declarations:
        aims = [("Alias", path) for path in PATHS] if kind[2:] == IS_OPEN else [kind[:2]]
        kept.append(aims if is_sure else [None, *aims])
    for kinds in itertools.product(*kept):
        # The first of a path counts.
        yield {path: kind for (path, _, _), kind in reversed([*zip(declarations, kinds)]) if kind}


def kind_at(run, path):
    return run.get(path) or PREDEFINED.get(path)


def found_count(run, candidates, local):
    """The count that a run has for a name which it finds, by what stands at an Alias' target; else None."""
    for path in candidates:
        kind = kind_at(run, path)
        if path in local:
            return 0
        if kind:
            kind = kind_at(run, kind[1]) if kind[0] == "Alias" else kind
            return own_count(kind) if kind else None
    return None


def holds(space, runs, scope, name, local):
    """Whether the promise and its converse hold of a name."""
    met = space.counts_met(scope, name, local)
    counts = {found_count(run, name.candidates(scope), local) for run in runs} - {None}
    if met and agreed(met) is not None:
        return counts <= {space.arity(scope)(local, name)} == set(met)
    kinds = [kind for path in name.candidates(scope) for kind in space.kinds_of(path)]
    return not met or any(kind[0] == "Alias" for kind in kinds) or len(counts) > 1


def main():
    words, checks = asked(__doc__, lists=200, seed=0), Tally()
    chance = random.Random(words.seed)
    for _ in range(words.lists):
        declarations = made_declarations(chance)
        # What Externals say of some paths
        counts = [(chance.choice(PATHS), chance.randrange(3)) for _ in range(chance.choice((0, 0, 1, 3)))]
        space, runs = space_of(declarations, counts), list(runs_of(declarations))
        fail = next((it for it in itertools.product(SCOPES, NAMES, LOCALS) if not holds(space, runs, *it)), None)
        checks.is_so(f"scope, name and locals {fail}, of {declarations}, {counts}", not fail)
    checks.end()


if __name__ == "__main__":
    main()
