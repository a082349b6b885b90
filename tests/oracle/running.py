#!/usr/bin/env python3
"""A whole run: what the program prints of some dumps, or of a folder, and its status. After docs/listing.md.

    python3 tests/oracle/running.py [OPTION..] FOLDER

It prints what acpidis has to print, by the independent reading, and ends with the same status, with its options."""

import pathlib
import sys
from collections import namedtuple

from trying import Outcome, asked
from dumps import Bad, Unreadable, aml_of, dump_lines, order_of, read_externals, read_folder
from namespaces import load, path_text
from printing import block_lines, file_text, namespace_lines
from reading import Refused

DONE, REFUSED, RAW = 0, 1, 3

# The options with a value, of which type, and those without, each with its share of the made-up sets: 0 is none, 1 all.
VALUES = {"workers": int, "externals": str}
FLAGS = {"any_sum": 0.2, "any_run": 0, "unknown_zero": 0.25, "check": 0.15}


class Options(namedtuple("Options", [*VALUES, *FLAGS], defaults=[None] * len(VALUES) + [False] * len(FLAGS))):
    """The options of a run. What else has to know them goes by these tables, so that none is named twice."""

    def words(self):
        """The options as words of the command line, those with a value first."""
        given = {"--" + name.replace("_", "-"): value for name, value in self._asdict().items() if value}
        return [word for option, value in given.items() for word in [option, *[str(value)] * (value is not True)]]


def text_of(lines):
    return "".join(line + "\n" for line in lines)


def refused(fault):
    return Outcome(REFUSED, "", f"acpidis: {fault}\n")


def run_folder(folder, options):
    try:
        dumps = read_folder(folder)
        return run(dumps, options, read_externals(options.externals) if options.externals is not None else ())
    except Unreadable as fault:
        return refused(fault)


def run(dumps, options, given=()):
    """How a run over dumps ends, by any number of workers, with counts for paths that no table says anything of."""
    try:
        order = order_of(dumps, options.any_sum)
        codes = [aml_of(dumps[index].data) for index in order]
        loaded = load(codes, given, options.any_run, options.unknown_zero)
    except Bad as bad:
        return refused_dump(dumps, bad.dump, bad)
    except Refused as fault:
        return refused_dump(dumps, None if fault.table is None else order[fault.table], fault)
    bodies = loaded.bodies(options.unknown_zero)
    names = [dumps[index].name for index in order]
    if options.check:
        lines = check_lines(names, loaded, bodies)
    else:
        lines = [*dump_lines(dumps), *namespace_lines(loaded.space), *block_lines(names, loaded, bodies)]
    raw = [body for body in bodies if body.fault]
    errors = (f"acpidis: body {path_text(body.method.path)}: {body.fault}" for body in raw)
    return Outcome(RAW if raw else DONE, text_of(lines), text_of(errors))


def refused_dump(dumps, index, fault):
    return refused(fault if index is None else f"table {file_text(dumps[index].name)}: {fault}")


def check_lines(names, loaded, bodies):
    """What `--check` prints. Terms that were read always give their bytes again, so no table differs."""
    for table, (name, code) in enumerate(zip(names, loaded.codes)):
        own = [body for body in bodies if body.method.table == table]
        raw = sum(body.fault is not None for body in own)
        yield f"Check {file_text(name)} Bytes {len(code)} Methods {len(own)} Raw {raw} Same"


def main():
    words = vars(asked(__doc__, **VALUES, **dict.fromkeys(FLAGS, False), folder=pathlib.Path()))
    outcome = run_folder(words.pop("folder"), Options(**words))
    sys.stdout.write(outcome.out)
    sys.stderr.write(outcome.err)
    sys.exit(outcome.status)


if __name__ == "__main__":
    main()
