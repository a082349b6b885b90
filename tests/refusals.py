#!/usr/bin/env python3
"""Tries what is answered where a growth or the start of a thread is refused: the whole answer, or the want of memory
or of a thread.

    python3 tests/refusals.py [program]

The tests of library_tests in `memory` run with each growth refused in turn, by itself and with all later ones, those
in `starts` with each start. So does the program, over a set whose first method can't be read, over one with code
outside methods, and over one of many rows. Each thread that was started has to be joined, and a want is an answer only
where something was refused. With the word program only the program runs so, as in ./test, in some seconds; the tests
are proved and built first. It needs a C compiler, for refusals.c."""

import itertools
import re
import sys
import tempfile

from tally import PROGRAM, TOP, Tally, ended, needed, shim_in, side_by_side, written
from limits import WANTS
from made_aml import SETS, method, segment, tables
from running import DONE, RAW

CRATE = TOP / "crates/library_tests"
TESTS = CRATE / "out/library_tests_tests"
GROWTH, FROM, START = "REFUSE_GROWTH", "REFUSE_FROM", "REFUSE_START"
# A body that can't be read, and as many names as workers print rows. Of the growths only the last are refused.
MANY = method(b"AAAA", 0, b"\xA4BBBB\1") + b"".join(b"\x08" + segment(number) + b"\0" for number in range(8_200))
LAST = 100
FOLDERS = {
    "set": {**tables(*SETS["refused"]), "tables.map": b""}, "branches": tables(*SETS["branches"]), "rows": tables(MANY),
}  # fmt: skip
RUNS = (
    "--workers 1 set", "--workers 3 set", "--check set", "--externals counts set", "--any-run branches",
    "--workers 3 rows",
)  # fmt: skip


def is_right(outcome, whole, how, is_refused):
    """Whether all came, or a want where something was refused. A refused start is no want of memory."""
    if outcome.status == whole.status:
        return whole.status == RAW and outcome == whole
    return is_refused and outcome in (WANTS[1:] if how == START else WANTS)


def counted(room, shim, command, *variables):
    """How a command ends over the library of refusals.c, and what that counted."""
    words = ["timeout", "60", "env", *variables, f"LD_PRELOAD={shim}", *command]
    with tempfile.NamedTemporaryFile("r", dir=room) as file:
        return ended("sh", "-c", 'exec "$@" 3>"$0"', file.name, *words, cwd=room), [*map(int, file.read().split())]


def sweep(room, shim, how, command):
    """Refuses the calls of a command one after the other: how many of its answers are right, what is said, and whether
    all are. The last run is the first in which there is no call to refuse: one that is refused counts."""
    whole, shown = ended(*command, cwd=room), " ".join(map(str, command)).removeprefix(f"{TOP}/")
    first = counted(room, shim, command)[1][0] - LAST if command[-1] == "rows" and how != START else 1
    for number in itertools.count(first):
        outcome, counts = counted(room, shim, command, f"{how}={number}", "REFUSED=0")
        growths, starts, refused, joins, *_ = counts or [0, 0, 0, -1]
        calls = starts if how == START else growths
        # A test knows by itself whether a want is an answer.
        is_test = command[0] == TESTS and outcome.status == whole.status == DONE
        if joins != starts - refused or not (is_test or is_right(outcome, whole, how, calls >= number)):
            said = f"FAILED {how}={number} {shown}: status {outcome.status}, counts {counts}, {outcome.err}"
            return number - first, said, False
        if calls < number:
            return number - first + 1, f"{how} {shown}: {calls}", True


def sweeps(is_program):
    """What is refused, and the command."""
    for words, how in itertools.product(RUNS, (GROWTH, FROM, START)):
        yield how, [PROGRAM, "--any-sum", *words.split()]
    names = "" if is_program else ended(TESTS, "--list").out
    for kind, how in (("memory", GROWTH), ("memory", FROM), ("starts", START)):
        yield from ((how, [TESTS, name]) for name in re.findall(rf"^(tests::{kind}::.*): test$", names, re.M))


def main():
    part = sys.argv[1:] == ["program"]
    if sys.argv[1:] and not part:
        sys.exit(__doc__)
    with Tally(stops=True) as checks:
        shim = shim_in(checks.room)
        if not shim:
            checks.is_so("there is no C compiler, so that nothing can be refused, and nothing is tried", False)
        if not part:
            needed("rt", "test", "--", "memory", cwd=CRATE)
        needed(TOP / "acpidis", "demo")
        for folder, files in FOLDERS.items():
            written(checks.room / folder, files)
        (checks.room / "counts").write_text("\\CCCC 2\n")
        for passed, said, is_whole in side_by_side(lambda it: sweep(checks.room, shim, *it), sweeps(part)):
            print(said, flush=True)
            checks.passed += passed
            checks.failed += not is_whole


if __name__ == "__main__":
    main()
