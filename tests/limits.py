#!/usr/bin/env python3
"""Runs the program under limits of memory (ulimit -v) and of the stack (ulimit -s), in small steps, over deep and wide
sets, with 1, 4 and 64 workers.

    python3 tests/limits.py [--short] [--stop] [PROGRAM]

Each run gives the whole text, or nothing but 'acpidis: NoMemory' or 'acpidis: NoThread' with status 1; no signal ends
it. What the whole text is the independent reading of tests/oracle says, and without limits it has to come. The sweep
takes some minutes, with --short seconds."""

from tally import PROGRAM, Tally, asked, ended, written
import hostile_shapes as shapes
from made_aml import tables
from running import DONE, Options, refused, run_folder

SETS = {
    "ifs": lambda: shapes.indented(2_000, 508),
    "operators": lambda: shapes.nots(50, 508),
    "packages": lambda: shapes.packages(50, 508),
    "devices": lambda: shapes.nested(510, 1),
    "blocks": lambda: shapes.blocks(2_000, 508),
    "methods": lambda: shapes.methods(20_000, b""),
    "buffer": lambda: shapes.buffer(1 << 20),
}
WANTS = refused("NoMemory"), refused("NoThread")
# The steps of memory and of the stack in KB, and the numbers of workers
LONG, SHORT = (1_000, 16, (1, 4, 64)), (20_000, 248, (1, 4))
# With so many KB the program starts at the least and at the most, and reads each set whole.
LEAST, MOST_TO_START, MOST = 4_000, 1_000_000, 8_000_000
LEAST_STACK, MOST_STACK = 16, 1_040
# So many whole runs one after the other end the sweep of memory.
ENOUGH = 3


def limited(option, limit, *words):
    return ended("sh", "-c", 'ulimit "$0" "$1" 2>/dev/null && shift && exec "$@"', option, limit, *words)


class Checks(Tally):
    def is_whole(self, what, outcome, whole):
        """Whether all came; a want is as good an answer."""
        self.is_so(f"{what}: status {outcome.status}, {outcome.err.partition(chr(10))[0]}", outcome in (whole, *WANTS))
        return outcome == whole

    def sweep(self, what, command, whole, least, steps):
        """Runs of one set by so many workers: with more and more memory, and with a larger and larger stack."""
        memory_step, stack_step, _ = steps
        in_a_row = 0
        for limit in range(least, MOST, memory_step):
            is_whole = self.is_whole(f"{what}, {limit} KB", limited("-v", limit, *command), whole)
            in_a_row = in_a_row + 1 if is_whole else 0
            if in_a_row == ENOUGH:
                break
        else:
            self.is_so(f"{what}: not whole with {MOST} KB", False)
            return
        print(f"{what}: whole from {limit - (ENOUGH - 1) * memory_step} KB", flush=True)
        for limit in range(LEAST_STACK, MOST_STACK + 1, stack_step):
            self.is_whole(f"{what}, a stack of {limit} KB", limited("-s", limit, *command), whole)

    def check_set(self, name, program, least, steps):
        folder = written(self.room / name, tables(SETS[name]()))
        options = Options(any_run=True) if name == "blocks" else Options(any_sum=True)
        whole = run_folder(folder, options)
        outcome = ended(program, *options.words(), folder)
        self.is_so(f"{name} without limits: status {outcome.status}, {outcome.err[:100]}", outcome == whole)
        for workers in steps[2] if outcome == whole else ():
            command = [program, *options.words(), "--workers", workers, folder]
            self.sweep(f"{name}, {workers} workers", command, whole, least, steps)


def main():
    words = asked(__doc__, short=False, stop=False, program=PROGRAM)
    program = words.program
    with Checks(words.stop) as checks:
        # Below the least memory the system doesn't load the program at all.
        starts = ((limit, limited("-v", limit, program, "--version")) for limit in range(LEAST, MOST_TO_START + 1, 500))
        least = next((limit for limit, it in starts if it.status == DONE and "acpidis" in it.out), None)
        if least is None:
            checks.is_so(f"{program} doesn't start, or ulimit -v does nothing here", False)
        print(f"the program starts with {least} KB")
        for name in sorted(SETS) if least else ():
            checks.check_set(name, program, least, SHORT if words.short else LONG)


if __name__ == "__main__":
    main()
