#!/usr/bin/env python3
"""Counts what a run costs where no contract speaks of it: writes, memory let go behind the last one, threads, page
faults, instructions, and the processor time of shapes that would take long without the ways that are there for them.

usage: tests/costs.py [PROGRAM]

It needs a C compiler, for refusals.c, and valgrind."""

from functools import partial

from tally import DEMO, PROGRAM, Tally, asked, instructions, run, shim_in, timed, written
import hostile_shapes as shapes
import measuring
from made_aml import tables
from refusals import counted

METHODS = 20_000
# A write takes 64 KB, and less only where a body's text doesn't fit any more.
LEAST_WRITE = 32_768
# What is let go behind the last write are a few buffers, whatever the set is.
MOST_FREED = 100
# A run touches few pages that a program doesn't touch which only says its version. 128 are the large window of the rows.
MOST_FAULTS = 80
# Threads, no more and no fewer: the runtime has one; three read bodies, as many print rows that are many, and one the text
# of a long table.
STARTS = {"a small set": (DEMO, 4), f"{METHODS} rows": ("set", 8)}
# Seconds of processor time, several times what each takes, and less than without the steps upward (14 for the first).
SHAPES = {
    "names used below 13,000 levels with another child": (lambda: shapes.upward_crowded(80_000, 13_000), 4),
    "uses of a name that is declared before each level": (lambda: shapes.upward_turning(100_000, 500), 4),
    "names from the root on that a deep body declares": (lambda: shapes.deep_root_uses(400_000, 13_000), 2),
}
# Shapes of bench/hostile_shapes.py, each with the bytes of memory that a byte of it may take beside those of each run.
BOUNDED = {
    "names-outside": 128, "regions-outside": 128, "terms-outside": 64, "connections-outside": 64, "deep-owners": 64,
    "deep-owners-run": 128, "deep-pairs": 64, "maybe-aliases": 64, "maybe-aliases-deep": 64,
}  # fmt: skip
# The same of a quarter of a shape that is listed, by one worker and by four: its tables keep no terms, which would take 40
# bytes and more.
TOLD = {"scopes": 16, "external": 16}
MOST_SECONDS, STARTED_BYTES = 2, 40_000_000
# Devices as firmware has them, and how many instructions a run by one worker executes for each byte of them.
DEVICES, MOST_INSTRUCTIONS = 10_000, 400


def costs_of(program, folder, make, most, *options):
    """What a run of a set takes, which is tried again where a busy machine makes it longer than it may be."""
    measuring.write(folder, make)
    workers = [] if "--workers" in options else ["--workers", "1"]
    answer, seconds = timed(run, [program, *workers, *options, "."], 60, cwd=folder, most=most)
    assert answer.status in (0, 3), (folder, answer)
    return answer._replace(processor=seconds)


def measure(program, room):
    """What was counted, each with its bound."""
    folder = written(room / "set", tables(shapes.many_methods(METHODS)))
    outcome, (*_, writes, freed) = counted(room, shim_in(room), [program, "--workers", "1", folder])
    length = len(outcome.out)
    assert outcome.status == 0 and length > 100 * METHODS, (outcome.status, length)
    for name, (place, most) in STARTS.items():
        outcome, (_, starts, *_) = counted(room, shim_in(room), [program, "--workers", "4", room / place])
        assert outcome.status == 0, (name, outcome)
        yield f"threads by 4 workers: {name}", starts, most
        yield f"threads by 4 workers that are missing: {name}", most - starts, 0
    small, least = (run([program, word], 60) for word in (DEMO, "--version"))
    assert (small.status, least.status) == (0, 0), small
    yield f"writes of {length} bytes", writes, length // LEAST_WRITE
    yield "blocks let go behind the last write", freed, MOST_FREED
    yield "page faults of a small set", small.faults - least.faults, MOST_FAULTS
    folder = written(room / "devices", tables(shapes.devices(DEVICES)))
    count = instructions(room, program, "--workers", "1", folder) // (folder / "dsdt.dat").stat().st_size
    yield "instructions for a byte of devices", count or MOST_INSTRUCTIONS + 1, MOST_INSTRUCTIONS
    for name, (make, most) in SHAPES.items():
        answer = costs_of(program, room / name, lambda: tables(make()), most, "--check")
        yield f"seconds: {name}", round(answer.processor, 2), most
    for shape in (it for it in shapes.SHAPES if it.name in BOUNDED | TOLD):
        is_told = shape.name in TOLD
        for words in ([], ["--any-run"], ["--workers", "4"]) if is_told else [["--check"]]:
            folder = room / "".join([shape.name, *words])
            make = partial(shape.make, shape.size // (4 if is_told else 1))
            answer = costs_of(program, folder, make, MOST_SECONDS, *words, *shape.options(folder))
            most = STARTED_BYTES + (BOUNDED | TOLD)[shape.name] * sum(file.stat().st_size for file in folder.iterdir())
            yield f"seconds: {folder.name}", round(answer.processor, 2), MOST_SECONDS
            yield f"bytes of memory: {folder.name}", answer.peak, most


def main():
    words = asked(__doc__, program=PROGRAM)
    with Tally() as checks:
        for name, count, most in measure(words.program, checks.room):
            print(f"{name}: {count}, at most {most}")
            checks.is_so(name, count <= most)


main()
