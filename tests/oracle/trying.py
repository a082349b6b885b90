"""What tests and benches have of a trial: words of the command line, the program, rooms, and what a run takes."""

import argparse
import concurrent.futures
import contextlib
import itertools
import os
import pathlib
import subprocess
import sys
import tempfile
import threading
import time
from collections import namedtuple

# It is imported first, so that the others are found, and leave no bytecode.
sys.dont_write_bytecode = True
TOP = pathlib.Path(__file__).resolve().parents[2]
sys.path[1:1] = [str(TOP / place) for place in ("tests/oracle", "tests", "examples", "bench")]
PROGRAM = TOP / "out/acpidis"
PROCESSORS = len(os.sched_getaffinity(0))
# What a run took: seconds, processor seconds, peak memory in bytes, its status, and the page faults that needed no disk
Answer = namedtuple("Answer", "seconds processor peak status faults")
# How a run ended: its status, None where it has none, and what it wrote to standard output and to standard error
Outcome = namedtuple("Outcome", "status out err")

# What the words of several command lines are
MEANINGS = {
    "program": "the built program, out/acpidis if left out", "folders": "folders of dumps of your own",
    "only": "what has this in its name, and no other", "read": "tries the independent reading, and no program",
    "runs": "so many runs of each, or %(default)s", "seconds": "stops a run after so many, or %(default)s",
    "sets": "so many made-up sets, or %(default)s", "seed": "the same seed makes the same sets",
    "stop": "ends at the first row that fails",
}


def asked(about, **names):
    """The words of the command line, by names with what each is where it is left out: False of a flag, a path of a word
    that may stand there, an empty tuple of a list of folders; a type where there is none."""
    words = argparse.ArgumentParser(description=about, formatter_class=argparse.RawDescriptionHelpFormatter)
    for name, value in names.items():
        option, meaning = "--" + name.replace("_", "-"), MEANINGS.get(name)
        if value is False:
            words.add_argument(option, action="store_true", help=meaning)
        elif isinstance(value, (pathlib.Path, tuple)):
            how = {"nargs": "*"} if value == () else {"nargs": "?", "default": value}
            words.add_argument(name, type=pathlib.Path, help=meaning, **how)
        else:
            kind, default = (value, None) if isinstance(value, type) else (type(value), value)
            words.add_argument(option, type=kind, default=default, help=meaning)
    found = words.parse_args()
    if "program" in names and not getattr(found, "read", False):
        found.program = built(found.program)
    return found


def end(passed, failed):
    """Prints the last line of a test, and ends it."""
    print(f"{passed} passed, {failed} failed")
    sys.exit(failed > 0 or not passed)


def built(program=PROGRAM):
    """The program, which has to be there."""
    return program.resolve() if program.exists() else sys.exit("the program isn't built: ./acpidis demo builds it")


@contextlib.contextmanager
def new_room():
    """A folder for files of its own, which is gone afterwards."""
    with tempfile.TemporaryDirectory(ignore_cleanup_errors=True) as name:
        yield pathlib.Path(name)


def side_by_side(make, *lists):
    """What is made of each of some things, in their order, by as many threads as there are processors."""
    with concurrent.futures.ThreadPoolExecutor(PROCESSORS) as pool:
        yield from pool.map(make, *lists)


def written(folder, files):
    """A new folder with files of these contents, by their names."""
    folder.mkdir(parents=True)
    for name, data in files.items():
        (folder / name).write_bytes(data)
    return folder


def first_difference(got, wanted):
    """What some values or lines differ in first from others; None where they are the same."""
    pairs = enumerate(itertools.zip_longest(got, wanted, fillvalue="the end"), 1)
    return next((f"place {at}: {one!r}, not {other!r}" for at, (one, other) in pairs if one != other), None)


def ended(*words, errors="backslashreplace", **more):
    """How a command ends. What it writes is text, or bytes where `errors` is None."""
    pipes = {} if "input" in more else {"stdin": subprocess.DEVNULL}
    pipes |= {"stdout": subprocess.PIPE, "stderr": subprocess.PIPE}
    ran = subprocess.run([*map(str, words)], **{**pipes, "errors": errors, "check": False, **more})
    return Outcome(ran.returncode, ran.stdout, ran.stderr)


def run(command, limit, **how):
    """What a run takes. After so many seconds it is ended by a signal."""
    started = time.monotonic()
    child = subprocess.Popen(command, **{"stdout": subprocess.DEVNULL, "stderr": subprocess.DEVNULL, **how})
    stop = threading.Timer(limit, child.kill)
    stop.daemon = True
    stop.start()
    _, status, usage = os.wait4(child.pid, 0)
    seconds = time.monotonic() - started
    stop.cancel()
    child.returncode = os.waitstatus_to_exitcode(status)
    processor, peak = usage.ru_utime + usage.ru_stime, usage.ru_maxrss * 1024
    return Answer(seconds, processor, peak, child.returncode, usage.ru_minflt)
