"""What the tests beside this file share: where what they try lies, and counts of what passes and what fails. It comes
before the others, since it tells where they are."""

import importlib.machinery
import importlib.util
import math
import os
import pathlib
import re
import shutil
import sys
import types
from collections.abc import Callable

sys.path.insert(1, str(pathlib.Path(__file__).resolve().parent / "oracle"))
from trying import PROGRAM, TOP, Outcome, asked, end, ended, first_difference, new_room  # noqa: E402, F401
from trying import run, side_by_side, written  # noqa: E402, F401

DEMO = TOP / "crates/acpidis_program/data/demo"


class Stopped(Exception):
    """A check failed, and no other is wanted."""


class Tally:
    """The checks of a test, which may stop at the first that fails. In a `with` they have a room, and end with it."""

    def __init__(self, stops: bool = False) -> None:
        self.stops, self.passed, self.failed = stops, 0, 0

    def __enter__(self) -> "Tally":
        self.place = new_room()
        self.room = self.place.__enter__()
        return self

    def __exit__(self, kind: type | None, *_: object) -> None:
        self.place.__exit__(None, None, None)
        if kind in (None, Stopped):
            self.end()

    def check_all(self) -> None:
        """Makes the checks of the class, its methods `check_..`, in the order in which they stand."""
        for name in vars(type(self)):
            if name.startswith("check_"):
                getattr(self, name)()

    def is_same(self, what: str, got: object, wanted: object) -> None:
        self.is_so(f"{what}: got\n{got}\nnot\n{wanted}", got == wanted)

    def is_so(self, what: str, holds: object) -> None:
        self.passed += bool(holds)
        self.failed += not holds
        if not holds:
            print(f"FAILED {what}", flush=True)
            if self.stops:
                raise Stopped

    def end(self) -> None:
        end(self.passed, self.failed)

    def run(self, script: str, *words: object, **more: object) -> Outcome:
        """Runs a script of examples/ in the room."""
        return ended(sys.executable, TOP / "examples" / script, *words, **{"cwd": self.room, **more})

    def says(self, what: str, words: list, status: int, said="", printed=None, **more: object) -> str:
        """What a script prints that has to end so, with this on standard error, and on standard output if told."""
        run = Tally.run(self, *words, **more)
        self.is_same(what, run, (status, run.out if printed is None else printed, said))
        return run.out

    def refuses(self, what: str, words: list, said: str, status: int = 1, printed=None, **more: object) -> None:
        """A script ends with this line behind its name on standard error."""
        said = f"acpidis-{words[0].removesuffix('.py')}: {said}\n"
        self.says(what, words, status, said, printed, **more)

    def fills_disk(self, script: str, *words: object) -> None:
        """Whether a script says so whose standard output takes nothing."""
        with open("/dev/full", "wb") as full:
            said = "cannot write: No space left on device"
            self.refuses(f"{script}, a full disk", [script, *words], said, 2, stdout=full)

    def text(self, name: str, text: str) -> pathlib.Path:
        """A file of the room with this text."""
        (self.room / name).write_text(text, "utf-8")
        return self.room / name


def parts_in(name: str) -> list[tuple[str, str]]:
    """The parts of a text beside the tests: the line of each behind `== `, and those below it."""
    parts = (TOP / "tests" / name).read_text().removeprefix("== ").split("\n== ")
    return [(head, lines.strip("\n")) for head, _, lines in (part.partition("\n") for part in parts)]


def tables_in(name: str) -> list[list[str]]:
    """The tables of a text there, which blank lines part: the rows of each, without comments."""
    parts = (TOP / "tests" / name).read_text().split("\n\n")
    return [[line for line in part.splitlines() if not line.startswith("#")] for part in parts]


def executable(file: pathlib.Path, text: str) -> pathlib.Path:
    """A file of this text that can be run."""
    file.parent.mkdir(parents=True, exist_ok=True)
    file.write_text(text)
    file.chmod(0o755)
    return file


def module_of(name: str, file: pathlib.Path) -> types.ModuleType:
    """A module of this name, whatever its file is called."""
    loader = importlib.machinery.SourceFileLoader(name, str(file))
    module = importlib.util.module_from_spec(importlib.util.spec_from_loader(name, loader))
    sys.modules[name] = module
    loader.exec_module(module)
    return module


def needed(*words: object, **more: object) -> None:
    """Runs a command without which nothing can be tried."""
    ran = ended(*words, **more)
    if ran.status:
        sys.exit(f"{ran.out}{ran.err}0 passed, 1 failed")


def timed(run: Callable, *words: object, most: float = math.inf, **more: object) -> tuple:
    """What running something gives, and the seconds of processor time that its processes took. Where these reach the most
    that is allowed, it runs again, three times in all, and the least counts: what else a machine does may slow a run."""
    least = math.inf
    for _ in range(3):
        before = sum(os.times()[2:4])
        done = run(*words, **more)
        least = min(least, sum(os.times()[2:4]) - before)
        if least < most:
            break
    return done, least


def instructions(room: pathlib.Path, *command: object) -> int:
    """How many instructions a program executes, as valgrind counts them; 0 where it can't."""
    ran = ended("valgrind", "--tool=callgrind", f"--callgrind-out-file={room / 'counts'}", *command)
    return int((re.search(r"Collected : (\d+)", ran.err) or [0, 0])[1])


def shim_in(room: pathlib.Path) -> pathlib.Path | None:
    """The library of refusals.c, compiled; None without a C compiler."""
    compiler = os.environ.get("CC") or next(filter(None, map(shutil.which, ("cc", "gcc", "clang"))), None)
    shim = room / "refusals.so"
    words = [compiler, "-O1", "-shared", "-fPIC", "-o", shim, TOP / "tests/refusals.c", "-ldl"]
    return shim if compiler and ended(*words, check=True) else None
