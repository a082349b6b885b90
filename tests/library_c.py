#!/usr/bin/env python3
"""Compares the library for C, and Python over it, with the program: text, error lines and status, byte for byte.

    python3 tests/library_c.py [--sets N] [PROGRAM] [FOLDER ..]

Each FOLDER has dumps, or holds such folders. The library is linked of crates/acpidis_c, which is built first where
that is needed. The example of the manual page and the calls of tests/library_c.c are compiled by gcc and clang,
without a warning, and run plainly, under valgrind and with the address sanitizer, and the memory of a set by itself
(tests/library_heap.c). A call takes at most 1.05 of the program's instructions. Python loads made-up sets of
tests/oracle, with the options that come with each. A tool that isn't there is a row that fails."""

import ast
import contextlib
import importlib
import itertools
import os
import random
import re
import shutil
import sys

from tally import DEMO, PROGRAM, TOP, Outcome, Tally, asked, ended, instructions, needed, written
import hostile_shapes as shapes
from compare import laid
from made_aml import tables
from made_sets import SetMaker
from running import Options

LIBRARY, CRATE = TOP / "library", TOP / "crates/acpidis_c"
sys.path.insert(0, str(LIBRARY))
STRICT = ("-Wall", "-Wextra", "-Werror", "-D_POSIX_C_SOURCE=200809L", f"-I{LIBRARY}")
COUNTED = tuple(f"-Wl,--wrap={name}" for name in ("malloc", "calloc", "realloc", "posix_memalign", "free"))
SANITIZED = ("-fsanitize=address,undefined", "-fno-omit-frame-pointer", "-g")
# The edge with a block of malloc's for each that is asked for, so that these tools see all of them.
ALONE = ("-DACPIDIS_PIECES=0", LIBRARY / "acpidis.c", LIBRARY / "heap.c", "-Wl,--allow-multiple-definition")
VALGRIND = ("valgrind", "-q", "--leak-check=full", "--show-leak-kinds=all", "--error-exitcode=99")
OPTIONS = ((), ("--any-run",), ("--any-run", "--unknown-zero"), ("--any-sum", "--check"), ("--any-run", "--check"))
SEED = 0
# A call may take this many times what the program takes.
MOST_COST = 1.05
# The program says of a longer file of counts that it can't be read.
MOST_COUNTS = 16_777_216


def outcome(*words):
    """How a command ends, with the bytes that it writes."""
    return ended(*words, errors=None)


def outcome_in_python(acpidis, source, options, externals=None):
    """What Python has of a set, as the program prints it."""
    flags = {name: getattr(options, name) for name in ("any_sum", "any_run", "unknown_zero")}
    try:
        if options.check:
            return None, acpidis.check(source, **flags, externals=externals).encode(), None
        listing = acpidis.load(source, **flags, externals=externals)
    except acpidis.Refused as refused:
        return 1, b"", "".join(f"acpidis: {line}\n" for line in str(refused).splitlines()).encode()
    lines = "".join(f"acpidis: body {fault.path}: {fault.why}\n" for fault in listing.faults)
    return listing.status, listing.text.encode(), lines.encode()


def row_text(row):
    words = [str(word) for word in (row.path, row.kind, row.arguments, row.target) if word is not None]
    return "  " + " ".join(words + ["Maybe"] * row.maybe + [f"Times {row.times}"] * (row.times > 1))


METHOD = re.compile(r"^( *)Method \(.*\) \{\n((?:\1  .*\n)*)\1\}$", re.MULTILINE)


def untold_in(listing, files):
    """Which values of a listing don't stand in its text: rows, methods, faults or bodies, a raw one by its bytes."""
    lines = listing.text.split("\n")
    begin = next(number for number, line in enumerate(lines, 1) if line.startswith("Namespace "))
    if list(map(row_text, listing.rows)) != lines[begin : begin + int(lines[begin - 1].split()[1])]:
        return "rows"
    if {(row.path, row.arguments) for row in listing.rows if row.kind == "Method"} - {it[:2] for it in listing.methods}:
        return "methods"
    if [(method.path, method.fault) for method in listing.methods if method.fault] != listing.faults:
        return "faults"
    # The lines of the bodies, without their indent, or those of their bytes
    told = [re.sub(f"^{it[1]}  ", "", it[2], flags=re.MULTILINE) for it in METHOD.finditer(listing.text)]
    for method, lines in zip(listing.methods, told):
        code = files[method.table][method.offset : method.offset + method.length]
        raw = "Raw {" + ", ".join(f"{byte:02X}" for byte in code) + "}\n"
        if lines != (method.body if method.fault is None else raw):
            return f"the body of {method.path}"
    return None if len(told) == len(listing.methods) else "the number of bodies"


class Checks(Tally):
    """`lib` is the folder of the library, `shared` the words that link a program with the shared object."""

    def compiled(self, compiler, *words):
        """Whether a compiler is there, and content."""
        ran = ended(compiler, *STRICT, *words) if shutil.which(compiler) else Outcome(None, "", "there is none")
        self.is_so(f"{compiler} {' '.join(map(str, words))}: {ran.err[:2000]}", ran.status == 0)
        return ran.status == 0

    def run_well(self, what, *words):
        """Whether a test in C passes, by its last line."""
        ran = ended(*words)
        is_good = ran.status == 0 and ran.out.endswith(" passed, 0 failed\n")
        self.is_so(f"{what}: {ran.out[-2000:]}{ran.err[-4000:]}", is_good)

    def check_edge(self):
        """The calls of library_c.c, over a dump of a few bytes, and one for which a set takes several large blocks."""
        source, few = TOP / "tests/library_c.c", (DEMO / "dsdt.dat").read_bytes()
        many = tables(shapes.devices(300))["dsdt.dat"]
        dumps = {len(dump): written(self.room / f"one_{len(dump)}", {"dump": dump}) for dump in (few, many)}
        trials = {
            "plain": ((), (), (), dumps),
            "plain, without pieces": (ALONE, (), ("short",), dumps),
            "valgrind": (("-g",), VALGRIND, ("short",), dumps),
            "valgrind, without pieces": (("-g", *ALONE), VALGRIND, ("short",), (len(few),)),
            "sanitized, without pieces": ((*SANITIZED, *ALONE), (), ("short",), dumps),
        }
        for name, (flags, before, after, sizes) in trials.items():
            made = self.room / f"calls_{len(list(self.room.glob('calls_*')))}"
            words = ("gcc", "-std=gnu11", "-O1", *flags, source, *COUNTED, self.lib / "libacpidis.a", "-lpthread")
            for size in sizes if self.compiled(*words, "-o", made) else ():
                text = self.room / f"text_{size}"
                text.write_bytes(outcome(self.program, dumps[size]).out)
                self.run_well(f"the calls, {name}, {size} bytes", *before, made, dumps[size] / "dump", text, *after)
        self.compiled("clang", "-std=gnu11", "-c", source, "-o", self.room / "calls.o")
        for part in "acpidis.c", "heap.c":
            self.compiled("clang", "-std=c99", "-fPIC", "-c", LIBRARY / part, "-o", self.room / "edge.o")
        self.compiled("gcc", "-x", "c++", "-fsyntax-only", LIBRARY / "acpidis.h")

    def check_heap(self):
        for number, (flags, pieces) in enumerate(itertools.product((("-O2",), SANITIZED), (0, 64, 1024))):
            made = self.room / f"heap_{number}"
            sources = TOP / "tests/library_heap.c", LIBRARY / "heap.c"
            if self.compiled("gcc", "-std=gnu11", *flags, f"-DACPIDIS_PIECES={pieces}", *sources, *COUNTED, "-o", made):
                self.run_well(f"the memory of a set, {flags}, {pieces}", made, 300000)

    def check_cost(self):
        """The instructions of the example, which takes a set's text, beside those of the program with one worker."""
        folder, example = written(self.room / "devices", tables(shapes.devices(10_000))), self.room / "example"
        self.compiled("gcc", "-std=c99", "-O2", LIBRARY / "example.c", *self.shared, "-o", example)
        ways = (self.program, "--workers", "1"), (example,)
        counts = [instructions(self.room, *words, "--any-run", folder) for words in ways]
        print("instructions of the program, and of a call of the library: %d, %d" % tuple(counts))
        self.is_so(f"what a call takes: {counts}", 0 < counts[1] <= MOST_COST * counts[0])

    def check_example(self):
        """The example, by both compilers and the shared object."""
        made = {}
        for compiler in ("gcc", "clang"):
            words = (compiler, "-std=c99", LIBRARY / "example.c", *self.shared)
            if self.compiled(*words, "-o", self.room / compiler):
                made[compiler] = (self.room / compiler,)
        if "gcc" in made:
            made["valgrind"] = (*VALGRIND, self.room / "gcc")
        words = ("gcc", "-std=c99", *SANITIZED, LIBRARY / "example.c", self.lib / "libacpidis.a")
        if self.compiled(*words, "-o", self.room / "sanitized"):
            made["sanitized"] = (self.room / "sanitized",)
        for folder in [folder for folder in self.folders if not (folder / "tables.map").exists()]:
            for options in OPTIONS:
                wanted = outcome(self.program, *options, folder)
                for name, words in made.items():
                    self.is_so(f"{name}: {' '.join(options)} {folder}", outcome(*words, *options, folder) == wanted)

    def check_page(self):
        """The examples of docs/library.md in Python, one after the other, over the demo and a set with one row more."""
        blocks = re.findall(r"^```python\n(.*?)^```", (TOP / "docs/library.md").read_text(), re.MULTILINE | re.DOTALL)
        methods = b"\x14\x08EC0_\1\xa4h" + b"\x14\x0bFOO_\0EC0_\0" + b"\x14\x07BAD_\0\x33"
        for name, code in ("tables", methods), ("before", b""), ("after", b"\x08NEW_\0"):
            written(self.room / name, tables(code))
        words, told = self.room / "page.py", ["0", "\\FOO_ 0 dsdt.dat 52 5", "\\BAD_ UnknownOp at 0"]
        words.write_text("\n".join(blocks).replace("/sys/firmware/acpi/tables/DSDT", str(DEMO / "dsdt.dat")))
        ran = ended(sys.executable, words, cwd=self.room, env={**os.environ, "PYTHONPATH": str(LIBRARY)})
        wanted = "\n".join([*told, self.acpidis.load(DEMO, any_run=True).text, "\\NEW_", ""])
        self.is_so(f"the page: {ran.out}{ran.err}", len(blocks) == 5 and ran == (0, wanted, ""))

    def check_python(self):
        """Python over folders and made-up sets. Of the lines of --check it has these alone."""

        def compare(what, got, wanted):
            is_same = all(one is None or one == other for one, other in zip(got, wanted))
            self.is_so(f"Python: {what}: {got[2]} in place of {wanted[2]}", is_same)

        ast.parse((LIBRARY / "acpidis.py").read_text(), feature_version=(3, 9))
        for folder, options in itertools.product(self.folders, (Options(), Options(any_run=True))):
            got = outcome_in_python(self.acpidis, folder, options)
            compare(f"any_run={options.any_run} {folder}", got, outcome(self.program, *options.words(), folder))
        for any_run in (False, True):
            maker = SetMaker(random.Random(SEED), [], True, any_run, False)
            for number in range(self.sets):
                trial = maker.trial()
                with laid(trial) as (folder, options):
                    wanted = outcome(self.program, *options.words(), folder)
                    got = outcome_in_python(self.acpidis, folder, trial.options, trial.externals)
                if trial.externals is not None and len(trial.externals) > MOST_COUNTS:
                    wanted = 1, b"", b"acpidis: TooLong\n"
                compare(f"made-up set {number} of seed {SEED}, any_run={any_run}", got, wanted)
        for folder in self.folders:
            with contextlib.suppress(self.acpidis.Refused):
                listing = self.acpidis.load(folder, any_run=True)
                wrong = untold_in(listing, self.acpidis.read_folder(folder))
                self.is_so(f"Python: {wrong} of {folder}", not wrong)
                values = self.acpidis.load(folder, any_run=True, text=False)
                self.is_so(f"Python: without the text: {folder}", values == listing._replace(text=""))
                bare = [method._replace(fault=None, body=None) for method in listing.methods]
                without = self.acpidis.load(folder, any_run=True, bodies=False)
                self.is_so(f"Python: without bodies: {folder}", without == listing._replace(methods=bare))


def main():
    words = asked(__doc__, sets=150, program=PROGRAM, folders=())
    with Checks() as checks:
        checks.program, checks.sets, checks.lib = words.program, words.sets, checks.room / "lib"
        checks.shared = f"-L{checks.lib}", "-lacpidis", f"-Wl,-rpath,{checks.lib}"
        if not (CRATE / "out/libacpidis_c.a").exists():
            needed("rt", "lib", cwd=CRATE)
        needed(LIBRARY / "link", checks.lib, cwd=TOP)
        os.environ["ACPIDIS_LIBRARY"] = str(checks.lib / "libacpidis.so.0")
        checks.acpidis = importlib.import_module("acpidis")
        # Those that are given, or the folders directly in them
        given = [sorted(it for it in folder.iterdir() if it.is_dir()) or [folder] for folder in words.folders]
        checks.folders = [DEMO, *itertools.chain.from_iterable(given)]
        checks.check_all()


main()
