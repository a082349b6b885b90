#!/usr/bin/env python3
"""Runs the scripts of ./test over programs that are certainly wrong: each of them has to fail.

    python3 tests/stubs.py [WORD..]

Each runs in a copy of the repository in which what it tests is a stub: a program that refuses everything, one that
prints nothing, and one that prints the same text always, all of which know their version and the demo, so that no
script ends before it begins. Each script has to end with another status than 0, and where it prints a last line of
counts, some have failed. The other trials are a machine without a C compiler, empty files, a wrong independent
reading, and a `rt` that proves nothing. With words only the trials with one of them in their names are made."""

import itertools
import os
import pathlib
import re
import shutil
import subprocess
import sys
from collections import namedtuple

from tally import TOP, Tally, ended, executable, side_by_side, tables_in

LEFT_OUT = shutil.ignore_patterns(".git", "out", "__pycache__", "must-fail", "proofs", "wrong-bodies.edits")
# The program, and its copy by which the scripts run it
PROGRAM, PLACED = "crates/acpidis_program/out/acpidis_program", "out/acpidis"
DEMO = "crates/acpidis_program/stdout"
LONGEST = 300

KNOWN = f"case $* in --version) echo 'acpidis 0.1.0'; exit ;; *data/demo) exec cat '{TOP / DEMO}' ;; esac\n"
REFUSES, EMPTY, ONE_TEXT = "echo 'acpidis: NoMemory' >&2\nexit 1\n", "exit 0\n", f"exec cat '{TOP / DEMO}'\n"
STUBS = {"refuses": REFUSES, "prints nothing": EMPTY, "prints one text": ONE_TEXT}
COMPILERS = {"cc", "gcc", "clang", "c89", "c99"}
# The scripts that take the program; others, each with a file in which something is wrong; what is told of empty pages
OF_PROGRAM, WRONG, EMPTY_PAGES = tables_in("stubs.txt")

# A script with its words, what is put into the copy in which it runs, the PATH there, and what it has to say
Trial = namedtuple("Trial", "name words files path said", defaults=[{}, None, []])


def trials(room):
    """All trials. Folders of commands are made in the room."""
    for script, (what, text) in itertools.product(OF_PROGRAM, STUBS.items()):
        yield Trial(f"{script}, a program that {what}", script.split(), placed(text))
    for script, what, file, old, new in (map(str.strip, line.split("|")) for line in WRONG):
        old, new = (it.replace("\\n", "\n") for it in (old, new))
        text = (TOP / file).read_text().replace(old, new) if old else new
        yield Trial(f"{script}, {what}", script.split(), {file: text})
    words = ["tests/refusals.py", "program"]
    yield Trial("tests/refusals.py, no C compiler", words, placed(REFUSES), without_compilers(room))
    pages = {line.partition(":")[0]: "" for line in EMPTY_PAGES} | placed(ONE_TEXT)
    said = [line.partition(": ")[2] if "FAILED" in line else line for line in EMPTY_PAGES]
    yield Trial("tests/pages.py, empty pages", ["tests/pages.py", "--no-scripts"], pages, said=said)
    for what, text in (("proves nothing", "#!/bin/sh\n"), ("counts nothing", "#!/bin/sh\necho '0 passed, 0 failed'\n")):
        executable(room / f"rt {what}/rt", text)
        yield Trial(f"./test, a command rt that {what}", ["./test"], {}, f"{room}/rt {what}:{os.environ['PATH']}")


def placed(text):
    """The program as the build and the launcher leave it."""
    return dict.fromkeys((PROGRAM, PLACED), f"#!/bin/sh\n{KNOWN}{text}")


def without_compilers(room):
    """A PATH of one folder, with all commands but C compilers."""
    folder = room / "commands"
    folder.mkdir()
    files = {it.name: it for place in reversed(os.environ["PATH"].split(":")) for it in pathlib.Path(place).glob("*")}
    for name, file in files.items():
        if name not in COMPILERS and not re.search(r"(^|-)(gcc|clang|cc)(-\d+)?$", name):
            (folder / name).symlink_to(file)
    return str(folder)


def copy_with(files, folder):
    shutil.copytree(TOP, folder, ignore=LEFT_OUT, symlinks=True)
    for name, text in files.items():
        executable(folder / name, text)
    return folder


def fault_of(trial, folder):
    """Why a trial isn't right, or nothing: the script passes, or doesn't say what failed."""
    words = [sys.executable, *trial.words] if trial.words[0].endswith(".py") else trial.words
    environment = {**os.environ, "PATH": trial.path or os.environ["PATH"]}
    for variable in ("ACPIDIS", "CC"):
        environment.pop(variable, None)
    try:
        ran = ended(*words, cwd=folder, env=environment, timeout=LONGEST)
    except subprocess.TimeoutExpired:
        return f"no end after {LONGEST} seconds"
    last = ran.out.rstrip("\n").rpartition("\n")[2]
    missing = [it for it in trial.said if it not in ran.out]
    if ran.status == 0 or missing:
        return f"status {ran.status}, and last the line {last!r}" + "".join(f", without {it!r}" for it in missing)
    return f"status {ran.status}, but last the line {last!r}" if re.fullmatch(r"\d+ passed, 0 failed", last) else None


def main():
    words = sys.argv[1:]
    with Tally() as checks:
        room = checks.room
        made = [it for it in trials(room) if not words or any(word in it.name for word in words)]
        kinds = {str(it.files): it.files for it in made}
        copies = {kind: copy_with(files, room / str(number)) for number, (kind, files) in enumerate(kinds.items())}
        for trial, fault in zip(made, side_by_side(fault_of, made, (copies[str(it.files)] for it in made))):
            checks.is_so(f"{trial.name}: {fault}", not fault)


main()
