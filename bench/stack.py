#!/usr/bin/env python3
"""Measures how much stack the program needs for terms that stand 512 deep in one another, by kind of nesting.

usage: bench/stack.py [ACPIDIS]

gdb has to be there (Debian: apt-get install gdb). Each set is one table with a method, or with terms outside the
methods, nested as deep as is read. The program lists it, and checks it with --check, by one worker. At each advice to
the system, as the C library gives when a thread ends, gdb stops the program, and the script adds up what was touched
of the stack on which all is read, printed and checked. The script is no part of ./test."""
import re
import shlex
import subprocess
import sys
import tempfile

import hostile_shapes as shapes
from made_aml import tables
from trying import PROGRAM, asked, ended, new_room, written

LEVELS = 511
STACK_KB = 8 << 10
SHOW = """python
while gdb.selected_inferior().pid:
    print(open(f"/proc/{gdb.selected_inferior().pid}/smaps").read())
    gdb.execute("continue")
"""
GDB = ["catch syscall madvise", "run {} >/dev/null 2>/dev/null"]


def packages(opcode, front, inner, levels=LEVELS):
    return shapes.around(levels, lambda code: shapes.package(opcode, front + code), inner)


# A Field whose connection is a Buffer of a size so deep
FIELD = shapes.package(b"\x5b\x81", b"REGN\x01\x02" + shapes.package(b"\x11", b"\x92" * 209 + b"\x60"))
BODIES = {
    "If": packages(b"\xa0", b"\x60", b"\xa3"),
    "Package": packages(b"\x12", b"\x01", b"\0"),
    "VarPackage": packages(b"\x13", b"\x60", b"\0"),
    "Buffer": packages(b"\x11", b"", b"\0"),
    "operator, one operand": b"\x92" * LEVELS + b"\x60",
    "target": b"\x88\x60\0" * LEVELS + b"\0",
    "call": b"CALL" * LEVELS + b"\x60",
    "connection of a Field": packages(b"\xa0", b"\x60", FIELD, 300),
}
TABLES = {
    "Device": packages(b"\x5b\x82", b"DEV_", b""),
    "Scope": packages(b"\x10", b"\x5c\0", b""),
    "Package in a Name": b"\x08NAM_" + packages(b"\x12", b"\x01", b"\0", LEVELS - 1),
}


def touched_kb(command, folder):
    """The KB that a run touched of the largest stack of 8 MiB."""
    with tempfile.NamedTemporaryFile("w", suffix=".gdb") as script:
        script.write("\n".join([*GDB, SHOW]).replace("{}", shlex.join([*command[1:], folder]), 1))
        script.flush()
        shown = ended("gdb", "-q", "-batch", "-nx", "-x", script.name, command[0], stderr=subprocess.STDOUT).out
    areas = re.findall(r"^Size: +(\d+) kB$.*?^Rss: +(\d+) kB$", shown, re.M | re.S)
    stacks = [int(rss) for size, rss in areas if int(size) == STACK_KB]
    return max(stacks) if stacks else sys.exit(f"no stack of {STACK_KB} KB was found:\n{shown[-2000:]}")


def main():
    program = str(asked(__doc__, program=PROGRAM).program)
    codes = {f"in a body: {name}": b"\x15CALL\x08\x01" + shapes.main_method(body) for name, body in BODIES.items()}
    codes |= {f"outside the methods: {name}": code for name, code in TABLES.items()}
    print("kind of nesting | listed | with --check")
    for name, code in codes.items():
        with new_room() as room:
            folder, words = str(written(room / "set", tables(code))), [program, "--workers", "1"]
            print(f"{name} | {touched_kb(words, folder)} KB | {touched_kb([*words, '--check'], folder)} KB", flush=True)


main()
