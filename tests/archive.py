#!/usr/bin/env python3
"""Makes the archive of the library for C over what `rt ci` proved in a copy of the repository.

usage: tests/archive.py FOLDER

rt ci checks the crate and keeps no archive, and `rt lib` would prove each crate below it again. It alone is proved."""

import os
import shutil
import sys

from tally import Tally
from wrong_bodies import TOP, kit

CRATE = "acpidis_c"
rtlib, checks = kit(), Tally()
os.chdir(sys.argv[1])
crate = next(it for it in rtlib.crates_below(os.getcwd()) if it.name == CRATE)
os.chdir(crate.folder)
os.makedirs("out", exist_ok=True)
checks.is_so("the archive is built", not crate.build_static(["--jobs", "1"]))
if checks.passed:
    kept = f"{TOP}/crates/{CRATE}/out"
    os.makedirs(kept, exist_ok=True)
    shutil.copy2(f"out/lib{CRATE}.a", kept)
checks.end()
