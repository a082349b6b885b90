#!/usr/bin/env python3
"""Writes the numbers of INDEX in crates/aml_code/src/table.rt anew, from the rows that stand there.

To be run after a row was added, moved or taken out. The check proves that each number leads to its opcode's row."""

import pathlib
import re
import textwrap

TABLE = pathlib.Path(__file__).parent.parent / "crates/aml_code/src/table.rt"
SLOTS, NO_ROW = 512, 255

text = TABLE.read_text()
index = [NO_ROW] * SLOTS
for place, digits in enumerate(re.findall(r"^    0x([0-9A-F]+) +\"", text, re.MULTILINE)):
    # Those of one byte come first, then those of 5B and a second byte.
    opcode = int(digits, 16)
    index[opcode if opcode < 256 else 256 + opcode % 256] = place
numbers = textwrap.fill(", ".join(map(str, index)) + ",", 99, initial_indent="    ", subsequent_indent="    ")
head, rest = text.split("static INDEX: [u8; 512] = [\n")
TABLE.write_text(f"{head}static INDEX: [u8; 512] = [\n{numbers}\n{rest[rest.index('];'):]}")
