#!/usr/bin/env python3
"""Measures what README shows under "Figures", and writes that section and docs/figures.svg.

usage: bench/figures.py [ACPIDIS] [--only WORD] [--runs N] [--seconds N]

iasl and GNU time have to be there (Debian: apt-get install acpica-tools time). Each program runs N times, and the
shortest time counts; its peak memory is that of one more run. Where --only leaves sets out, nothing is written but the
section to standard output.

The sets:
  10 KB, 40 KB, 1 MB  one table each, compiled by iasl from devices with resources, fields and methods as firmware has
  16 MB               sixteen times the terms of that of 1 MB, in one table
  20,000 methods      small methods, in ascending order
  101 tables          a DSDT and 100 SSDTs of 20 methods, each of which calls those of the next table through Externals
  one long body       a method of 1 MB: constants, texts, names and stores"""
import datetime
import math
import os
import re
import shutil
import sys
from xml.sax.saxutils import escape

import measuring
import hostile_shapes as shapes
from made_aml import bytes_of, tables
from trying import PROCESSORS, PROGRAM, TOP, asked, ended, new_room

README = TOP / "README.md"
PICTURE = TOP / "docs/figures.svg"
BEGIN, END = "<!-- by bench/figures.py -->\n", "<!-- end -->\n"
TIME = "/usr/bin/time"
MOST_WORKERS = 4
# With a higher load for each processor than these runs bring about, others work on the machine too.
BUSY_SHARE = 0.6
# From this share of stolen time on the section says so.
STOLEN_SHARE = 0.03
DEVICES_OF_A_BUS = 16
OUTERMOST = b"X000"
HEAD = f"""![Seconds by set: acpidis with 1 and {MOST_WORKERS} workers, and iasl -d](docs/figures.svg)

| Set | Bytes | `acpidis`, 1 worker | Of processors | {MOST_WORKERS} workers | Peak memory \
| `iasl -d` | Its peak memory | Its status | Times as fast |
|---|---|---|---|---|---|---|---|---|---|
"""
# The picture: seconds by set on a logarithmic axis
WIDTH, LEFT, RIGHT = 860, 130, 110
ABOVE, BAR, GAP, FOOT = 62, 15, 14, 44
TICKS = 0.001, 0.01, 0.1, 1, 10, 100
LEAST, MOST = TICKS[0], TICKS[-1]
INK, GRID, PAPER = "#222222", "#dddddd", "#ffffff"
COLOURS = ("#0b5fa5", "#7db8e8", "#d9822b")

# A device of the compiled sets, as firmware has them, by its number
DEVICE = (TOP / "bench/device.asl").read_text()
MIXED = bytes_of(
    "Store 0A05 60  Store 0B3412 61  Store 0C78563412 '\\_OS_'  Store 0E0807060504030201 62  Add 60 61 62  "
    "Store 0D 'abcdefgh' 00 63  Return '_REV'"
)


def compiled(devices: int, times: int = 1) -> dict:
    """A DSDT with so many devices, sixteen to a bus, by iasl, as often, each time with another outermost device."""
    text = 'DefinitionBlock ("", "DSDT", 2, "BENCH", "FIGURES", 1) {\nDevice (\\_SB.' + OUTERMOST.decode() + ") {\n"
    for first in range(0, devices, DEVICES_OF_A_BUS):
        inner = [DEVICE % {"number": number} for number in range(min(DEVICES_OF_A_BUS, devices - first))]
        text += f"Device (B{first // DEVICES_OF_A_BUS:03X}) {{ Name (_ADR, 0x{first:08X}) {''.join(inner)} }}\n"
    with new_room() as room:
        (room / "bench.asl").write_text(text + "} }\n")
        ended("iasl", "-p", "bench", "bench.asl", cwd=room, check=True)
        made = (room / "bench.aml").read_bytes()
    if times == 1:
        return {"dsdt.dat": made}
    code = made[shapes.HEADER_BYTES:]
    assert code.count(OUTERMOST) == 1
    return tables(b"".join(code.replace(OUTERMOST, b"X%03d" % number) for number in range(times)))


# The name of each set, and what makes its files. A device has some 420 bytes.
SETS = (
    ("10 KB", lambda: compiled(24)),
    ("40 KB", lambda: compiled(95)),
    ("1 MB", lambda: compiled(2_360)),
    ("16 MB", lambda: compiled(2_360, 16)),
    ("20,000 methods", lambda: tables(shapes.many_methods(20_000))),
    ("101 tables", lambda: tables(*shapes.calling(101, 20, 2, b"\x08\x02"))),
    ("one long body", lambda: tables(shapes.method(b"MAIN", 0, MIXED * (((1 << 20) - 46) // len(MIXED))))),
)


def best(command, folder, words):
    """The shortest of some runs, with its peak memory: GNU time begins the command from a process that is small."""
    with open(folder / "text", "wb") as text, open(folder / "errors", "wb") as errors:
        how = {"stdout": text, "stderr": errors}
        answer = measuring.best(words.runs, command, folder, words.seconds, **how)
        if answer is None:
            return None
        ended(TIME, "-q", "-f", "%M", "-o", "peak", *command, cwd=folder, **how)
    return answer._replace(peak=int((folder / "peak").read_text().split()[-1]) * 1024)


def figures_of(name, make, words):
    """A set's name and size, and what runs by one worker, by several and of iasl took: None where one took too long."""
    with new_room() as room:
        tables, beside = room / "tables", room / "beside"
        size = measuring.write(tables, make)
        shutil.copytree(tables, beside)
        commands = [[words.program, "--workers", str(count), str(tables)] for count in (1, MOST_WORKERS)]
        commands.append(["iasl", "-d", *sorted(file.name for file in tables.iterdir())])
        return name, size, *(best(command, beside, words) for command in commands)


def row(figures, limit):
    name, size, alone, together, iasl = figures
    seconds = lambda it: f"{it.seconds:.{3 if it.seconds < 1 else 1}f} s" if it else f"no answer in {limit:g} s"
    memory = lambda it: f"{it.peak / 1e6:,.0f} MB" if it else ""
    times = ""
    if alone and together and iasl:
        times = f"{iasl.processor / max(alone.processor, 0.001):.1f}, {iasl.seconds / together.seconds:.1f}"
    cells = [
        name, f"{size / 1e6:.1f} MB" if size >= 1e5 else f"{size / 1e3:.1f} KB", seconds(alone),
        f"{alone.processor:.3f} s" if alone else "", seconds(together), memory(together), seconds(iasl), memory(iasl),
        str(iasl.status) if iasl else "", times,
    ]
    return "| " + " | ".join(cells) + " |\n"


def section(all_figures, asked, loads, stolen):
    compiler = " ".join(["iasl", *re.findall(r"version (\d+)", ended("iasl", "-v").out)[:1]])
    text = HEAD + "".join(row(figures, asked.seconds) for figures in all_figures)
    text += f"\nThe last column has one worker by processor time, and {MOST_WORKERS} by the clock."
    text += f" Measured on {datetime.date.today()} beside {compiler}, the best of {asked.runs} runs,"
    text += f" on {PROCESSORS} processors with a load of {min(loads):.1f} to {max(loads):.1f}."
    if stolen >= STOLEN_SHARE:
        text += f" Other machines took {stolen:.0%} of the processors' time meanwhile, so the times are too high."
    if max(loads) > BUSY_SHARE * PROCESSORS:
        text += " Others worked on the machine: the times are too high, and more workers gain less than they could."
    return text + "\n"


def across(seconds):
    """How far to the right so many seconds stand."""
    return LEFT + math.log(max(seconds, LEAST) / LEAST) / math.log(MOST / LEAST) * (WIDTH - LEFT - RIGHT)


def text(x, y, words, anchor="start"):
    return f'<text x="{x:.1f}" y="{y:.1f}" text-anchor="{anchor}" fill="{INK}">{escape(words)}</text>\n'


def rectangle(x, y, width, height, colour, more=""):
    return f'<rect x="{x:.1f}" y="{y:.1f}" width="{width:.1f}" height="{height:.1f}" fill="{colour}"{more}/>\n'


def bar(y, answer, limit, colour):
    """One bar with its label; it has an outline alone where there was no answer."""
    seconds = answer.seconds if answer else limit
    label = f"{seconds * 1000:.0f} ms" if seconds < 1 else f"{seconds:.1f} s"
    look = (colour,) if answer else (PAPER, f' stroke="{colour}" stroke-dasharray="4 3"')
    width = max(across(seconds) - LEFT, 1)
    drawn = rectangle(LEFT, y, width, BAR - 2, *look)
    return drawn + text(LEFT + width + 5, y + 11, label if answer else f"not in {limit:g} s")


def picture(all_figures, limit):
    group = 3 * BAR + GAP
    bottom = ABOVE + group * len(all_figures) - GAP + 6
    height = bottom + FOOT
    drawn = f'<svg xmlns="http://www.w3.org/2000/svg" viewBox="0 0 {WIDTH} {height}" width="{WIDTH}" height="{height}"'
    drawn += ' font-family="sans-serif" font-size="12" role="img">\n'
    drawn += "<title>Seconds by set: acpidis and iasl -d</title>\n" + rectangle(0, 0, WIDTH, height, PAPER)
    drawn += text(LEFT, 20, "Seconds for a whole run, on a logarithmic axis; shorter is faster")
    x = LEFT
    for label, colour in zip(("acpidis, 1 worker", f"acpidis, {MOST_WORKERS} workers", "iasl -d"), COLOURS):
        drawn += rectangle(x, 34, 12, 12, colour) + text(x + 17, 44.5, label)
        x += 45 + 7 * len(label)
    for seconds in TICKS:
        x = across(seconds)
        drawn += f'<line x1="{x:.1f}" y1="{ABOVE - 6}" x2="{x:.1f}" y2="{bottom}" stroke="{GRID}"/>\n'
        drawn += text(x, bottom + 16, f"{seconds * 1000:g} ms" if seconds < 0.99 else f"{seconds:.0f} s", "middle")
    for number, (name, _, *answers) in enumerate(all_figures):
        y = ABOVE + number * group
        drawn += text(LEFT - 10, y + group / 2 - 3, name, "end")
        for place, (answer, colour) in enumerate(zip(answers, COLOURS)):
            drawn += bar(y + place * BAR, answer, limit, colour)
    return drawn + "</svg>\n"


def main():
    words = asked(__doc__, program=PROGRAM, only="", runs=5, seconds=60.0)
    if shutil.which("iasl") is None or not os.access(TIME, os.X_OK):
        sys.exit("iasl or GNU time isn't installed: apt-get install acpica-tools time")
    all_figures, loads, begun = [], [], measuring.processor_time()
    for name, make in SETS:
        if words.only in name:
            loads.append(os.getloadavg()[0])
            all_figures.append(figures_of(name, make, words))
            print(row(all_figures[-1], words.seconds), end="", file=sys.stderr, flush=True)
    ticks, stolen = (now - then for now, then in zip(measuring.processor_time(), begun))
    text = section(all_figures, words, loads, stolen / max(ticks, 1))
    if words.only:
        print(text, end="")
        return
    before, mark, rest = README.read_text().partition(BEGIN)
    _, end, after = rest.partition(END)
    if not mark or not end:
        sys.exit("README.md has no place for the figures")
    README.write_text(before + mark + text + end + after)
    PICTURE.write_text(picture(all_figures, words.seconds))


main()
