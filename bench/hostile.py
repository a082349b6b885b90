#!/usr/bin/env python3
"""Times the disassembly of sets that are made to hurt, each at half its size and at its whole size.

usage: bench/hostile.py [ACPIDIS] [--only WORD] [--runs N] [--seconds N] [--large]

For each shape one line is printed: its size; the shortest time of N runs at the whole size; the most memory; how many
times as much processor time and memory it takes as at half the size; how much text that is; the status; the same of
`--check`; and for sets of one table, where it is installed (Debian: apt-get install acpica-tools) and answers within
20 seconds, the time of `iasl -d`. --large adds 512 files of 16 MB each, for which the program needs 9 GB.

A shape's time should grow no more than 2.4 times; where it does, the line ends with GROWS. The shapes with `*` may
take 4.4 times as much: docs/limits.md says which two dimensions grow together in them."""
import os
import shutil

import measuring
import hostile_shapes
from trying import PROCESSORS, PROGRAM, asked, ended, new_room

MOST_GROWTH, MOST_SQUARE_GROWTH = 2.4, 4.4
IASL_SECONDS = 20
# Below this much processor time the start of the program counts for too much.
LEAST_SECONDS = 0.1


def answer_text(whole, half, most):
    """The time and the memory of a run, how many times those of its half they are, and whether that is too much."""
    text = f"{whole.seconds:7.2f} s {whole.peak / 1e6:6.0f} MB" if whole else "no answer"
    if not (whole and half):
        return text, True
    times, memory = whole.processor / max(half.processor, 0.001), whole.peak / half.peak
    return f"{text} ({times:.1f} and {memory:.1f} times)", times > most and whole.processor > LEAST_SECONDS


def line(shape, answers, text_bytes, iasl):
    most = MOST_SQUARE_GROWTH if shape.is_square else MOST_GROWTH
    plain, grows = answer_text(*answers[0], most)
    check, check_grows = answer_text(*answers[1], most)
    whole, star = answers[0][0], "*" if shape.is_square else ""
    status = f", status {iasl.status}" if iasl and iasl.status else ""
    words = [
        f"{shape.name + star:18}", f"{shape.size:>8} {shape.unit:9}", plain,
        f"{text_bytes / 1e6:6.0f} MB of text" if text_bytes is not None else "",
        f"status {whole.status}" if whole else "", f"--check {check}",
        f"iasl -d {iasl.seconds:.2f} s{status}" if iasl else "", "GROWS" if grows or check_grows else "",
    ]
    return "   ".join(word for word in words if word)


def run_shape(shape, compiler, work, asked):
    folders = [work / f"{shape.name}-{part}" for part in ("half", "whole")]
    answers = [[], []]
    for folder, size in zip(folders, (shape.size // 2, shape.size)):
        measuring.write(folder, lambda: shape.make(size))
        command = [asked.program, *shape.options(folder), str(folder)]
        for kind, words in zip(answers, (command, [*command, "--check"])):
            kind.insert(0, measuring.best(asked.runs, words, folder, asked.seconds))
    text_bytes = int(ended("sh", "-c", '"$0" "$@" | wc -c', *command, cwd=folder).out) if answers[0][0] else None
    is_one = [path.name for path in folder.iterdir()] == ["dsdt.dat"]
    iasl = measuring.best(1, [compiler, "-d", "dsdt.dat"], folder, IASL_SECONDS) if compiler and is_one else None
    print(line(shape, answers, text_bytes, iasl), flush=True)
    for folder in folders:
        shutil.rmtree(folder)


def main():
    words, compiler = asked(__doc__, program=PROGRAM, only="", runs=3, seconds=120.0, large=False), shutil.which("iasl")
    print(f"a load of {os.getloadavg()[0]:.1f} on {PROCESSORS} processors", flush=True)
    with new_room() as work:
        for shape in hostile_shapes.SHAPES:
            if words.only in shape.name and (words.large or not shape.large):
                run_shape(shape, compiler, work, words)


main()
