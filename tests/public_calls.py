#!/usr/bin/env python3
"""Compares the public functions of the crates with the table of those whose whole answers ./test compares.

A contract says nothing of a body that always wants memory, or never returns, so each public function has to be called
once with ample memory, and what it answers compared. tests/public_calls.txt says by which part of ./test. It fails
where a public function stands in no part, where one is named that there isn't, and where the program or the tests of a
part don't call one that is named there, by themselves or through other functions. What operators, `?` and formatting
call by themselves has no name by which a call could be found, and functions that take and answer nothing, which are
laws, have no answer: they aren't looked at."""

import collections
import re

from tally import TOP, Tally, module_of
from wrong_bodies import functions_of, sources_in

TABLE = TOP / "tests/public_calls.txt"
# It knows the crates.
BUILD = module_of("build", TOP / "build")
# The crates whose functions begin the calls of a part. The example call_list is no part of ./test.
PARTS = {"rows": "acpi_cases", "runs": "acpidis_program", "tests": "library_tests", "pool": "pool_tests", "library": "acpidis_c"}
NOT_SURFACE = {*PARTS.values(), "pool_bench", "call_list"}
UNNAMED = {"From", "Display", "PartialEq", "PartialOrd", "Ord", "Drop"}
CALL = re.compile(r"(?:(\.)|\b(\w+)(?:::<[^()]*>)?::)?\b([a-z_]\w*)\b")

# A function: its crate, the type that it is a method of, its name, its trait, whether it is public, and its text
Function = collections.namedtuple("Function", "crate type name trait public text")


def functions_in(crate):
    for file, text in sources_in(str(TOP / "crates" / crate)).items():
        for it in functions_of(file, text):
            trait = (it.trait or "").partition("<")[0].rpartition("::")[2]
            form = rf"^ *pub (?:(?:const|final|unsafe) )*fn {it.name}\b"
            public = bool(trait or re.search(form, text[it.start : it.begin], re.M))
            if trait not in UNNAMED:
                yield Function(crate, it.type, it.name, trait, public, text[it.start : it.end])


def exported(crate, crates):
    """The names of a crate's own items that others can use."""
    text = (TOP / "crates" / crate / "src/lib.rt").read_text()
    found = re.findall(r"^pub use (\w+)(?:::\w+)*::(?:\{(.*?)\}|(\w+));", text, re.M | re.S)
    return {name for head, names, one in found if head not in crates for name in re.findall(r"\w+", names or one)}


def surface(functions, crates):
    """The public functions of all crates but programs and tests, by their crates and names. Laws aren't among them."""
    names = {crate: exported(crate, crates) for crate in {it.crate for it in functions} - NOT_SURFACE}
    for it in functions:
        is_law = re.search(rf"^pub fn {it.name}\(\)$", it.text, re.M)
        if it.public and not is_law and it.crate in names and (it.type or it.name) in names[it.crate]:
            yield it


def title(function):
    return "::".join(filter(None, (function.crate, function.type, function.name)))


def called_from(functions, crate, below):
    """The functions that those of a crate call, by themselves or through others, as far as names tell."""
    methods, frees = collections.defaultdict(list), collections.defaultdict(list)
    for it in functions:
        (methods if it.type else frees)[it.name].append(it)
    reached, waiting = set(), [it for it in functions if it.crate == crate]
    while waiting:
        here = waiting.pop()
        body = re.sub(r"//.*|\b(?:requires|ensures)\b.*?\}$", "", here.text)
        for dot, owner, name in CALL.findall(body):
            owner = here.type if owner == "Self" else owner
            if dot:
                found = methods[name]
            elif owner and owner[0].isupper():
                found = [it for it in methods[name] if it.type == owner]
            else:
                found = frees[name]
            for it in found:
                # A method of a trait is also called from crates below, which know its trait alone.
                if it.crate in below[crate if it.trait else here.crate] and it not in reached:
                    reached.add(it)
                    waiting.append(it)
    return {title(it) for it in reached}


def main():
    # The crates of the repository that each stands on, itself among them
    names = re.findall(r"^(\w+).*:", (TOP / "crates.txt").read_text(), re.M)
    below = {name: set(BUILD.crates([name])) for name in names}
    functions = [it for crate in below for it in functions_in(crate)]
    public = sorted({title(it) for it in surface(functions, below)})
    called = {part: called_from(functions, crate, below) for part, crate in PARTS.items()}
    # The functions that the table has, each with its part
    rows = re.findall(r"^\[(\w+)\].*\n((?:(?!\[).*\n)*)", TABLE.read_text(), re.M)
    crates = [(part, *row) for part, lines in rows for row in re.findall(r"^(\w+): (.*)", lines, re.M)]
    told, checks = [(part, f"{crate}::{name}") for part, crate, names in crates for name in names.split()], Tally()
    for name in public:
        is_told = any(name == it for _, it in told)
        checks.is_so(f"{name}: no part of ./test is named that compares what it answers", is_told)
    for part, name in told:
        wrong = "there is no such public function" if name not in public else f"the part '{part}' doesn't call it"
        checks.is_so(f"{name}: {wrong}", name in public and name in called.get(part, ()))
    checks.end()


main()
