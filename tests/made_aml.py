"""Pieces of AML, and whole tables, of which the tests beside this file and the benches make their sets."""

import random
import re

from trying import TOP
from made_code import LEADS, package_length
from made_sets import sealed

LETTERS, DIGITS = "ABCDEFGHIJKLMNOPQRSTUVWXYZ", "0123456789ABCDEFGHIJKLMNOPQRSTUVWXYZ_"


def packed(opcode, content, width=2):
    """An opcode with a package length of so many bytes or more around its content (ACPI 6.5, 20.2.4)."""
    return opcode + package_length(len(content), width) + content


def scope(name, *terms, width=2):
    return packed(b"\x10", name + b"".join(terms), width)


def device(name, *terms, width=2):
    return packed(b"\x5B\x82", name + b"".join(terms), width)


def method(name, flags, *terms, width=2):
    return packed(b"\x14", name + bytes([flags]) + b"".join(terms), width)


def buffer(data):
    return packed(b"\x11", b"\x0A" + bytes([len(data)]) + data)


def table(signature, code, oem_table=b"EXAMPLE"):
    """A table with this AML and a right checksum (ACPI 6.5, 5.2.6)."""
    return sealed(signature + b"\0\0\0\0\2\0TEST  " + oem_table.ljust(8) + b"\1\0\0\0TEST\1\0\0\0" + code)


def tables(*codes, make=table):
    """The files of a DSDT with the first of these, and of SSDTs with the others."""
    names = ["dsdt.dat", *(f"ssdt{number}.dat" for number in range(1, len(codes)))]
    return {name: make(name[:4].upper().encode(), code) for name, code in zip(names, codes)}


def segment(number):
    """A name segment for each number below 1,316,978, ordered as the numbers are."""
    digits = ""
    for _ in range(3):
        number, digit = divmod(number, len(DIGITS))
        digits = DIGITS[digit] + digits
    return (LETTERS[number] + digits).encode()


def each(numbers, make=lambda name: name):
    """What is made of the name of each of some numbers; of a count those below it, in order."""
    return b"".join(make(segment(number)) for number in (range(numbers) if isinstance(numbers, int) else numbers))


def mixed(count):
    return random.Random(1).sample(range(count), count)


ATOM = re.compile(r"\s*(?:(\w+)|'([^']*)'|([][]))(?:\s*\*([0-9]+))?\s*")


def bytes_of(text):
    """The bytes of a text in the language of tests/sets.txt, in which `*N` repeats what is in front of it."""
    opened, at = [b""], 0
    while at < len(text.rstrip()):
        atom = ATOM.match(text, at)
        if not atom:
            raise ValueError(f"no bytes: {text[at:]}")
        (word, plain, bracket, times), at = atom.groups(""), atom.end()
        if bracket == "[":
            opened.append(b"")
        elif bracket:
            content = opened.pop()
            opened[-1] = packed(opened[-1], content)
        else:
            opened[-1] += (LEADS.get(word) or bytes.fromhex(word) or plain.encode()) * int(times or 1)
    return opened[0]


SETS = {
    name: list(map(bytes_of, re.findall(r"^[DS]SDT: ((?:.*\n)(?:  .*\n)*)", part, re.M)))
    for name, part in re.findall(r"^== (.*)\n((?:(?!==).*\n)*)", (TOP / "tests/sets.txt").read_text(), re.M)
}
# A made-up board, for docs/facts.md and the tests of facts, in two versions of its firmware.
FIRST, SECOND, DEBUG = SETS["board"]
# The files of both by the names of their folders. The second has no SSDT, and another byte in a table without AML.
VERSIONS = {
    "first": {
        "dsdt.dat": table(b"DSDT", FIRST, b"BOARD"), "ssdt1.dat": table(b"SSDT", DEBUG, b"DbgPort"),
        "dmar.dat": table(b"DMAR", b"\x26\0", b"BOARD"),
    },
    "second": {"dsdt.dat": table(b"DSDT", SECOND, b"BOARD"), "dmar.dat": table(b"DMAR", b"\x26\1", b"BOARD")},
}
