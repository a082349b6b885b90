"""Words of the ACPI Specification 6.5 for numbers and names that a listing has, and the identifiers that it has as
numbers and bytes: EISA ids and UUIDs."""

from __future__ import annotations

import pathlib
import re
import uuid

# 5.3.1, 5.7, what is there before any table is loaded, below the root
PREDEFINED = dict.fromkeys(("_GPE", "_PR_", "_SB_", "_SI_", "_TZ_"), "Scope")
PREDEFINED |= {"_GL_": "Mutex", "_OS_": "Name", "_REV": "Name", "_OSI": "Method 1"}

# The lists of words.txt, by their names
LISTS = (pathlib.Path(__file__).parent / "words.txt").read_text().replace("\n  ", " ")
WORDS = {name: tuple(words.split("; ")) for name, words in re.findall(r"^(\w+): (.*)$", LISTS, re.MULTILINE)}
SPACES = {**dict(enumerate(WORDS["SPACES"])), 0x7F: "FFixedHW"}
FIRST_OF_VENDORS = 0x80
ACCESS_TYPES, LOCK_RULES, UPDATE_RULES = (WORDS[name] for name in ("ACCESS_TYPES", "LOCK_RULES", "UPDATE_RULES"))


def tables_in(file):
    """The tables of a text beside this one, each by the first words of its lines."""
    for table in (pathlib.Path(__file__).parent / file).read_text().split("\n\n"):
        yield dict(line.split(" ", 1) for line in table.splitlines() if not line.startswith("#"))


# A table by the names of predefined objects, one by the identifiers of devices, and one by UUIDs, each with some words.
PREDEFINED_NAMES, DEVICE_NAMES, UUID_NAMES = tables_in("standard.txt")
PREDEFINED_NAMES.update((f"_AC{digit}", PREDEFINED_NAMES["_ACx"]) for digit in range(10))
PREDEFINED_NAMES.update((f"_AL{digit}", PREDEFINED_NAMES["_ALx"]) for digit in range(10))

# A compiler writes one as short as it may.
EISA_NUMBER = re.compile(r"0x[0-9A-F]{4}(?:[0-9A-F]{4})?")
UUID_LENGTH = 16


def escaped(data: bytes, plain=range(0x20, 0x7F)) -> str:
    """Bytes as a text, those that aren't plain as \\x and two digits."""
    return "".join(chr(byte) if byte in plain else f"\\x{byte:02X}" for byte in data)


def counted(count: int, word: str) -> str:
    return f"{count:,} {word}{'' if count == 1 else 's'}"


def space_name(number: int) -> str:
    return SPACES.get(number) or (f"0x{number:02X}" if number < FIRST_OF_VENDORS else f"vendor's 0x{number:02X}")


def named(words: tuple, number: int) -> str:
    return words[number] if number < len(words) else f"0x{number:X}"


def status_words(number: int, is_power: bool = False) -> str:
    """What _STA says with a number: of a device, whose last bit counts of a battery alone, or of a power resource."""
    if is_power:
        return named(WORDS["POWER"], number)
    *bits, battery = WORDS["STATUS_BITS"]
    bits_told = bits if number & 0b1001 else bits[:1]
    words = [word if number >> bit & 1 else f"not {word}" for bit, word in enumerate(bits_told)]
    return ", ".join(words + [battery] * (number >> len(bits) & 1))


def eisa_id(number: str) -> str:
    """The identifier that `EisaId` makes this number of, and nothing where it makes none so."""
    code = int.from_bytes(int(number, 16).to_bytes(4, "little"), "big")
    letters = [code >> shift & 0x1F for shift in (26, 21, 16)]
    if code >> 31 or not all(1 <= letter <= 26 for letter in letters):
        return ""
    return "".join(chr(0x40 + letter) for letter in letters) + f"{code & 0xFFFF:04X}"


def eisa_number(identifier: str) -> int | None:
    """The number that `EisaId` makes of an identifier."""
    if not re.fullmatch("[A-Z]{3}[0-9A-F]{4}", identifier):
        return None
    letters = [ord(letter) - 0x40 for letter in identifier[:3]]
    code = letters[0] << 26 | letters[1] << 21 | letters[2] << 16 | int(identifier[3:], 16)
    return int.from_bytes(code.to_bytes(4, "little"), "big")


def with_name(identifier: str, names: dict[str, str] = DEVICE_NAMES) -> str:
    """An identifier, of a device or a UUID, with its name."""
    return f"{identifier} {names.get(identifier, '')}".rstrip()


def uuid_text(data: bytes) -> str:
    """The UUID that `ToUUID` makes these bytes of, and nothing where they hardly are one: its version is 1 to 5, and
    its variant that of the standard (RFC 4122)."""
    if len(data) != UUID_LENGTH:
        return ""
    text = str(uuid.UUID(bytes_le=data))
    is_likely = 1 <= data[7] >> 4 <= 5 and data[8] >> 6 == 0b10
    return text if is_likely or text in UUID_NAMES else ""
