#!/usr/bin/env python3
"""Checks what examples/page says of numbers and bytes: resources, identifiers, flags, places of field units.

    python3 tests/decoding.py [FOLDER ..]

First come rows that are worked out by hand from chapter 6.4 of the standard, and a set whose lines have to get the
notes that are written down here. Then what is said of the demo, of that set and of each FOLDER is compared with `iasl
-d`, table by table: the resources, the UUIDs, the EISA ids, the regions' spaces, the flags of field lists and the
places of their units. Where iasl isn't installed that part is left out, and said so."""

import ast
import difflib
import pathlib
import re
import shutil

from tally import DEMO, Tally, asked, new_room, tables_in, written
from acpidis_tools.decoding import Decoder, bits_text, flag_words
from dumps import order_of, read_folder
from iasl import facts_of
from acpidis_tools.listing import Listing, read_listing
from acpidis_tools.names import FIELD_LISTS, Names
from made_aml import SETS, buffer, tables
from acpidis_tools.resources import descriptors
from running import REFUSED, Options, run_folder
from acpidis_tools.standard import eisa_id, eisa_number, space_name, status_words, uuid_text

EISA = re.compile("[A-Z]{3}[0-9A-F]{4}")
LONG_NAME = "5C 5F 53 42 5F 00"  # \_SB_ and its NUL

# Rows of descriptors, bytes that are no template, what is said of lines, of predefined objects, and of numbers alone.
ROWS, NO_TEMPLATES, WANTED, OBJECTS, WORDS = tables_in("resources.txt")


def data_of(text: str) -> bytes:
    return bytes.fromhex(text.replace("LONG", LONG_NAME))


FUNCTIONS = {it.__name__: it for it in (bits_text, eisa_id, eisa_number, space_name, status_words)}
FUNCTIONS["uuid_of"] = lambda code: uuid_text(data_of(code))


def decoded(folder: pathlib.Path, options: Options = Options()) -> tuple:
    """The listing of a folder, and what decodes it; None where it is refused."""
    outcome = run_folder(folder, options)
    if outcome.status == REFUSED:
        return None
    listing = read_listing(outcome.out.encode())
    return listing, Decoder(listing, Names(listing))


def our_facts(listing: Listing, decoder: Decoder) -> dict[str, dict[str, list]]:
    """By each file what the modules say, in the order of the text."""
    found = {}
    for block in listing.blocks:
        facts = found[block.file[1:-1]] = {"resources": [], "UUIDs": [], "EISA ids": [], "spaces": [], "flags": [], "units": []}
        for line in block.lines:
            facts["resources"] += [one.text for template in decoder.templates(line) for one in template.descriptors]
            facts["UUIDs"] += decoder.uuids(line)
            if line.term == "OperationRegion":
                facts["spaces"] += [line.words[1][-4:] + " " + note for note in decoder.notes(line)]
            if line.term in FIELD_LISTS:
                facts["flags"].append(", ".join(flag_words(decoder.terms(line))))
            if line.number in decoder.units:
                unit = decoder.units[line.number]
                facts["units"].append(f"{line.term} {unit.bit} {unit.width}")
            ids = filter(EISA.fullmatch, decoder.identifiers(line))
            facts["EISA ids"] += [text for text in ids if f'"{text}"' not in line.words]
    return found


def made_set(room: pathlib.Path) -> pathlib.Path:
    """The set of the notes, and an SSDT with a buffer of all descriptors that iasl of 2020 knows."""
    rows = [row.rpartition(": ") for row in ROWS]
    # iasl wants those that begin and end a list of choices in one buffer.
    choices = [code for text, _, code in rows if "Dependent" in text]
    codes = [code for text, _, code in rows if "Dependent" not in text] + [" ".join([*choices[:2], rows[0][2], choices[2]])]
    one = b"".join(b"\x08" + b"R%03d" % number + buffer(data_of(code) + b"\x79\0") for number, code in enumerate(codes))
    return written(room / "made", tables(*SETS["notes"], one))


class Checks(Tally):
    def check_rows(self) -> None:
        whole, texts = b"", []
        for row in ROWS:
            wanted, _, code = row.rpartition(": ")
            data = data_of(code)
            found = descriptors(data + b"\x79\0")
            self.is_same(f"the bytes {code}", found and [one.text for one in found], [wanted])
            whole += data
            texts.append(wanted)
            cuts = [descriptors(data[:size] + b"\x79\0") for size in range(1, len(data))]
            self.is_same(f"cuts of {code}", [cut for cut in cuts if cut and len(cut) > 1], [])
        self.is_same("all of them", [one.text for one in descriptors(whole + b"\x79\0") or []], texts)
        self.is_same("none", descriptors(b"\x79\0"), [])
        for code in NO_TEMPLATES:
            self.is_same(f"no template: {code}", descriptors(data_of(code)), None)

    def check_words(self) -> None:
        """Identifiers, spaces, status, places: by the standard's own examples and tables."""
        for name, *values in (row.split(" | ") for row in WORDS):
            *words, wanted = map(ast.literal_eval, values)
            self.is_same(f"{name} of {words}", FUNCTIONS[name](*words), wanted)

    def check_objects(self) -> None:
        listing, decoder = decoded(written(self.room / "objects", tables(*SETS["objects"])))
        found = [f"{line.words[1]}: {row}" for line in listing.lines for row in decoder.rows(line)]
        self.is_same("predefined objects", found, OBJECTS)

    def compare_notes(self, folder: pathlib.Path) -> None:
        listing, decoder = decoded(folder)
        said = {}
        for line in listing.blocks[0].lines:
            notes = decoder.notes(line) + [text for one in decoder.templates(line) for text in one.texts()]
            if notes:
                said["".join(line.pieces)] = "; ".join(notes)
        wanted = dict(row.rpartition(": ")[::2] for row in WANTED)
        short = {next((head for head in wanted if text.startswith(head)), text): note for text, note in said.items()}
        self.is_same("the notes of a set", short, wanted)

    def compare(self, what: str, folder: pathlib.Path) -> None:
        """What is said of a set beside iasl's text of each of its tables."""
        read = decoded(folder, Options(any_sum=True, any_run=True))
        if read is None:
            print(f"{what} is refused: nothing is compared")
            return
        ours, dumps = our_facts(*read), read_folder(folder)
        with new_room() as room:
            for index in order_of(dumps, True):
                theirs = facts_of(dumps[index].data, room)
                if theirs is None:
                    print(f"{what}, {dumps[index].name}: iasl -d fails, and nothing is compared")
                    continue
                for kind, facts in ours[dumps[index].name].items():
                    lines = difflib.unified_diff(theirs[kind], facts, lineterm="", n=0)
                    different = [line for line in lines if not line.startswith(("---", "+++", ""))]
                    self.is_same(f"{kind} of {what}, {dumps[index].name}", different, [])


def main() -> None:
    folders = asked(__doc__, folders=()).folders
    with Checks() as checks:
        checks.check_all()
        made = made_set(checks.room)
        checks.compare_notes(made)
        if shutil.which("iasl"):
            for folder in (DEMO, made, *folders):
                checks.compare(folder.name, folder)
        else:
            print("iasl is not there, so nothing is compared with it: on Debian, apt-get install acpica-tools")


main()
