#!/usr/bin/env python3
"""Checks examples/asl.py, splice.py, unpack.py and show.py.

    python3 tests/asl.py [--sets N] [--stop] [FOLDER ..]

Of sample sets, of made-up sets of which ASL has each term, and of each FOLDER, asl.py makes ASL of the listing. Where
iasl is there it compiles each block of which nothing is told, which has to give the dump's bytes again. 150 methods,
grown by 1 to 70,000 bytes, are put into their dumps by splice.py: the listings differ in the lines that are new.
unpack.py does as acpixtract does, where that is there."""

import itertools
import os
import random
import re
import shutil

from tally import DEMO, PROGRAM, Tally, asked, ended, parts_in, side_by_side, tables_in, timed, written
import hostile_shapes as shapes
import splice
from dumps import aml_of, dumps_of, read_folder
from hostile import SAMPLES, head_of, repeated, text_of
from made_aml import SETS, VERSIONS, device, method, scope, table, tables
from made_code import shortest
from made_plain import PlainMaker
from made_sets import sealed
from namespaces import load, path_text
from printing import file_text
from reading import Name
from running import REFUSED, Options, run

ASL, SPLICE, UNPACK, SHOW = "asl.py", "splice.py", "unpack.py", "show.py"
IASL, ACPIXTRACT = shutil.which("iasl"), shutil.which("acpixtract")
HEADER, MOST_GROWN, GROWN = 36, 70_000, 150
NOOP = b"\xA3"


def compiled(path):
    """What iasl makes of a file by the command on its first line; None where it makes nothing."""
    command = path.read_text("ascii").partition("\n")[0].removeprefix("// ").split()
    ended(*command[:-1], path.name, cwd=path.parent)
    made = path.with_suffix(".aml")
    return made.read_bytes() if made.exists() else None


def plain_set(seed):
    return tables(*PlainMaker(random.Random(seed)).tables())


ROWS = ["\\FOO_ Method 1", "\\BAR_ Name", "\\DEV0 Device", "\\DEV0._STA Method 0"]
SCOPED = "FOO_ (One)\n  }\n  Scope (FOO_) {", "FOO_ as a call, where nothing says that it is a method"
WIDE = "0x1122334455667788"
WHOLE = text_of(ROWS, ["Method (FOO_, 1, NotSerialized, 0) {", "  Noop", "}"], "a.dat")
BLOCK = WHOLE[WHOLE.index("DefinitionBlock") :]
BODIES, UNITS, CHANGES, UNSPLICED, METHODS = ([row.split("  # ") for row in it] for it in tables_in("unspelled.txt"))


def changed(change):
    """The listing with a change of that table."""
    old, _, new = re.sub(r"<(.*?)\*(\d+)>", repeated, change).partition(" => ")
    return WHOLE.replace(old, new.replace("\\n", "\n    "))


# Texts that are no listings, with what is said of them.
MISREAD = [
    ("", "it is empty"),
    ("\n", "it doesn't begin as a listing of acpidis does, with a line Table or Root"),
    (WHOLE[:-1], "it is cut in line 11"),
    (WHOLE[:-2], "it is cut behind line 10"),
    (WHOLE + BLOCK, "line 12 isn't one of a listing of acpidis"),
    (WHOLE + "more\n", "line 12 isn't one of a listing of acpidis"),
    *((changed(change), what) for change, what in CHANGES),
]


def text_with(body, revision=2):
    lines = ["Method (FOO_, 1, NotSerialized, 0) {", f"  {body}", "}", "Name (BAR_, One)", "Device (DEV0) {"]
    return text_of(ROWS, [*lines, "  Method (_STA, 0, NotSerialized, 0) {", "  }", "}"], "a.dat", revision=revision)


def listed(folder, options=()):
    return ended(PROGRAM, *options, folder).out


def dumped(name, address, data):
    """The text of acpidump for a table: its signature, its address and its bytes."""
    rows = ((at, data[at : at + 16]) for at in range(0, len(data), 16))
    shown = (f"    {at:04X}: {row.hex(' ').upper():48} {re.sub(rb'[^ -~]', b'.', row).decode()}\n" for at, row in rows)
    return "".join([f"{name} @ 0x{address:016X}\n", *shown, "\n"])


def files_in(folder):
    return {path.name: path.read_bytes() for path in folder.iterdir()}


class Checks(Tally):
    same = told = 0

    def compile_again(self, name, dumps, options):
        """Each block of a set's listing of which nothing is told compiles to its dump."""
        outcome = run(dumps, options)
        if outcome.status == REFUSED:
            return
        place = written(self.room / name / "dumps", {dump.name: dump.data for dump in dumps})
        text, out = self.text(f"{name}/text", outcome.out), self.room / name / "out"
        ran = self.run(ASL, "--tables", place, text, out)
        told = {line.removeprefix("acpidis-asl: ").partition(": ")[0] for line in ran.err.splitlines()}
        self.is_so(f"{name}: {ran.err[-500:]}", ran.status in (0, 3) and "Traceback" not in ran.err)
        made = sorted(out.iterdir(), key=lambda path: path.stat().st_mtime_ns)
        data = {file_text(dump.name)[1:-1]: dump.data for dump in dumps}
        for file, path in zip(re.findall(r'^DefinitionBlock \("(.*)"\) \{$', outcome.out, re.M), made):
            self.told += file in told
            if IASL and file not in told:
                self.same += 1
                # It has the bytes of the dump, but for its sum and its creator.
                made, dump = compiled(path) or b"", data[file][: int.from_bytes(data[file][4:8], "little")]
                same = (made[:9], made[10:28], made[HEADER:]) == (dump[:9], dump[10:28], dump[HEADER:])
                self.is_so(f"{name}: {file} again", same)

    def compile_sets(self, count, folders):
        jobs = [(name, dumps_of(files), Options(any_run=True)) for name, files in SAMPLES.items()]
        jobs += [("demo", read_folder(DEMO), Options())]
        jobs += [(f"plain{seed}", dumps_of(plain_set(seed)), Options()) for seed in range(count)]
        jobs += [(f"of_{it.name}", read_folder(it), Options(any_run=True, any_sum=True)) for it in folders]
        list(side_by_side(lambda job: self.compile_again(*job), jobs))
        if IASL:
            self.is_so(f"most made-up tables are compiled: {self.same} of {self.same + self.told}", self.same >= count)

    def check_forms(self):
        """Lengths and names that aren't in their shortest form are told by the dumps."""
        place = written(self.room / "forms", tables(device(b"DEV0", b"\x08\x2F\1NAM0\1", method(b"NAM1", 0))))
        self.text("forms.text", listed(place))
        words = [ASL, "--tables", place, "forms.text", "formed"]
        what = "dsdt.dat: 2 of 2 lengths, 1 of 3 names aren't in their shortest form, which iasl writes"
        self.refuses("forms", words, what, 3)
        (place / "dsdt.dat").write_bytes(table(b"DSDT", b"\x08NAM0\1"))
        what = f"{str(place / 'dsdt.dat')!r} isn't the dump of this listing: they differ at byte 37"
        self.refuses("another dump", words, what, 2)

    def check_told(self):
        rows = [(body.replace("\\n", "\n    "), what, 9, 2) for body, what in BODIES]
        rows += [(f"Field (REG0, 0x01) {{\n      {unit}\n    }}", what, 10, 2) for unit, what in UNITS]
        wide = f"{WIDE} in a table of revision 1, whose integers have 4 bytes"
        rows += [(*SCOPED, 9, 2), (f"Store ({WIDE}, Local0)", wide, 9, 1)]
        for at, (body, what, number, revision) in enumerate(rows):
            text = self.text("told.text", text_with(body, revision))
            self.refuses(body, [ASL, text, f"told{at}"], f"a.dat: line {number} of the listing: {what}", 3)

    def check_method(self):
        """Nothing is made of a raw method, of several, or of a path not from the root; and iasl refuses a raw body."""
        raw = self.text("raw.text", text_with("Raw {A4}"))
        for path, said in METHODS:
            self.refuses(f"--method {path}", [ASL, "--method", path, raw, "method"], f"{str(raw)!r}: {said}")
        self.is_so("no method is written", not (self.room / "method").exists())
        twice = self.text("twice.text", WHOLE[:-2] + "  Method (FOO_, 0, NotSerialized, 0) {\n  }\n}\n")
        said = f"{str(twice)!r}: it declares \\FOO_ on the lines 8, 11: change the table as a whole, with --edit"
        self.refuses("a method twice", [ASL, "--method", "FOO_", twice, "method"], said)
        for option in ("--edit",), ():
            out = self.room / f"raw{len(option)}"
            self.is_same("a raw body is told", self.run(ASL, *option, raw, out).status, 3)
            self.is_so("iasl refuses a raw body", not IASL or not compiled(out / "a.dat.asl"))

    def check_misread(self):
        for content, what in MISREAD:
            text = self.text("misread.text", content)
            for words in ([ASL, text, "misread"], [ASL, "--edit", text, "misread"]):
                self.refuses(content[-300:], words, f"{str(text)!r}: {what}")
        self.is_so("nothing is written", not (self.room / "misread").exists())
        text.write_bytes(WHOLE.replace("\n", "\r\n").encode())
        self.says("lines as on Windows", [ASL, text, "windows"], 0)

    def check_circle(self):
        """Two Aliases that name each other, one of which is called."""
        rows = ["\\AAAA Alias \\BBBB", "\\BBBB Alias \\AAAA", "\\MAIN Method 0"]
        lines = ["Alias (BBBB, AAAA)", "Alias (AAAA, BBBB)", "Method (MAIN, 0, NotSerialized, 0) {", "  AAAA (One)", "}"]
        text = self.text("circle.text", text_of(rows, lines, "a.dat"))
        what = "a.dat: line 10 of the listing: AAAA as a call, where nothing says that it is a method"
        self.refuses("a circle of Aliases", [ASL, text, "circle"], what, 3)

    def check_names(self):
        """Files of names that a command could take for something else, and many blocks."""
        odd = ["-o", "a b;$(touch bad)", "..", "*/ \\x0A", "DSDT", "_-o"]
        many, alike = ([name.format(number) for number in range(512)] for name in ("f{}.dat", "\\x{:02X}"))
        for what, names in {"odd": odd, "many": many, "alike": alike}.items():
            heads = "".join(head_of(name, "SSDT") for name in names)
            blocks = "".join(f'DefinitionBlock ("{name}") {{\n}}\n' for name in names)
            text = self.text(f"{what}.text", f"{heads}Namespace 0\n{blocks}")
            self.says(f"{what} names of files", [ASL, text, what], 0)
            found = sorted(path.name for path in (self.room / what).iterdir())
            is_harmless = all(re.fullmatch(r"[A-Za-z0-9_+][A-Za-z0-9_.-]*", it) for it in found)
            self.is_so(f"files of harmless names: {found}", len(found) == len(names) and is_harmless)

    def check_speed(self):
        """Time grows as the text: 1 MB in six seconds, and four times as much in less than eight times that."""
        block = text_with("Store (Add (FOO_ (0x12), Buffer (0x08) {01, 02, 03, 04, 05, 06, 07, 08}, Local0), BAR_)")
        head, _, body = block.partition('DefinitionBlock ("a.dat") {\n')
        times = []
        for size, most in ((1_000_000, 6), (4_000_000, 24)):
            lines = 'DefinitionBlock ("a.dat") {\n' + body[:-2] * (size // len(body)) + "}\n"
            text = self.text(f"{size}.text", head + lines)
            times.append(timed(self.run, ASL, "--edit", text, f"of{size}", most=most)[1])
        self.is_so(f"seconds of 1 MB and 4 MB: {times}", times[0] < 6 and times[1] < 8 * times[0])

    def put_in(self, file, made, path, lines, options=()):
        """What a table has at a path is put into a dump, which is read whole, and its listing has these lines more."""
        dump, before = file.read_bytes(), listed(file.parent, options)
        (self.room / "new.aml").write_bytes(made)
        file.write_bytes(self.says(f"splice {path}", [SPLICE, file, "new.aml", path], 0, b"", errors=None))
        checked = listed(file.parent, [*options, "--check"])
        self.is_so(f"{file}: {path}: {checked}", " Differs" not in checked and f'Check "{file.name}"' in checked)
        # They stand one behind the other, and one table has another length.
        form, both = re.compile(r'^(Table "[^"]*" "[^"]*") Length \d+', re.M), (before, listed(file.parent, options))
        before, after = (form.sub(r"\1", text).split("\n") for text in both)
        same = len(os.path.commonprefix([before, after]))
        new = after[same : same + len(lines)]
        is_added = after == before[:same] + new + before[same:] and [it.strip() for it in new] == lines
        self.is_so(f"{file}: {path}: only these lines more", is_added)
        file.write_bytes(dump)

    def added(self, name, dumps, options):
        """Each method of a set with a statement more is compiled alone and spliced: the listings differ in its line."""
        place = written(self.room / f"changed {name}", {dump.name: dump.data for dump in dumps})
        text, statement = self.text(f"{name}.text", listed(place, options)), "Store (0x11223344, Debug)"
        for number, path in enumerate(re.findall(r"^  (\S+) Method [0-7]$", text.read_text(), re.M)):
            out = self.room / f"{name}.{number}"
            if self.run(ASL, "--method", path, text, out).status:
                continue
            (source,) = out.iterdir()
            whole, method_line = source.read_text("ascii"), re.compile(r"^( *)Method \(.*\n", re.M)
            source.write_text(method_line.sub(rf"\g<0>\1  {statement}\n", whole, count=1), "ascii")
            made = compiled(source)
            self.is_so(f"{name}: {path} is compiled", made)
            if made:
                self.put_in(place / source.name.removesuffix(".asl"), made, path, [statement], options)

    def edit_tables(self):
        """Whole tables to be changed are compiled, but with a name that nothing declares."""
        self.text("edit.text", listed(written(self.room / "edit", VERSIONS["first"])))
        self.says("--edit", [ASL, "--edit", "edit.text", "edited"], 0)
        self.says("--edit once more", [ASL, "--edit", "edit.text", "edited"], 0)
        what = "'edited/dsdt.dat.asl' is there, and may have been changed: remove it, or name another folder"
        self.refuses("without --edit", [ASL, "edit.text", "edited"], what, 2)
        self.text("edited/dsdt.dat.asl", (self.room / "edited/dsdt.dat.asl").read_text("ascii") + "// changed\n")
        self.refuses("--edit of what is changed", [ASL, "--edit", "edit.text", "edited"], what, 2)
        for source in (self.room / "edited").iterdir():
            self.is_so(f"{source.name} is compiled", compiled(source))
            text = source.read_text("ascii")
            rows = ("Store (Arg0, DBG0)", True), ("Store (Arg0, DBGX)", False), ("POST (Arg0)", True), ("POST ()", False)
            for statement, holds in rows:
                source.write_text(re.sub(r"(Method \([A-Z_]*, 1, .*\n)", rf"\g<1>{statement}\n", text), "ascii")
                source.with_suffix(".aml").unlink(missing_ok=True)
                self.is_same(f"{source.name} with {statement}", compiled(source) is not None, holds)

    def check_grown(self):
        """Methods of made-up sets, each with so many more statements at its end."""
        chance, number = random.Random(0), 0
        for seed in itertools.takewhile(lambda _: number < GROWN, range(1000, 1200)):
            files = plain_set(seed)
            place, loaded = written(self.room / f"grown{seed}", files), load(list(map(aml_of, files.values())))
            methods = [it for it in loaded.space.methods if not loaded.body(it, False).fault]
            for it in chance.sample(methods, min(4, len(methods))):
                number += 1
                more = NOOP * chance.choice((1, 2, 50, 63, 4000, chance.randrange(1, MOST_GROWN), MOST_GROWN))
                code = loaded.codes[it.table]
                new = method(shortest(Name(True, 0, it.path)), code[it.start - 1], code[it.start : it.end], more)
                file, path = place / list(files)[it.table], path_text(it.path)
                self.put_in(file, table(b"SSDT", new), path, ["Noop"] * len(more))
        self.is_so(f"{number} methods are grown", number >= GROWN)

    def check_splice(self):
        """What is refused, what else may be put in, revisions and archives."""
        declared, twice = device(b"DEV0", b"\x08NAM0\x01", method(b"MET0", 0)), method(b"TWIC", 0) * 2
        again = scope(b"\\DEV0", method(b"MET0", 1, NOOP), b"\x08NAM0\x0A\x07")
        files = {
            "old": table(b"DSDT", declared + b"\x08NAM1\1" + twice), "new": table(b"SSDT", again + b"\x08NAM1\x0D1\0"),
            "other": table(b"SSDT", device(b"NAM1")), "cut": table(b"SSDT", b"\x08NAM1")[:-1], "short": b"DSDT",
            "broken": table(b"SSDT", b"\x08NAM1\x01\x02"), "far": table(b"SSDT", b"\x08\\.DEV0NAM0\x12\x06\x01NAM1"),
        }  # fmt: skip
        written(self.room / "splice", files)
        old, new = "splice/old", "splice/new"
        for words, what in UNSPLICED:
            one, other, path = words.split()
            self.refuses(f"splice {words}", [SPLICE, f"splice/{one}", f"splice/{other}", path], what, printed="")
        self.is_same("no path", self.run(SPLICE, old, new, "1").status, 2)
        same = "splice/../splice/old"
        for words, file, what in [
            (["-o", old], old, "DUMP"), (["--initrd", same], same, "DUMP"), (["-o", new], new, "NEW"),
            (["-o", "-"], "-", "no name of a file"), (["--initrd", "./one", "-o", "one"], "./one", "one"),
        ]:  # fmt: skip
            ran = self.run(SPLICE, *words, old, new, "NAM1")
            said = f"acpidis-splice: {file!r} is {what}: name another"
            self.is_same(f"splice {words}", (ran.status, ran.err.splitlines()[-1]), (2, said))
        self.is_same("DUMP and NEW stay", [(self.room / it).read_bytes() for it in (old, new)], [files["old"], files["new"]])
        deep = table(b"DSDT", shapes.within(51_000, shapes.named(300) + shapes.name(b"\\MINE")))
        (self.room / "deep").write_bytes(deep)
        words = [SPLICE, "deep", "deep", "MINE"]
        _, seconds = timed(self.says, "deep", words, 0, b"", deep, errors=None, most=2)
        self.is_so(f"a scope of 51,000 segments: {seconds} s", seconds < 2)
        steps = shapes.within(255 * 12, method(b"_RUN", 0, NOOP) + shapes.regions(1000, 0, shapes.LEAF))
        (self.room / "steps").write_bytes(table(b"DSDT", shapes.LEAF_NAME + steps))
        said = "'steps': the scopes are too deep for this script to follow"
        self.refuses("a search of too many steps", [SPLICE, "steps", "steps", "LEAF"], said, printed="")
        (self.room / "led").write_bytes(b"")
        (self.room / "link").symlink_to("led")
        self.says("through a link", [SPLICE, "-o", "link", old, new, "NAM1"], 0, "", "")
        self.is_so("the link stays", (self.room / "link").is_symlink() and (self.room / "led").read_bytes())
        words = [SPLICE, "--oem-revision", "--initrd", "acpi.cpio", old, new, "\\DEV0.MET0", "dev0.nam0", "\\NAM1"]
        patched = self.says("three paths", words, 0, b"", errors=None)
        wanted = device(b"DEV0", b"\x08NAM0\x0A\x07", method(b"MET0", 1, NOOP)) + b"\x08NAM1\x0D1\x00" + twice
        head = bytearray(files["old"][:HEADER])
        head[24] += 1
        self.is_same("what is put in", patched, sealed(bytes(head) + wanted))
        self.look_at_archive(patched)
        lengths = [splice.spelled(*it) for it in ((63, 1), (64, 1), (4095, 2))]
        self.is_same("lengths", lengths, [b"?", b"@\x04", b"O\xff"])
        try:
            said = splice.spelled(1 << 28, 1)
        except splice.Refused as fault:
            said = str(fault)
        self.is_same("a length that no longer fits", said, "a package would be longer than a package length can say")
        (self.room / old).write_bytes(sealed(files["old"][:24] + b"\xFF" * 4 + files["old"][28:]))
        said = "the OEM revision can't be raised: it is FFFFFFFF"
        self.refuses("the last revision", [SPLICE, "--oem-revision", old, new, "NAM1"], said)

    def look_at_archive(self, patched):
        """The archive has the folders and the table, as cpio reads it where it is there."""
        data = (self.room / "acpi.cpio").read_bytes()
        names = re.findall(rb"070701[0-9A-F]{104}([^\0]+)\0", data)
        file, end = "kernel/firmware/acpi/dsdt.aml", b"TRAILER!!!"
        folders = [b"kernel", b"kernel/firmware", b"kernel/firmware/acpi"]
        self.is_same("names of the archive", names, [*folders, file.encode(), end])
        self.is_so("blocks of the archive", len(data) % 512 == 0 and patched in data)
        if shutil.which("cpio"):
            (self.room / "cpio").mkdir()
            ended("cpio", "-i", "--quiet", cwd=self.room / "cpio", input=data, errors=None)
            self.is_same("cpio", (self.room / "cpio" / file).read_bytes(), patched)

    def check_unpack(self):
        dsdt, ssdt = table(b"DSDT", b"\x08AAAA\x01"), table(b"SSDT", b"\x08BBBB" + b"\x0D" + b"x" * 70_000 + b"\0")
        oem, asf = table(b"OEM1", b"12345"), table(b"ASF!", b"1")
        dumps = ("DSDT", dsdt), ("SSDT", ssdt), ("SSDT", dsdt), ("OEM1", oem), ("ASF!", asf)
        text = "".join(dumped(name, 0, data) for name, data in dumps) + "\n"
        names = {"dsdt.dat": dsdt, "ssdt1.dat": ssdt, "ssdt2.dat": dsdt, "oem1.dat": oem, "asf!.dat": asf}
        quoted = "".join(f"> {line}\r\n" for line in ["Hello,", "", *text.split("\n"), "Regards"])
        wrong = dsdt[:9] + bytes([dsdt[9] ^ 1]) + dsdt[10:]
        noise, one_by_one = random.Random(0).randbytes(5000), {"dsdt.dat": dsdt, "ssdt.dat": ssdt, "oem1.dat": oem}
        for name, content, wanted in [
            ("plain", text.encode(), names),
            ("quoted", quoted.encode(), names),
            ("lower", text.replace("    0000: 44", "0000: 44").encode(), names),
            ("behind", dsdt + ssdt + oem, one_by_one),
            ("image", noise + dsdt + b"\xFF" * 100 + ssdt + oem + dsdt + bytes(77), one_by_one),
            ("wrong sum", wrong + ssdt, {"dsdt.dat": wrong, "ssdt.dat": ssdt}),
            ("marked", "\ufeff".encode() + text.encode(), names),
            ("wide", text.encode("utf-16"), names),
        ]:
            (self.room / name).write_bytes(content)
            shown = {file: "SSDT" if file == "ssdt2.dat" else data[:4].decode() for file, data in wanted.items()}
            lines = "".join(f"{file} {shown[file]} {len(data)}\n" for file, data in wanted.items())
            self.says(name, [UNPACK, name, f"{name}.d"], 0, "", lines)
            self.is_same(f"{name}: files", files_in(self.room / f"{name}.d"), wanted)
        if ACPIXTRACT:
            place = written(self.room / "acpixtract", {})
            ended(ACPIXTRACT, "-a", self.room / "plain", cwd=place)
            self.is_same("as acpixtract", files_in(place), names)
        half = "line 3: a whole row of DSDT at 0010 should stand there"
        for name, content, what in [
            ("no table", "hello", "no table is in it"),
            ("packed", "\x1f\x8b\x08", "it is packed: unpack it first"),
            ("nothing", "", "no table is in it"),
            ("cut", text[: text.index("    0020:")] + "\n", "line 1: DSDT has 32 bytes of 42"),
            ("gap", text.replace("    0010:", "    0020:", 1), half),
            ("no row", text.replace("0010: ", "0010: 4Z "), half),
            ("half a row", re.sub("0010: (.. .. )..", r"0010: \1??", text), half),
            ("truncated", dsdt[:-1].decode("latin-1"), "DSDT has 41 bytes of 42"),
            ("title", "DSDT @ 0x0\n", "line 1: DSDT has 0 bytes of its header"),
            ("cut title", text[: text.index(" @ 0x", 9) + 5], "line 6: the text ends in the title of a table, 'SSDT @ 0x'"),
            ("untitled", f"x: {text}", "line 2: a table begins there without its title"),
            ("cut behind", (dsdt + dsdt[:-1]).decode("latin-1"), "byte 42: DSDT has 41 bytes of 42"),
            ("cut header", (dsdt + ssdt[:7]).decode("latin-1"), "byte 42: SSDT has 7 bytes of its header"),
        ]:  # fmt: skip
            (self.room / name).write_bytes(content.encode("latin-1"))
            self.refuses(name, [UNPACK, name, f"{name}.d"], f"{name!r}: {what}")
            self.is_so(f"{name}: nothing is written", not (self.room / f"{name}.d").exists())
        said = "'plain.d' is there, and isn't an empty folder"
        self.refuses("a folder in the way", [UNPACK, "plain", "plain.d"], said, 2)
        self.unpack_chain()
        image = b"DSDT\xFF\xFF\x00\x00\1\0TEST  EXAMPLE \1\0\0\0TEST\1\0\0\0" * 30_000 + b"DSDT"
        (self.room / "claims").write_bytes(image)
        _, seconds = timed(self.run, UNPACK, "claims", "claims.d")
        self.is_so(f"an image of 1 MB that claims many tables: {seconds} s", seconds < 3)

    def unpack_chain(self):
        """Addresses are written where they lead to the DSDT, and acpidis takes the folder."""
        files = shapes.led(["rsdp.dat", "xsdt.dat", *shapes.LED, "ssdt.dat"], 8, 0)
        words = {"rsdp.dat": "RSD PTR", "xsdt.dat": "XSDT", "facp.dat": "FACP", "dsdt.dat": "DSDT", "ssdt.dat": "SSDT"}
        places = (line.split() for line in files["tables.map"].decode().splitlines())
        texts = [dumped(words[name], int(place, 16), files[name]) for place, name in places]
        twice = [*texts, *texts, dumped("OEM1", 0x1000, table(b"OEM1", b""))]
        for name, known, lines in (("chain", texts, 5), ("broken chain", texts[1:], 0), ("twice", twice, 5)):
            self.run(UNPACK, self.text(name, "".join(known) + "\n"), name + ".d")
            place = self.room / f"{name}.d" / "tables.map"
            self.is_same(name, len(place.read_text().splitlines()) if place.exists() else 0, lines)
            self.is_same(f"files of {name}", len(list(place.parent.glob("ssdt*"))), 1)
            self.is_so(f"{name} is read", 'DefinitionBlock ("ssdt.dat")' in listed(self.room / f"{name}.d"))

    def check_show(self):
        """What is declared at a path, or at paths that end so, or is like it where nothing is."""
        place = written(self.room / "show", {**VERSIONS["first"], "ssdt2.dat": table(b"SSDT", SETS["externals"][0])})
        text = self.text("show.text", listed(place))
        for path, wanted in parts_in("shown.txt")[1:]:
            is_there = wanted.startswith("DefinitionBlock")
            said, shown = ("", wanted + "\n") if is_there else (f"acpidis-show: {str(text)!r} {wanted}\n", "")
            self.says(f"show {path}", [SHOW, text, path], int(not is_there), said, shown)
        heads = self.run(SHOW, text, "_hid").out.count("Name (_HID, ")
        self.is_same("each _HID", heads, text.read_text().count("Name (_HID, "))
        whole = self.run(SHOW, text, "EC0").out
        self.is_so("a device whole", whole.count("{") == whole.count("}") + 3 and "Method (_Q13" in whole)
        self.is_same("no path", self.run(SHOW, text, "1").status, 2)
        ran = self.run(SHOW, place / "dsdt.dat", "SMI")
        self.is_same("no listing", (ran.status, ran.err.count("\n")), (1, 1))


def main():
    words = asked(__doc__, sets=200, stop=False, folders=())
    if not IASL:
        print("iasl isn't there (acpica-tools): nothing is compiled")
    with Checks(words.stop) as checks:
        checks.check_all()
        checks.compile_sets(words.sets, words.folders)
        if IASL:
            for version, files in VERSIONS.items():
                checks.added(version, dumps_of(files), ["--any-run"])
            checks.added("of the demo", read_folder(DEMO), [])
            checks.added("of Externals", dumps_of(tables(*SETS["externals"])), [])
            checks.edit_tables()


main()
