#!/usr/bin/env python3
"""Checks the page that examples/page.py makes of a listing, by Python's HTML parser, beside the independent reading.

    python3 tests/page.py [--sets N] [FOLDER ..]

Of the samples of telling.py each name has the targets that the independent reading says it means, each link leads to
an anchor that is there, each declared path has one, and its row has its marks, each line of a definition block stands
in the page as it is in the listing, and each declaration lists the lines that use it. Then come hostile names,
comparisons and texts that are no listing."""

import ast
import pathlib
import random
import re
from collections import Counter
from html.parser import HTMLParser
from xml.etree.ElementTree import Element, TreeBuilder

from tally import Outcome, Tally, asked, first_difference, parts_in, written
from acpidis_tools.page import lines as lines_module
from acpidis_tools.page import tree as tree_module
from acpidis_tools.comparison import differences
from acpidis_tools.page.sheet import BETWEEN, unpacked
from hostile import make_page
from made_aml import SETS, method, table
from namespaces import path_text
from running import REFUSED, Options, run_folder
from telling import HOSTILE_FILES, PAGES_FILES, Path, Teller, Told, samples

ELEMENTS = set(
    "html head meta title style body nav header h1 h2 h3 p input div span small details summary a main section ul li "
    "table tr th td dfn b i q u em mark pre script button ins del".split()
)
VOID = ("meta", "input")
TOLD = dict(parts_in("page.txt")[1:])
# Few lines and paths make a chunk and a branch, so that small sets have several.
lines_module.CHUNK, tree_module.MANY = 7, 3


def text_of(element: Element) -> str:
    """Its text, without that of notes and of what is said of numbers."""
    is_left_out = lambda it: it.get("class") == "note" or it.tag == "small"
    return (element.text or "") + "".join(("" if is_left_out(it) else text_of(it)) + (it.tail or "") for it in element)


class Tree(HTMLParser):
    def __init__(self) -> None:
        super().__init__()
        self.builder, self.open = TreeBuilder(), []
        self.handle_starttag("page", [])
        self.handle_data = self.builder.data

    def handle_starttag(self, tag: str, attrs: list) -> None:
        self.builder.start(tag, dict(attrs))
        self.open.append(tag)
        if tag in VOID:
            self.handle_endtag(tag)

    def handle_endtag(self, tag: str) -> None:
        closed = None
        while closed != tag:
            closed = self.builder.end(self.open.pop()).tag


class Read:
    """What a page has: its elements, anchors and links, the rows of its tree, and of the definition blocks the
    lines, the names with what each is, and the lines in which a path is used."""

    def __init__(self, page: Element):
        parts = list(page.iter())[1:]
        self.elements = {it.tag for it in parts}
        self.attributes = [pair for it in parts for pair in it.items()]
        self.links = {value[1:] for name, value in self.attributes if name == "href" and value.startswith("#")}
        self.anchors = [it.get("id") for it in parts if "id" in it.attrib]
        self.lines, self.names, self.notes, self.says, self.rows = {}, [], [], [], {}
        (tree,) = page.iter("nav")
        for row in (it for it in tree.iter() if it.tag in ("p", "summary") and it.find(".//a") is not None):
            # The path of a row of the tree, with its class and its small words
            words = [text_of(small) for small in row.iter("small") if "class" not in small.attrib]
            shown = "".join(word for word in words if not word.replace(",", "").isdigit())
            self.rows[row.find(".//a").get("href")[1:]] = [row.get("class"), shown]
        sections = [(it.get("class") or it.get("id"), it) for it in page.iter("section")]
        for line in (line for kind, it in sections if kind == "block" for line in it.iter()):
            if line.tag in ("p", "summary"):
                self.read_line(line)
        entries = [entry for kind, it in sections if kind == "uses" for entry in it.iter("div")]
        self.uses = {(entry.get("id"), link.get("href")[1:]) for entry in entries for link in entry.findall(".//ul//a")}
        self.cells = [text_of(cell) for kind, it in sections if kind == "tables" for cell in it.iter("td")]

    def read_line(self, line: Element) -> None:
        number = int(line.get("id"))
        self.lines[number] = text_of(line)
        for it in line.iter():
            if it.get("class") == "note":
                self.notes.append(text_of(it))
            elif it.tag in ("a", "dfn", "u"):
                self.names.append((it.tag, it.attrib, text_of(it), number))
            elif it.tag == "small":
                self.says.append(text_of(it))

    def told(self) -> list[Told]:
        """The names of the blocks as the independent reading tells them."""
        names = enumerate(self.names)
        own_lines = {str(line): place for place, (tag, found, _, line) in names if tag == "dfn" and "id" not in found}
        return [
            (text, *self.meaning(tag, found, own_lines), others_in(tag, found)) for tag, found, text, _ in self.names
        ]

    def meaning(self, tag: str, found: dict, own_lines: dict) -> tuple[str, object]:
        if tag == "u":
            return "leads nowhere", None
        if tag == "dfn":
            anchor = found.get("id", found.get("title"))
            what = "declares again" if found.get("class") == "again" else "declares in its body"
            return "declares" if "id" in found else what, anchor and path_in(anchor)
        anchor = found["href"][1:]
        return ("leads in its body", own_lines.get(anchor)) if anchor.isdigit() else ("leads", path_in(anchor))

    def wanted_uses(self) -> set:
        """The lines that names lead from, each with the entry of the declaration that they lead to."""
        entries = {
            found.get("id", str(line)): f"u{line}" for tag, found, _, line in self.names
            if tag == "dfn" and found.get("class") != "again"
        }
        aims = [(found["href"][1:], str(line)) for tag, found, _, line in self.names if tag == "a"]
        aims += [(path_text(path), str(line)) for tag, found, _, line in self.names for path in others_in(tag, found)]
        return {(entries[anchor], line) for anchor, line in aims if anchor in entries}


def others_in(tag: str, found: dict) -> tuple:
    """The paths to which a name leads in other runs."""
    title = found.get("title", "") if tag == "a" else ""
    return tuple(map(path_in, title.removeprefix("or ").split(" or "))) if title else ()


def path_in(anchor: str) -> Path:
    return tuple(anchor[1:].split(".")) if anchor != "\\" else ()


def expanded(html: str) -> str:
    """A packed page with its parts in their places, as a browser has it once all of them were in sight."""
    uses: list[str] = []

    def chunk(form: re.Match) -> str:
        lines, _, rest = unpacked(form[1]).partition(BETWEEN)
        uses.append(rest)
        return lines

    html = re.sub(r'<pre class=chunk [^>]*data-packed="([^"]*)">[^<]*</pre>\n', chunk, html)
    while "<div class=branch" in html:
        html = re.sub(r'<div class=branch data-packed="([^"]*)"></div>\n', lambda form: unpacked(form[1]), html)
    return re.sub("<section id=uses [^>]*><h2>Uses</h2>\n", lambda form: form[0] + "".join(uses), html)


def read_page(html: str) -> Read:
    tree = Tree()
    tree.feed(expanded(html))
    tree.close()
    tree.handle_endtag("page")
    return Read(tree.builder.close())


class Checks(Tally):
    def is_told(self, what: str, got: list) -> None:
        """These are the values of that part of tests/page.txt."""
        self.is_same(what, got, [ast.literal_eval(line) for line in TOLD[what].splitlines()])

    def listed(self, name: str, files: dict) -> Outcome:
        return run_folder(written(self.room / name, files), Options())

    def page(self, outcome: Outcome, *words: str) -> str:
        listing, errors = self.text("text", outcome.out), self.text("errors", outcome.err)
        return self.says("status and errors of a page", ["page.py", "--errors", errors, *words, listing], 0)

    def compare_set(self, what: str, folder: pathlib.Path, options: Options, outcome: Outcome) -> Read:
        self.is_same(f"{what} is taken", outcome.status != REFUSED, True)
        read = read_page(self.page(outcome))
        self.is_same(f"the names of {what}", first_difference(read.told(), Teller(folder, options).told), None)
        self.is_same(f"the uses of {what}", read.uses, read.wanted_uses())
        self.compare_frame(what, read, outcome)
        self.compare_packed(what, read, outcome)
        return read

    def compare_packed(self, what: str, read: Read, outcome: Outcome) -> None:
        """The page of the same listing with packed parts has the same names, lines, uses and rows."""
        other = read_page(make_page(outcome.out.encode(), outcome.err.encode(), is_packed=True))
        for part in ("names", "lines", "uses", "rows", "notes", "says"):
            self.is_same(f"the {part} of {what}, packed", getattr(other, part), getattr(read, part))
        self.is_same(f"the anchors of {what}, packed", {*other.anchors, "uses"}, {*read.anchors, "uses"})

    def compare_frame(self, what: str, read: Read, outcome: Outcome) -> None:
        self.is_same(f"links without an anchor in {what}", read.links - set(read.anchors), set())
        self.is_same(f"anchors twice in {what}", [one for one, count in Counter(read.anchors).items() if count > 1], [])
        rows = outcome.out.partition("\nNamespace ")[2].partition("\nDef")[0]
        # The class and the small words of a row of the tree, by the row of the listing
        marks = {
            path: (maybe.strip().lower() or None, ", ".join(["maybe"] * bool(maybe) + [f"{times} times"] * bool(times)))
            for path, maybe, times in re.findall(r"^  (\\\S*) [A-Z].*?( Maybe)?(?: Times (\d+))?$", rows, re.MULTILINE)
        }
        shown_marks = {path: tuple(row) for path, row in read.rows.items() if path in marks}
        self.is_same(f"marks of rows of {what}", shown_marks, marks)
        declared = {found["id"] for tag, found, *_ in read.names if tag == "dfn" and "id" in found}
        self.is_same(f"declared paths without an anchor in {what}", marks.keys() - declared, set())
        self.is_same(f"elements of {what}", read.elements - ELEMENTS, set())
        odd = [name for name, value in read.attributes if name.startswith("on") or name == "src"]
        odd += [value for name, value in read.attributes if name == "href" and value[0] != "#"]
        self.is_same(f"attributes of {what}", odd, [])
        lines = outcome.out.split("\n")
        self.is_same(f"lines of {what}", [text for line, text in read.lines.items() if text != lines[line - 1]], [])
        first = next((at for at, line in enumerate(lines) if line.startswith("DefinitionBlock ")), len(lines))
        blocks = sum(line.startswith(("Definition", " ", "}")) for line in lines[first:])
        self.is_same(f"number of lines of {what}", len(read.lines), blocks)
        faults = [line.rpartition(": ")[2] for line in outcome.err.splitlines()]
        shown = [note[5:].partition(",")[0] for note in read.notes if note.startswith("raw: ")]
        self.is_same(f"faults of {what}", shown, faults)

    def look_at_hostile(self, read: Read) -> None:
        """The hostile set's files and hardware names. That its texts come out as text is checked by its lines."""
        files = [it for it in read.cells if ".dat" in it or "onload" in it]
        wanted = [name.replace("\n", "\\x0A").replace('"', "\\x22") for name in sorted(HOSTILE_FILES)]
        self.is_same("names of files", files, wanted)
        self.is_told("what is said of numbers", read.says)
        self.is_told("the name at a fault", [note for note in read.notes if note.startswith("raw")])

    def look_at_runs(self, read: Read) -> None:
        """The names and rows of the set with code outside methods that differ by the run."""
        marks = [(path, *row) for path, row in read.rows.items() if path in ("\\FOO_", "\\DEV0", "\\DEV0.LATE")]
        self.is_told("rows by the run", marks)
        told = read.told()
        self.is_told("a name that means a maybe, or what stands further up", [it[1:] for it in told if it[0] == "FOO_"])
        self.is_told("code in front of a nearer declaration", [it[1:3] for it in told if it[0] in ("COND", "\\RP99")])
        notes = [note for note in read.notes if " of " in note or note.startswith("raw")]
        self.is_told("declarations and bodies of one path", notes)

    def check_comparison(self) -> None:
        """A set beside one whose DSDT adds a name, lacks a method and changes a name, and beside itself."""
        code = SETS["mine"][0].replace(b"BAR_\x0A\x05", b"BAR_\x0A\x06")
        code = code.replace(b"\x14\x0BCALL\x00\xA4ZZZZ", b"\x08NEW_\x0D<b>\x00")
        one = self.listed("one", PAGES_FILES)
        two = self.listed("two", {**PAGES_FILES, "dsdt.dat": table(b"DSDT", code)})
        html = self.page(one, "--compare", self.text("other & <b>", two.out))
        found = re.findall(r"<li class=(\w+)>.*?(\\\w+)</", html)
        self.is_same("what differs", found, [("added", "\\NEW_"), ("lacking", "\\CALL"), ("changed", "\\BAR_")])
        self.is_same("elements of a comparison", read_page(html).elements - ELEMENTS, set())
        same = self.page(one, "--compare", self.text("other", one.out))
        self.is_same("what differs from itself", re.findall("<li class=|No line differs", same), ["No line differs"])

    def check_comparison_lines(self) -> None:
        """The lines that differ, in a method whose middle is another, in a table and outside both; one name of both."""
        code = method(b"MAIN", 0, b"\x70\x01\x60" + b"\x70\x0A\x05\x61" + b"\x70\x60\x62" + b"\xA4\x62")
        code += b"\x15EXT_\x01\x00"
        changed = code.replace(b"\x70\x0A\x05\x61", b"\x70\x0A\x06\x61").replace(b"_\x01\0", b"_\x02\0") + b"\x08NEW_\0"
        one = self.listed("first", {"dsdt.dat": table(b"DSDT", code), "ssdt.dat": table(b"OEM5", b"")})
        other = self.listed("second", {"dsdt.dat": table(b"DSDT", changed), "ssdt.dat": table(b"OEM6", b"")})
        html = self.page(one, "--name", "other", "--compare", self.text("other", other.out))
        lines = one.out.splitlines()
        numbers = re.findall(r"<(?:p|tr|summary) id=(\d+) class=differs>", html)
        marked = [lines[int(number) - 1].strip() for number in numbers]
        wanted = [*lines[:2], "Store (0x05, Local1)", "External (EXT_, 0x01, 0x00)"]
        self.is_same("the lines that differ", marked, wanted)
        shown = re.findall("<(ins|del)>(?:  |.*?quot; &quot;)(.*?)(?:&quot; Len.*)?</", html)
        wanted = [("del", "DSDT"), ("ins", "DSDT"), ("del", "OEM5"), ("ins", "OEM6")]
        wanted += [("del", "Store (0x05, Local1)"), ("ins", "Store (0x06, Local1)")]
        self.is_same("both lines", shown, wanted)
        whose = re.findall(r"<summary>((?:1 path|The texts) .*?)</", html)
        wanted = ["1 path that the other other alone has", "1 path that the other other has otherwise than other"]
        self.is_same("whose they are", whose, [*wanted, "The texts differ in 2 more lines outside declarations"])

    def check_differences(self) -> None:
        """Each text stands in the differences of two, whatever both are; and large ones take no long time."""
        chance = random.Random(0)
        for _ in range(300):
            here, there = (tuple(chance.choice("abcd") for _ in range(chance.randrange(8))) for _ in range(2))
            found = differences(here, there)
            ours = tuple(line for mark, line in found if mark != "ins")
            theirs = tuple(line for mark, line in found if mark != "del")
            self.is_same(f"differences of {here} and {there}", (ours, theirs), (here, there))
        many = tuple(map(str, range(100_000)))
        self.is_same("of long texts", len(differences(many, ("x", *many[1:-1], "y"))), 2 * len(many))

    def check_only(self) -> None:
        """A page of a path, of a file, and of what isn't there. The levels of lines tell what stands at the path."""
        lines = self.hostile.out.splitlines()
        wanted: set[int] = set()
        for start, line in enumerate(lines):
            if not re.search(r"Device \(DEV0\)|Scope \(.*DEV0\)", line):
                continue
            level = len(line) - len(line.lstrip())
            end = lines.index(" " * level + "}", start)
            wanted |= set(range(start + 1, end + 2))
            for above in range(0, level, 2):
                head = max(at for at in range(start) if re.match(rf" {{{above}}}\w.*{{$", lines[at]))
                wanted |= {head + 1, lines.index(" " * above + "}", end) + 1}
        listing = self.text("whole", self.hostile.out)
        for what in ("\\_SB_.PCI0.DEV0", "ssdt1 \\x22 onload=alert(1) x='&lt;"):
            run = self.run("page.py", "--only", what, listing)
            read = read_page(run.out)
            if what[0] == "\\":
                self.is_same(f"the lines of {what}", set(read.lines), wanted)
            self.is_same(f"links without an anchor at {what}", read.links - set(read.anchors), set())
            self.is_same(f"lines of {what}", [text for line, text in read.lines.items() if text != lines[line - 1]], [])
        run = self.run("page.py", "--only", "\\NONE", listing)
        self.is_same("only what isn't there", (run.status, run.out, run.err.count("\n")), (1, "", 1))

    def check_names(self) -> None:
        """What stands on top: a name that is given, or that of the file or of its folder."""
        text = self.hostile.out.replace('"EXAMPLE "', '"EX\\x00\\x00\\x00\\x00\\x00\\x00"')
        (self.room / "host7").mkdir()
        for words, title in (
            ([self.text("a&b", text)], "a&amp;b: TEST EX"), ([self.text("host7/text", text)], "host7: TEST EX"),
            (["--name", "<i>", self.text("a", text)], "&lt;i&gt;: TEST EX"),
        ):
            found = re.findall("<title>(.*)</title>", self.run("page.py", *words).out)
            self.is_same(f"the title of {words}", found, [title])

    def check_refusals(self) -> None:
        """Texts that are no listing: one line, and status 1."""
        lines = self.hostile.out.splitlines(keepends=True)
        texts = {
            "an empty text": "", "another tool's": 'DefinitionBlock ("", "DSDT", 2, "A", "B", 1)\n{\n}\n',
            "a check": 'Check "a" Bytes 1\n', "a text": "a listing\n", "a line that is cut": self.hostile.out[:-3],
            "no ASCII": self.hostile.out.replace("Return", "R\xE9turn"), "21 MB": self.hostile.out + "  \n" * 7_000_000,
            "an escape": self.hostile.out.replace('"TEST  "', '"\x1b[2J"'),
            "no opcode": self.hostile.out.replace("  Return", "  Reutrn"),
            "a line less": self.hostile.out.replace("    Device (PCI0) {\n", ""),
            **{f"the first {count} lines": "".join(lines[:count]) for count in range(1, len(lines), 7)},
        }
        for what, text in texts.items():
            run = self.run("page.py", self.text("refused", text))
            got = run.status, run.out, run.err.count("\n"), run.err.startswith("acpidis-page: ")
            self.is_same(f"{what}, {run.err}", got, (1, "", 1, True))
        errors, mark = "is one of standard error", "begins with a mark of UTF-8 or UTF-16"
        texts = {f"{self.hostile.out}acpidis: 1\n": f"line {len(lines) + 1} {errors}", "\ufeff": f"line 1 {mark}"}
        for text, said in texts.items():
            self.text("mixed", text)
            self.refuses(said, ["page.py", "mixed"], f"'mixed' is no listing for a page: {said}")
        errors = self.text("errors", "acpidis: body \\NONE: UnknownName at 1\n")
        for status, words in ((1, ["--errors", errors, self.text("whole", "".join(lines))]), (2, [self.room / "none"])):
            run = self.run("page.py", *words)
            self.is_same("status of other faults", (run.status, run.err.count("\n")), (status, 1))


def main() -> None:
    words = asked(__doc__, sets=40, folders=())
    with Checks() as checks:
        more = {"the hostile set": checks.look_at_hostile, "the set of runs": checks.look_at_runs}
        for what, *sample in samples(checks.room, words.folders, words.sets):
            read = checks.compare_set(what, *sample)
            if what in more:
                more[what](read)
        checks.hostile = run_folder(checks.room / "hostile", Options())
        checks.check_all()


main()
