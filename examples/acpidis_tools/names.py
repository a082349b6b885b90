"""What each name of a listing means, after docs/names.md and any_run.md, and where each path is used."""

from collections import defaultdict, namedtuple
from collections.abc import Container
from enum import Enum

from acpidis_tools import aml, standard
from acpidis_tools.listing import ROOT, Line, Listing, Name, NoListing, Path, path_text

PREDEFINED = {ROOT: "Scope", **{(segment,): kind for segment, kind in standard.PREDEFINED.items()}}
SCOPES, FIELD_LISTS = aml.OPENERS, aml.FIELD_LISTS
# What is declared inside one of these outside the methods only may stand.
BLOCKS = {"If", "Else", "While"}
# A name is looked for in each scope around it, so that a hostile listing could make a page take days.
MOST_SEGMENTS = 32
MOST_OTHERS = 3
# The place of the name that a term declares, among the words of its line.
DECLARED = {word: -1 if word in aml.NAMED_LAST else 1 for word in aml.DECLARERS}
FIRST_WORD = 0
# Where the terms inside a block stand, and whether these are sure to
Inside = namedtuple("Inside", "scope method is_sure")


class Sort(Enum):
    DECLARES = "declares the path"
    AGAIN = "declares it again"
    LOCAL = "declares it in the body alone"
    LEADS = "leads to it"
    NOTHING = "leads nowhere"


# What a name does, with the path, None where it leads nowhere, and the anchor at which that stands: the path itself, or
# a line's number for a name that a body declares. `others` are what else it means in another run.
Meaning = namedtuple("Meaning", "sort path anchor others", defaults=[None, "", ()])
NOWHERE = Meaning(Sort.NOTHING)
Uses = dict[Path, list[int]]


def is_name(word: str) -> bool:
    return word[0] not in '"0' and word == word.upper()


class Names:
    """The paths of a listing, and the meanings of its names.

    `lines` has the line at which each path is declared first, `declarations` all of them, `sure` the paths of which one
    stands in every run, `terms` what declares each path up to the first that is sure, `externals` the first that names
    a path where none declares it, `led` where Scopes and Aliases lead, `then` what a name that runs outside the methods
    meant there, `meanings` those of each line's names in their order, `uses` the lines from which names lead to an
    anchor, by the method, or the scope, that they stand in, and `strays` the same of names that lead nowhere."""

    def __init__(self, listing: Listing, most_others: int = MOST_OTHERS):
        self.most_others = most_others
        self.lines: dict[Path, Line] = {}
        self.declarations: dict[Path, list[Line]] = defaultdict(list)
        self.sure: set[Path] = set()
        self.terms: dict[Path, list[str]] = defaultdict(list)
        self.externals: dict[Path, Line] = {}
        self.led: dict[int, Path] = {}
        self.then: dict[tuple[int, str], list[Path]] = {}
        for block in listing.blocks:
            self.load(block.lines)
        self.check(listing)
        self.found: dict[tuple[Path, str], Meaning] = {}
        self.meanings: dict[int, list[Meaning]] = {}
        self.uses: dict[str, Uses] = defaultdict(lambda: defaultdict(list))
        self.strays: dict[str, Uses] = defaultdict(lambda: defaultdict(list))
        for block in listing.blocks:
            self.read(block.lines)

    def is_known(self, path: Path) -> bool:
        return path in self.lines or path in PREDEFINED

    def is_sure(self, path: Path) -> bool:
        return path in self.sure or path in PREDEFINED

    def is_scope(self, path: Path) -> bool:
        """Whether a path is a scope in every run that has it: of other kinds an interpreter passes over a Scope."""
        is_left = path not in PREDEFINED or path in self.sure or PREDEFINED[path] == "Scope"
        return is_left and SCOPES.issuperset(self.terms[path])

    def find(self, scope: Path, name: Name, own: Container[Path] = ()) -> list[Path]:
        """The paths that a name may mean, the nearest first: those that may stand, up to one that is sure to."""
        candidates, found = name.candidates(scope), []
        for path in candidates:
            if path in own or self.is_known(path):
                found.append(path)
            if path in own or self.is_sure(path):
                return found
        return found or [path for path in candidates if path in self.externals][:1]

    def check(self, listing: Listing) -> None:
        """Whether the namespace's rows are the declared paths, with their marks."""
        rows = {row.path: row for row in listing.rows}
        for path in rows:
            if path not in self.lines:
                raise NoListing(f"it is cut, or changed: none of its definition blocks declares {path_text(path)}")
        for path, line in self.lines.items():
            if path not in rows:
                raise NoListing(f"line {line.number}: {path_text(path)} isn't in its namespace")
        if not any(row.marks for row in listing.rows):
            # Without --any-run a Scope of what only an External names is sure.
            self.sure = set(self.lines)
        for path, row in rows.items():
            lines = self.declarations[path]
            if len(lines) > row.times == 1:
                raise NoListing(f"line {lines[1].number}: {path_text(path)} is declared twice")
            if len(lines) != row.times or row.is_maybe == (path in self.sure):
                raise NoListing(f"line {row.number}: {path_text(path)} is declared otherwise in its definition blocks")

    def load(self, lines: list[Line]) -> None:
        """Says of each line where it stands, and what it declares."""
        opened = {lines[0]: Inside(ROOT, None, True)}
        for line in lines[1:]:
            line.scope, line.method, is_sure = opened[line.above]
            if not line.term:
                continue
            is_unit = line.above.term in FIELD_LISTS and is_name(line.term)
            line.declared = FIRST_WORD if is_unit else DECLARED.get(line.term)
            within, is_sure = (line.scope, True) if line.method else self.declare(line, is_sure)
            if line.end:
                opened[line] = Inside(within, within if line.term == "Method" else line.method, is_sure)

    def declare(self, line: Line, is_sure: bool) -> tuple[Path, bool]:
        """Declares what a line outside the bodies does, and says where its block stands, and whether it surely does."""
        if line.declared is not None:
            return self.declare_path(line, is_sure)
        if line.term == "External":
            self.externals.setdefault(self.place(line, word_at(line, 1)), line)
        elif line.term == "Scope":
            path = self.led[line.number] = self.lead(line, line.words[1] if len(line.words) > 1 else "")
            return path, is_sure and self.is_sure(path) and self.is_scope(path)
        elif FIELD_LISTS.isdisjoint((line.above.term, line.term)):
            for word in filter(is_name, line.words):
                self.then[line.number, word] = self.find(line.scope, Name.of(word))
        return line.scope, is_sure and line.term not in BLOCKS

    def declare_path(self, line: Line, is_sure: bool) -> tuple[Path, bool]:
        path = self.place(line, word_at(line, line.declared))
        is_again = path in self.lines
        # An interpreter passes over what has no parent, and over an Alias without a source.
        is_sure = is_sure and self.is_sure(path[:-1])
        if line.term == "Alias":
            self.led[line.number] = self.lead(line, line.words[1])
            is_sure = is_sure and self.is_sure(self.led[line.number])
        self.lines.setdefault(path, line)
        self.declarations[path].append(line)
        if path not in self.sure:
            self.terms[path].append(line.term)
        if is_sure:
            self.sure.add(path)
        if line.term in SCOPES:
            # An interpreter that finds a Device skips all of a second one.
            return path, is_sure and not is_again
        return path if line.term == "Method" else line.scope, is_sure

    def place(self, line: Line, word: str) -> Path:
        path = Name.of(word).placed(line.scope)
        if path is None or word and not is_name(word):
            raise NoListing(f"line {line.number} declares nothing that a listing of acpidis can")
        if len(path) > MOST_SEGMENTS:
            raise NoListing(f"line {line.number}: a path of more than {MOST_SEGMENTS} segments is too much for a page")
        return path

    def lead(self, line: Line, word: str) -> Path:
        """Where the source of an Alias, or the name of a Scope, leads by what stands before it: a Scope of nothing
        opens the path at which it is placed."""
        found = self.find(line.scope, Name.of(word))
        if not found and line.term == "Alias":
            raise NoListing(f"line {line.number}: {word} leads nowhere")
        return found[0] if found else self.place(line, word)

    def read(self, lines: list[Line]) -> None:
        """Says what the names of a block mean. A body's own names are known from the end of what declares them."""
        method: Path | None = None
        own: dict[Path, int] = {}
        units: dict[Path, int] = {}
        end_of_units = 0
        for line in lines:
            if line.method != method:
                method, own, units = line.method, {}, {}
            if line.number == end_of_units:
                own |= units
                units = {}
            if line.method and line.term in FIELD_LISTS:
                end_of_units = line.end
            declared = -1 if line.declared is None else line.declared % len(line.words)
            self.meanings[line.number] = meanings = [
                self.declaration(line, word) if place == declared else self.meaning(line, word, own)
                for place, word in enumerate(line.words) if is_name(word)
            ]
            for word, meaning in zip(filter(is_name, line.words), meanings):
                if meaning.sort is Sort.LOCAL and meaning.path is not None:
                    (units if line.declared == FIRST_WORD else own)[meaning.path] = line.number
                used = [self.uses[meant.anchor] for meant in (meaning, *meaning.others) if meant.sort is Sort.LEADS]
                for uses in [self.strays[word]] if meaning.sort is Sort.NOTHING else used:
                    numbers = uses[line.method or line.scope]
                    if numbers[-1:] != [line.number]:
                        numbers.append(line.number)

    def declaration(self, line: Line, word: str) -> Meaning:
        path = Name.of(word).placed(line.scope)
        if line.method:
            return Meaning(Sort.LOCAL, path, str(line.number))
        is_first = path is None or self.lines[path] is line
        return Meaning(Sort.DECLARES if is_first else Sort.AGAIN, path, path_text(path or ROOT))

    def meaning(self, line: Line, word: str, own: dict[Path, int]) -> Meaning:
        if line.number in self.led:
            path = self.led[line.number]
            return leading(path) if self.is_known(path) or path in self.externals else NOWHERE
        if line.term == "External" and not line.method:
            path = self.place(line, word)
            is_first = self.externals.get(path) is line and not self.is_known(path)
            return Meaning(Sort.DECLARES, path, path_text(path)) if is_first else leading(path)
        if self.then.get((line.number, word)):
            return self.leading_to(self.then[line.number, word], own)
        if own:
            return self.leading_to(self.find(line.scope, Name.of(word), own), own)
        key = line.scope, word
        if key not in self.found:
            self.found[key] = self.leading_to(self.find(line.scope, Name.of(word)), own)
        return self.found[key]

    def leading_to(self, paths: list[Path], own: dict[Path, int]) -> Meaning:
        """What a name does that means the first of the paths, or another one in another run."""
        first, *others = [leading(path, str(own.get(path, ""))) for path in paths[:1 + self.most_others]] or [NOWHERE]
        return first._replace(others=tuple(others)) if others else first


def word_at(line: Line, place: int) -> str:
    if place >= len(line.words):
        raise NoListing(f"line {line.number} isn't one of a listing of acpidis")
    return line.words[place]


def leading(path: Path, anchor: str = "") -> Meaning:
    return Meaning(Sort.LEADS, path, anchor or path_text(path))
