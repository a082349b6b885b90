"""Sample sets, and what the independent reading says of the names of a set: for tests/page.py and tests/facts.py."""

import pathlib
import random
from collections.abc import Iterator

from tally import DEMO, Outcome, written
from compare import laid
from dumps import aml_of, order_of, read_folder
from made_aml import SETS, table, tables
from made_sets import SetMaker
from namespaces import Loaded, Namespace, RunReader, path_text
from reading import ALIAS, ELSE, EXTERNAL, FIELD_LISTS, IF, METHOD, ROWS, SCOPE, SCOPES
from reading import Name, Named, Op
from running import REFUSED, Options, run_folder

Path = tuple[str, ...]
WHILE, MOST_OTHERS, METHOD_OBJECT = 0xA2, 3, 8
REGION, DATA_REGION, NAME = 0x5B80, 0x5B88, 0x08
# What is handed to these by its name isn't written.
TAKES_OBJECT = {0x71, 0x87, 0x8E, 0x5B25, 0x5B23, 0x5B24, 0x5B26, 0x5B27, 0x5B2A, 0x86}
CONDREFOF, CONSTANTS, NUMBERS = 0x5B12, {0x00: 0, 0x01: 1}, {0x0A, 0x0B, 0x0C, 0x0E}
# What a name is, where it leads, or of a body's own name the place of its declaration, and its paths in other runs
Told = tuple[str, str, object, tuple]

HOSTILE_FILES = {
    "<script>alert(1)<!--&\"'.dat": table(b"DSDT", SETS["hostile"][0]),
    "ssdt1 \" onload=alert(1) x='&lt;": table(b"SSDT", SETS["hostile"][1]),
    "x\n<b>.dat": table(b"OEM1", b""),
}
PAGES_FILES, RUNS_FILES = tables(*SETS["mine"]), tables(*SETS["runs"])


def samples(room: pathlib.Path, folders: list, sets: int) -> Iterator[tuple[str, pathlib.Path, Options, Outcome]]:
    """Sets, options of a run, and how it ends: of those above, of folders, and of so many made-up ones of two kinds."""
    named = [
        ("the set of docs/listing.md", written(room / "listed", PAGES_FILES), Options()),
        ("the hostile set", written(room / "hostile", HOSTILE_FILES), Options()),
        ("the demo", DEMO, Options()),
        ("the set of runs", written(room / "runs", RUNS_FILES), Options(any_run=True)),
        *((str(it), it, Options(any_run=True, any_sum=True)) for it in folders),
    ]
    yield from ((*sample, run_folder(*sample[1:])) for sample in named)
    for any_run in (False, True):
        maker, number = SetMaker(random.Random(0), any_run=any_run), 0
        while number < sets:
            with laid(maker.trial()) as (folder, options):
                outcome = run_folder(folder, options)
                if not options.check and outcome.status != REFUSED:
                    yield f"made-up set {number}", folder, options, outcome
                    number += 1


class Watched(Namespace):
    """Keeps where the names of Scopes and the sources of Aliases led while the tables were loaded, what names of code
    outside methods meant, and the paths that Externals call methods. Without that code all is sure."""

    def __init__(self, any_run: bool) -> None:
        super().__init__()
        self.any_run, self.led, self.then, self.promised = any_run, {}, {}, set()

    def declare_so(self, scope: Path, name: Name, kind: tuple, is_sure: bool, method: tuple | None = None) -> tuple:
        return super().declare_so(scope, name, kind, is_sure or not self.any_run, method)


class WatchingReader(RunReader):
    """Keeps, while it reads, where names of Scopes and sources of Aliases led, and what names of other terms meant."""

    def named(self, at: int, end: int, position: str, level: int) -> tuple:
        term, rest = super().named(at, end, position, level)
        if position == "run":
            self.keep(term)
        return term, rest

    def count(self, name: Name, at: int) -> int:
        return super().count(name, at) if self.space.any_run else 0

    def inside(self, term: Op) -> tuple[Path, bool]:
        self.keep(term)
        self.space.led[id(term)], is_sure = super().inside(term)
        return self.space.led[id(term)], is_sure

    def leave(self, term: Op) -> None:
        self.keep(term)
        if term.opcode == EXTERNAL and term.parts[1][1] == METHOD_OBJECT:
            self.space.promised.add(term.names()[0].placed(self.scope))
        if term.opcode == ALIAS:
            self.space.led[id(term)] = self.space.find(self.scope, term.names()[0])
        super().leave(term)

    def keep(self, term: object) -> None:
        if not isinstance(term, Op) or ROWS[term.opcode].group != "declaration":
            found = {str(name): self.space.meant(self.scope, name) for name in names_in(term)}
            self.space.then.setdefault(id(term), found)


def names_in(term: object) -> list[Name]:
    """The names of a term that has no names of its own to declare, without those of the terms inside it."""
    parts = [term.name, *term.args] if isinstance(term, Named) else []
    if isinstance(term, Op):
        parts = [*term.parts, *(term.tail if term.row.tail == "e" else [])]
    return [term] if isinstance(term, Name) else [name for part in parts for name in names_in(part)]


class Teller:
    """Tells the names of a set's definition blocks in the order of the text, and what each is. `uses` has of each that uses
    something the body, the scope, what it means, whether that is the body's own, the place of this among what else it may
    mean, and what becomes of it; then come regions, with what their numbers may mean, units, and the values of Names."""

    def __init__(self, folder: pathlib.Path, options: Options):
        dumps = read_folder(folder)
        codes = [aml_of(dumps[index].data) for index in order_of(dumps, options.any_sum)]
        self.told: list[Told] = []
        self.uses, self.regions, self.units, self.values, self.body = [], [], [], {}, None
        self.space = Watched(options.any_run)
        trees = [WatchingReader(code, space=self.space, table=table).read() for table, code in enumerate(codes)]
        bodies = Loaded(codes, trees, self.space).bodies(options.unknown_zero)
        self.bodies = {(body.method.table, body.method.start): body for body in bodies}
        self.seen, self.declared, self.then = set(), set(), {}
        for self.table, terms in enumerate(trees):
            self.tell_terms(terms, ())

    # ---- names

    def tell(self, name: Name, what: str, of: object, others: tuple = ()) -> None:
        if str(name):
            self.told.append((str(name), what, of, others))

    def meant(self, name: Name, scope: Path, own: dict) -> list:
        return self.then.get(str(name)) or self.space.meant(scope, name, own)

    def tell_led(self, name: Name, path: Path, scope: Path) -> None:
        self.use(name, scope, [path if self.space.is_known(path) else None], {}, "named")

    def tell_declared(self, name: Name, scope: Path) -> Path:
        path = name.placed(scope)
        self.tell(name, "declares again" if path in self.declared else "declares", path)
        self.declared.add(path)
        return path

    def use(self, name: Name, scope: Path, paths: list, own: dict, how: str | None, has_arguments: bool = False) -> None:
        for number, path in enumerate(paths if str(name) and how else []):
            is_own, told = path in own, how
            if how in ("read", "passed by call"):
                is_method = has_arguments or path is not None and not is_own and self.is_method(path)
                told = "called" if is_method else how.partition(" ")[0]
            shown = None if is_own or path is None else path_text(path)
            self.uses.append((self.body, path_text(scope), str(name), shown, int(is_own), number, told))
        path, *others = paths
        if path in own:
            self.tell(name, "leads in its body", own[path])
        else:
            self.tell(name, "leads nowhere" if path is None else "leads", path, tuple(others[:MOST_OTHERS]))

    def is_method(self, path: Path) -> bool:
        kind = self.space.kind(path)
        if kind and kind[0] == "Alias":
            kind = self.space.kind(kind[1]) or (("Method",) if kind[1] in self.space.promised else None)
        return bool(kind) and kind[0] == "Method" or not kind and path in self.space.promised

    # ---- terms

    def tell_terms(self, terms: list, scope: Path) -> None:
        for term in terms:
            opcode, names = (term.opcode, term.names()) if isinstance(term, Op) else (None, [])
            self.then = self.space.then.get(id(term), {})
            if opcode == METHOD:
                path, own = self.tell_declared(names[0], scope), {}
                self.body = path_text(path)
                for inner in self.bodies[self.table, term.tail[0]].terms or []:
                    self.tell_term(inner, path, own, "read")
                self.body = None
            elif opcode == SCOPE:
                path = self.space.led[id(term)]
                self.tell_led(names[0], path, scope)
                self.tell_terms(term.tail, path)
            elif opcode in SCOPES:
                self.tell_terms(term.tail, self.tell_declared(names[0], scope))
            elif opcode == ALIAS:
                self.tell_led(names[0], self.space.led[id(term)], scope)
                self.tell_declared(names[1], scope)
            elif opcode == EXTERNAL:
                path = names[0].placed(scope)
                is_first = not self.space.kind(path) and path not in self.seen
                self.seen.add(path)
                self.tell(names[0], "declares" if is_first else "leads", path)
            elif opcode in (IF, ELSE, WHILE):
                self.tell_parts(term, scope, {}, {})
                self.tell_terms(term.tail, scope)
            else:
                self.tell_term(term, scope, {}, "read")

    def tell_term(self, term: object, scope: Path, own: dict, how: str | None) -> None:
        """The names of a term; the paths that it declares in a body are known behind it, with their places."""
        if isinstance(term, (Name, Named)):
            name, args = (term, ()) if isinstance(term, Name) else term
            self.use(name, scope, self.meant(name, scope, own) or [None], own, how, bool(args))
            for arg in args:
                self.tell_term(arg, scope, own, "passed by call")
        elif isinstance(term, Op):
            declared: dict[Path, int] = {}
            self.tell_parts(term, scope, own, declared)
            self.keep_region(term, scope, own)
            if term.opcode in FIELD_LISTS:
                self.tell_units(term, scope, own, declared)
            elif isinstance(term.tail, list):
                for inner in term.tail:
                    self.tell_term(inner, scope, own, "passed" if term.row.tail == "e" else "read")
            own |= declared if self.body else {}

    def declare(self, name: Name, scope: Path, declared: dict) -> None:
        if self.body:
            path = name.placed(scope)
            declared |= {} if path is None else {path: len(self.told)}
            self.tell(name, "declares in its body", path)
        else:
            self.tell_declared(name, scope)

    def tell_parts(self, term: Op, scope: Path, own: dict, declared: dict) -> None:
        its_own = term.declared() if term.opcode not in FIELD_LISTS else []
        for number, (kind, part) in enumerate(zip(term.row.parts, term.parts)):
            if its_own and part is its_own[0]:
                self.declare(part, scope, declared)
            else:
                self.tell_term(part, scope, own, becomes(term.opcode, kind, number))

    def keep_region(self, term: Op, scope: Path, own: dict) -> None:
        """Keeps the value of a Name, and the numbers of a region."""
        if term.opcode == NAME and not self.body:
            self.values.setdefault(term.names()[0].placed(scope), []).append(constant(term.parts[1]))
        if term.opcode in (REGION, DATA_REGION):
            space, *parts = term.parts[1:4] if term.opcode == REGION else ((0, None), None, None)
            named = [it.name if isinstance(it, Named) and not it.args else None for it in parts]
            meant = [self.meant(it, scope, own) if it else [] for it in named]
            path = path_text(term.names()[0].placed(scope) or ())
            self.regions.append(((self.body, path, space[1]), [small(constant(part)) for part in parts], meant))

    def tell_units(self, term: Op, scope: Path, own: dict, declared: dict) -> None:
        bit = 0
        for unit in term.tail:
            if unit[0] == "unit":
                name = Name(False, 0, [unit[1]])
                self.units.append((self.body, path_text(name.placed(scope)), term.row.mnemonic, bit, unit[2]))
                self.declare(name, scope, declared)
            elif unit[0] == "connection":
                self.tell_term(unit[1], scope, own, "named")
            bit += unit[-1] if unit[0] in ("unit", "reserved") else 0


def becomes(opcode: int, kind: str, number: int) -> str | None:
    """What becomes of what stands as a part of an operator. An External uses nothing."""
    if kind == "S":
        return "passed" if opcode in TAKES_OBJECT or opcode == CONDREFOF and number == 0 else "written"
    return None if opcode == EXTERNAL else {"D": "passed", "N": "named"}.get(kind, "read")


def constant(term: object) -> int | None:
    opcode = term.opcode if isinstance(term, Op) else None
    return term.parts[0][1] if opcode in NUMBERS else CONSTANTS.get(opcode)


def small(number: int | None) -> int | None:
    """A number that SQLite has as an integer."""
    return number if number is not None and number < 1 << 63 else None
