#!/usr/bin/env python3
"""Says what crates/acpi_cases has to print: reads its rows from standard input and prints each with what it is read as.

    python3 tests/oracle/cases.py < crates/acpi_cases/stdin > crates/acpi_cases/stdout

It shares nothing with the program: the modules beside it read code, namespaces, tables and whole sets after docs/."""

import sys

import trying  # noqa: F401, which tells where the others lie
from dumps import RECORDS, Bad, Dump, LineFault, addresses_of, little, order_of, parse_externals, parse_map, records_of
from made_aml import bytes_of, table
from namespaces import Body, Namespace, path_text
from printing import hexadecimal, row_text, term_lines
from reading import IF, METHOD, Name, Op, Reader, Refused
from running import FLAGS, Options, run

WIDTHS = {1: "One", 2: "Two", 3: "Three", 4: "Four"}
FORMS = {0x00: "Null", 0x2E: "Dual", 0x2F: "Multi"}


def name_of(text):
    bare = text.lstrip("\\^")
    return Name(text.startswith("\\"), text.count("^"), bare.split(".") if bare else [])


def path_of(text):
    return tuple(name_of(text).segs)


def count_of(words):
    path, count = words.split()
    return path_of(path), int(count)


def options_of(words):
    """The options of a run: flags by the names of their fields, as `any_sum`, and `workers N`."""
    words = words.split()
    workers = int(words[words.index("workers") + 1]) if "workers" in words else None
    return Options(workers=workers, **{flag: flag in words for flag in FLAGS})


def counted(count, code, reader=Reader):
    """A reader of a body in which each name takes so many arguments."""
    return reader(code, lambda _declared, _name: int(count))


def text_of(reader):
    """The lines of the terms that a reader reads, with the bytes of the bodies of methods, or its fault."""
    try:
        terms = reader.read()
    except Refused as fault:
        return [str(fault)]
    body_of = lambda method: Body(None, reader.code[slice(*method.tail)])
    return [line for term in terms for line in term_lines(term, body_of, 0)]


def each_text(words, code):
    """Of each term of a body how many bytes its text has, and its lines."""
    for term in counted(words, code).read():
        lines = list(term_lines(term, None, 0))
        yield from [f"{len(chr(10).join(lines))} bytes:", *lines]


class StepReader(Reader):
    """Reads a term of a table whose code may run, without the terms inside it: of these it keeps the span."""

    span = None

    def block(self, term, at, end, level):
        self.span = at, end
        return []


def step_text(words, code):
    """Where the term at an offset ends, and what stands inside it, where each name takes so many arguments."""
    count, at = words.split()
    reader = counted(count, code, StepReader)
    term, end = reader.term(int(at), len(code), "run", 1)
    opcode = term.opcode if isinstance(term, Op) else None
    start, behind = reader.span or (term.tail if opcode == METHOD else (0, None))
    inside = "" if behind is None else f", inside {behind - start} bytes at {start}"
    yield f"to {end}{inside}" + ", an Else may follow" * (opcode == IF)


def name_text(_, code):
    name, length = Reader(code).name(0, len(code))
    form = FORMS.get(code[name.root + name.ups], "One")
    yield " ".join([f"{form}, {length} bytes:", *["\\"] * name.root, *["^"] * name.ups, *name.segs])


def length_text(_, code):
    value, width = Reader(code).length(0, len(code))
    yield f"{value} in width {WIDTHS[width]}"


def entries_text(signature):
    """The addresses that a table lists which is read as one of this signature."""
    return lambda _, table: [", ".join(f"{address:X}" for address in addresses_of(table, signature)) or "none"]


def madt_text(_, table):
    """Of each record the kind, with its fields or with the bytes behind its length."""
    yield f"Controller {little(table, 36, 4):X} Flags {little(table, 40, 4):X}"
    for record in records_of(table):
        label, *fields = RECORDS.get((record[0], len(record)), [f"Other {record[0]:X}:"])
        values = [f"{little(record, at, width):X}" for _, at, width, _ in fields] or hexadecimal(record[2:])
        yield " ".join([label, *values])


def map_text(words, text):
    addresses = {name.decode(): f"{address:X}" for name, address in parse_map(text, words.split(" ")).items()}
    return [f"{name} {addresses.get(name, 'none')}" for name in words.split(" ")]


OF_BYTES = {
    "terms": each_text, "step": step_text, "name": name_text, "length": length_text,
    "madt": madt_text, "xsdt": entries_text(b"XSDT"), "rsdt": entries_text(b"RSDT"), "map": map_text,
    "cuts": lambda _, code: [line for at in range(len(code)) for line in [f"{at} bytes:", *text_of(Reader(code[:at]))]],
    "body": lambda words, code: text_of(counted(words, code)),
    "table": lambda _, code: text_of(Reader(code)),
    "kept": lambda _, code: ["".join(hexadecimal(code))],
    "externals": lambda _, text: [f"{path_text(path)} {count}" for path, count in parse_externals(text)],
    "many_rows": lambda words, _: [f"{words} at their places"],
    "many_counted": lambda words, _: [f"{words} found by 1 to 64 comparisons"],
}


def shown(answer):
    """The line of an answer, which may be a path."""
    return ["none" if answer is None else path_text(answer) if isinstance(answer, tuple) else str(answer)]


def declaration_of(words):
    path, word, *more = words.split()
    if word in ("Alias", "OpenAlias"):
        return name_of(path), ("Alias", path_of(more[0]), word == "OpenAlias")
    return name_of(path), ("Method", int(more[0])) if word == "Method" else (word,)


def first_count(names, path):
    """The count of what is declared first at a path, with that of the target of an open Alias too, or of Externals."""
    kind = names.kind(path)
    return names.counts_of((*kind[:2], False))[0] if kind else names.externals.get(path)


# To rows of a path, by the namespace.
OF_PATH = {
    "declared": lambda names, path: ", ".join(
        ["not " * (path not in names.declarations) + "declared", "not " * (not names.is_sure(path)) + "sure"]
    ),
    "scope": lambda names, path: "a scope" if names.is_sure(path) and names.is_scope(path) else "no scope",
    "alias": lambda names, path: "open" if names.alias_of(path)[2] else "not open",
    "count": first_count,
    "kind": lambda names, path: names.kind(path) and row_text(path, names.kind(path)),
}
# To rows of a scope and a name, by the namespace and the paths that the body declared: where the name leads by the first
# declarations, in every run, and in the body.
OF_NAME = {
    "place": lambda _, scope, name, __: name.placed(scope),
    "find": lambda names, scope, name, _: names.first(scope, name),
    "lead": lambda names, scope, name, _: names.find(scope, name),
    "search": Namespace.first,
    "arity": lambda names, scope, name, declared: names.arity(scope)(declared, name),
    "arity_unknown_zero": lambda names, scope, name, declared: names.arity(scope, True)(declared, name),
}


class Rows:
    """The answers to rows: a set and a namespace grow until the next begins."""

    def __init__(self):
        self.dumps, self.given = [], []
        self.names, self.declared = Namespace(), set()

    def answer(self, row):
        """The lines that stand below a row."""
        if not row or row.startswith("#"):
            return []
        head, _, rest = row.partition(":")
        kind, _, words = head.partition(" ")
        try:
            return self.act(kind, words, bytes_of(rest)) or []
        except Refused as fault:
            return [str(fault)]
        except LineFault as fault:
            return [f"{fault} in line {fault.line}"]
        except Bad as bad:
            return [str(bad) + (f", dump {bad.dump}" if bad.dump is not None else "")]

    def act(self, kind, words, data):
        if kind in OF_BYTES:
            return list(OF_BYTES[kind](words, data))
        if kind in OF_PATH:
            return shown(OF_PATH[kind](self.names, path_of(words)))
        if kind in OF_NAME:
            scope, name = words.split()
            return shown(OF_NAME[kind](self.names, path_of(scope), name_of(name), self.declared))
        return self.of_sets(kind, words, data)

    def of_sets(self, kind, words, data):
        last = self.dumps[-1].data if self.dumps else b""
        match kind:
            case "set":
                self.dumps, self.given = [], []
            case "dump":
                name, signature = words.split(" ")
                self.of_sets("raw", name, table(signature.encode(), data))
            case "raw":
                name, _, address = words.partition("@")
                self.dumps.append(Dump(name, int(address, 16) if address else None, data))
            case "cut":
                self.change(last[:int(words)])
            case "put":
                self.change(last[:int(words)] + data + last[int(words) + 1:])
            case "add":
                self.change(last + data)
            case "order":
                return [" ".join(map(str, order_of(self.dumps, options_of(words).any_sum)))]
            case "orders":
                lines = lambda left: self.change(last[:left]) or [f"{left} bytes:", *self.answer("order")]
                return [line for left in reversed(range(int(words))) for line in lines(left)]
            case "run":
                status, out, err = self.run(options_of(words))
                return [f"status {status}", *out.splitlines(), *err.splitlines()]
            case _:
                return self.of_namespaces(kind, words, data)

    def change(self, data):
        self.dumps[-1] = self.dumps[-1]._replace(data=data)

    def run(self, options):
        return run(self.dumps, options, self.given)

    def of_namespaces(self, kind, words, data):
        rows = [row_text(*row) for row in self.names.rows()]
        match kind:
            case "method":
                return text_of(Reader(data, self.names.arity(path_of(words)), path_of(words)))
            case "space":
                self.names, self.declared = Namespace(), set()
            case "declare" | "again" | "maybe":
                name, declared = declaration_of(words)
                if kind == "declare" and tuple(name.segs) in self.names.declarations:
                    raise Refused("Duplicate", path=path_text(tuple(name.segs)))
                self.names.declare_so((), name, declared, kind != "maybe")
            case "external":
                self.names.add_external(*count_of(words))
            case "given":  # in the namespace, and in the runs over the set
                self.names.give(*count_of(words))
                self.given.append(count_of(words))
            case "local":
                self.declared.add(path_of(words))
            case "locals":
                return ["some" if self.declared else "none"]
            case "is_local":
                return ["local" if path_of(words) in self.declared else "not local"]
            case "rows":
                return rows
            case "row_at":
                return shown(dict(enumerate(rows)).get(int(words)))
            case "counted":  # a declared path has a segment at least, and so is found by a comparison
                return [*self.answer(f"kind {words}"), "few comparisons"]
            case _:
                raise ValueError(f"no such kind of row: {kind}")


def main():
    rows = Rows()
    for row in sys.stdin.read().splitlines():
        print(row, *rows.answer(row), sep="\n  ")


if __name__ == "__main__":
    main()
