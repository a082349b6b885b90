"""The namespace of several tables and the bodies of their methods, after docs/names.md, and code outside methods, as
--any-run reads it, after docs/any_run.md: its terms are read from the left, each with the counts of what stands before
it, and declare what then stands surely or only may stand. Without that option all that tables declare stands surely."""

from collections import namedtuple
from dataclasses import dataclass

from reading import ALIAS, EXTERNAL, FIELD_LISTS, KINDS, METHOD, ROWS, SCOPE, SCOPES, Reader, Refused, require

MOST_METHODS = 1_048_576
PREDEFINED = {
    **dict.fromkeys([(), ("_GPE",), ("_PR_",), ("_SB_",), ("_SI_",), ("_TZ_",)], ("Scope",)),
    ("_GL_",): ("Mutex",), ("_OS_",): ("Name",), ("_REV",): ("Name",), ("_OSI",): ("Method", 1),
}
# The kinds of paths that a Scope opens in every run that has them
SCOPE_KINDS = {"Scope", *(KINDS[opcode] for opcode in SCOPES - {SCOPE})}

# A name where a value is wanted or a term stands, with the number of its arguments that were read
Use = namedtuple("Use", "table scope name count in_declaration")
# Where the body of a method stands: its table, and the offsets of its first byte and behind its last
Method = namedtuple("Method", "path table start end")
# The body of a method, with its terms or the fault for which it has none
Body = namedtuple("Body", "method code terms fault", defaults=[None, None])


def path_text(path):
    return "\\" + ".".join(path)


def own_count(kind):
    """The count of a kind by itself: an Alias takes none."""
    return kind[1] if kind[0] == "Method" else 0


def placed(scope, name):
    path = name.placed(scope)
    require(path is not None, Refused, "AboveRoot")
    return path


class Namespace:
    """What stands after a run, whichever it is. `declarations` are those of a path in their order, each a kind and
    whether it is sure. The kind of an Alias has its target, and whether it is open: the target may be another in some
    run. `given` are the counts of arguments that no table says: paths with counts, of which the greatest holds."""

    def __init__(self, given=()):
        self.declarations, self.externals, self.methods, self.uses, self.given = {}, {}, [], [], {}
        for path, count in given:
            self.give(path, count)

    def kinds_of(self, path):
        """What may stand at a path: the kinds up to the first sure one, or all and the predefined one."""
        kinds = []
        for kind, is_sure in self.declarations.get(path, ()):
            kinds.append(kind)
            if is_sure:
                return kinds
        return kinds + [kind for kind in [PREDEFINED.get(path)] if kind]

    def kind(self, path):
        return next(iter(self.kinds_of(path)), None)

    def is_sure(self, path):
        return path in PREDEFINED or any(is_sure for _, is_sure in self.declarations.get(path, ()))

    def is_known(self, path):
        return bool(self.kinds_of(path)) or path in self.externals

    def rows(self):
        """The declared paths with the kinds of their first declarations, and their marks."""
        is_maybe = lambda found: not any(is_sure for _, is_sure in found)
        marks = lambda found: ["Maybe"] * is_maybe(found) + [f"Times {len(found)}"] * (len(found) > 1)
        return sorted((path, found[0][0], marks(found)) for path, found in self.declarations.items())

    def counts(self, path):
        """How many arguments each of the kinds takes that may stand at a path; None where nobody knows."""
        return [count for kind in self.kinds_of(path) for count in self.counts_of(kind)]

    def counts_of(self, kind):
        if kind[0] != "Alias":
            return [own_count(kind)]
        _, target, is_open = kind
        if is_open:
            return [None]
        return list(map(own_count, self.kinds_of(target))) or [self.externals.get(target, 0)]

    def counts_met(self, scope, name, declared):
        """The counts of all that a name may mean, whichever run it is."""
        paths = self.meant(scope, name, declared)
        return [count for path in paths for count in ([0] if path in declared else self.counts(path))]

    def arity(self, scope, unknown_zero=False):
        def count(declared, name):
            met = self.counts_met(scope, name, declared)
            # What no declaration tells anything of has the count of the first External, and else that given to the first.
            first_in = lambda counts: next((counts[path] for path in name.candidates(scope) if path in counts), None)
            told = agreed(met) if met else first_in(self.externals)
            given = first_in(self.given) if told is None else told
            return 0 if given is None and not met and unknown_zero else given

        return count

    def give(self, path, count):
        self.given[path] = max(self.given.get(path, 0), count)

    def add_external(self, path, count):
        self.externals[path] = max(self.externals.get(path, 0), count)

    def meant(self, scope, name, declared=()):
        """The paths that a name may mean, the nearest first, up to one that stands in every run; where nothing declares
        any, the first of which an External tells."""
        found = []
        for path in name.candidates(scope):
            if path in declared or self.kinds_of(path):
                found.append(path)
            if path in declared or self.is_sure(path):
                return found
        return found or [path for path in name.candidates(scope) if path in self.externals][:1]

    def first(self, scope, name, declared=()):
        return next(iter(self.meant(scope, name, declared)), None)

    def find(self, scope, name):
        """Where a name leads in every run, or None."""
        path, candidates = self.first(scope, name), name.candidates(scope)
        if self.is_sure(path) or not self.kinds_of(path):
            return path
        return None if any(map(self.is_known, candidates[candidates.index(path) + 1:])) else path

    def lead(self, scope, name, missing):
        """Where the name of a Scope or an Alias' source leads."""
        path, found = placed(scope, name), self.find(scope, name)
        require(found is not None, Refused, missing, None, path_text(path))
        return found

    def opened(self, scope, name):
        """The path that a Scope opens, and whether every run goes inside."""
        if not any(map(self.is_known, name.candidates(scope))):
            return placed(scope, name), False
        path = self.lead(scope, name, "ScopeMissing")
        return path, self.is_sure(path) and self.is_scope(path)

    def is_scope(self, path):
        """Whether a path is a scope in every run that has it. An interpreter passes over a Scope of another kind, as of
        a method or an Alias, with all that stands inside; of a Name it goes by the value."""
        return all(kind[0] in SCOPE_KINDS for kind in self.kinds_of(path))

    def has_parent(self, scope, name):
        """Whether every run has the path above a declared one, without which it passes over the declaration."""
        path = name.placed(scope)
        return path is not None and self.is_sure(path[:-1])

    def alias_of(self, source):
        """The kind of an Alias whose source leads to a path: what that one aims at, if it is an Alias. It is open where
        the source may be an Alias and something else, or an open one."""
        kinds = self.kinds_of(source)
        target = kinds[0][1] if kinds and kinds[0][0] == "Alias" else source
        is_open = any(kind[0] == "Alias" and (kind[2] or len(kinds) > 1) for kind in kinds)
        return "Alias", target, is_open

    def declare_so(self, scope, name, kind, is_sure, method=None):
        """Declares a path, and says whether it was declared before."""
        require(kind[0] != "Method" or len(self.methods) < MOST_METHODS, Refused, "TooManyMethods")
        path = placed(scope, name)
        is_again = path in self.declarations
        self.declarations.setdefault(path, []).append((kind, is_sure))
        if method:
            self.methods.append(Method(path, *method))
        return path, is_again


def agreed(counts):
    """The count that all of them are, or None."""
    return counts[0] if len(set(counts)) == 1 else None


@dataclass
class RunReader(Reader):
    """Reads a table whose terms may run. `scope` is where the code stands, and `is_sure` whether what it declares is."""

    space: Namespace | None = None
    table: int = 0
    scope: tuple = ()
    is_sure: bool = True
    in_declaration: bool = False
    outermost = "run"

    def named(self, at, end, position, level):
        if position == "run":
            self.in_declaration = False
        return super().named(at, end, position, level)

    def operation(self, start, opcode, at, end, position, level):
        if position == "run":
            self.in_declaration = ROWS[opcode].group == "declaration"
        return super().operation(start, opcode, at, end, position, level)

    def count(self, name, at):
        """The count that what stands before tells, or none."""
        count = self.space.arity(self.scope)((), name) or 0
        self.space.uses.append(Use(self.table, self.scope, name, count, self.in_declaration))
        return count

    def block(self, term, at, end, level):
        outside = self.scope, self.is_sure
        self.scope, self.is_sure = self.inside(term)
        terms = super().block(term, at, end, level)
        self.scope, self.is_sure = outside
        return terms

    def inside(self, term):
        """The scope inside a term, and whether what is declared there is sure."""
        opcode, names = term.opcode, term.names()
        if opcode == SCOPE:
            path, is_sure = self.space.opened(self.scope, names[0])
            return path, self.is_sure and is_sure
        if opcode in SCOPES:
            return self.declare(names[0], (KINDS[opcode],))
        return self.scope, False

    def leave(self, term):
        """Declares what a term without a block declares."""
        opcode, names = term.opcode, term.names()
        if opcode == METHOD:
            self.declare(names[0], ("Method", term.parts[1][1] & 7), method=(self.table, *term.tail))
        elif opcode == ALIAS:
            source = self.space.lead(self.scope, names[0], "AliasMissing")
            self.declare(names[1], self.space.alias_of(source), self.space.is_sure(source))
        elif opcode == EXTERNAL:
            self.space.add_external(placed(self.scope, names[0]), term.parts[2][1])
        elif opcode not in SCOPES:
            for name in term.declared():
                self.declare(name, ("Field",) if opcode in FIELD_LISTS else (KINDS[opcode],))

    def declare(self, name, kind, has_source=True, method=None):
        """Declares a path, and gives it with whether every run goes inside: an interpreter that has the path already
        passes over a Device, with all that stands inside. It passes over an Alias too whose source isn't there."""
        is_sure = self.is_sure and has_source and self.space.has_parent(self.scope, name)
        path, is_again = self.space.declare_so(self.scope, name, kind, is_sure, method)
        return path, is_sure and not is_again


class Loader(RunReader):
    """Reads a table again that was read as one without code to be run: each of its paths is declared once, surely."""

    outermost = "module"

    def count(self, name, at):
        self.space.uses.append(Use(self.table, self.scope, name, 0, True))
        return 0

    def inside(self, term):
        if term.opcode != SCOPE:
            return super().inside(term)
        return self.space.lead(self.scope, term.names()[0], "ScopeMissing"), True

    def declare(self, name, kind, has_source=True, method=None):
        path, is_again = self.space.declare_so(self.scope, name, kind, True, method)
        require(not is_again and path != (), Refused, "Duplicate", None, path_text(path))
        return path, True


class Loaded(namedtuple("Loaded", "codes trees space")):
    """Tables in load order: their AML, the terms of each, and the namespace of all."""

    def bodies(self, unknown_zero):
        """The bodies of all methods, each read in the namespace of all tables."""
        return [self.body(method, unknown_zero) for method in self.space.methods]

    def body(self, method, unknown_zero):
        code = self.codes[method.table][method.start:method.end]
        try:
            return Body(method, code, Reader(code, self.space.arity(method.path, unknown_zero), method.path).read())
        except Refused as fault:
            return Body(method, code, fault=fault)


def load(codes, given=(), any_run=False, unknown_zero=False):
    """Reads and loads the AML of tables in load order, and then looks at each count that was read again."""
    loaded, table = Loaded(codes, [], Namespace(given)), None
    space = loaded.space
    try:
        for table, code in enumerate(codes):
            if not any_run:
                Reader(code).read()
            loaded.trees.append((RunReader if any_run else Loader)(code, space=space, table=table).read())
        for use in space.uses:
            table, path = use.table, use.name.placed(use.scope)
            # It may have another number of arguments after all tables than where it was read.
            count = space.arity(use.scope, unknown_zero or use.in_declaration)((), use.name)
            told = path_text(path) if any_run and path is not None else None
            require(count == use.count, Refused, "ModuleCall", None, told)
    except Refused as fault:
        fault.table = None if fault.name == "TooManyMethods" else table
        raise
    return loaded
