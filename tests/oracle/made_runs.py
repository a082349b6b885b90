"""Makes up the AML of sets with code outside the methods, for --any-run: blocks, branches that declare a path again, calls
with arguments, Scopes of what nothing declares and of what is no scope, declarations below what only may stand, inner
names that only may stand, Aliases of what may be another Alias, and counts that differ."""

import contextlib
import copy
import functools

from made_code import ARGUMENT_COUNTS, IN_DEEP_TABLES, IN_TABLES, MOST_DEPTH, MOST_SEGMENTS, Maker
from made_terms import TermMaker, code_of, joined
from namespaces import Namespace, RunReader
from reading import ALIAS, ELSE, EXTERNAL, IF, KINDS, METHOD, MOST_LEVELS, RETURN, ROWS, SCOPES, Name, Refused

WHILE, BYTE = 0xA2, 0x0A
STATEMENTS = [opcode for opcode, row in ROWS.items() if row.group == "statement" and opcode not in (IF, ELSE, WHILE, RETURN)]
IN_RUNS = IN_TABLES + [IF] * 14 + [WHILE] * 2 + STATEMENTS + [0x70] * 2
MOST_TRIES = 5


class RunMaker(Maker):
    """Makes the AML of one set with code outside the methods.

    `space` has what stands where the code does, `is_sure` says whether what is declared there is, and `opened_is_sure` the
    same of what stands inside the path that was opened last. `opcode` is the term that is being made, `alias_source` where
    an Alias' source leads; `in_declaration` says whether the term that runs is a declaration."""

    def __init__(self, chance, gives=False, segments=0):
        super().__init__(chance, gives, segments)
        self.opcode, self.alias_source, self.in_declaration = None, (), False
        if gives:
            self.given = {path: count for path, count in self.methods.items() if self.happens(0.4)}
        self.space, self.is_sure, self.opened_is_sure = Namespace(self.given.items()), True, True

    def tables(self):
        codes = super().tables()
        if self.happens(0.04):
            count = self.chance.randrange(MOST_LEVELS - 5, MOST_LEVELS + 3)
            codes[0] += functools.reduce(lambda code, _: self.packed(b"\xA0", b"\1" + code), range(count), b"\xA3")
        return codes

    def late_method(self, path, count):
        """The declaration of a method that bodies call; now and then there is one in each of two branches."""
        name, how = self.spelled(self.root_name(path)), self.chance.random()
        if path in self.given or how < 0.03:
            return b""
        if how < 0.1:
            return b"\x15" + name + b"\x08" + bytes([count])
        if how < 0.65:
            return self.method(name, path, count)
        other = self.same_or_other(count)
        if self.gives and self.happens(0.5):
            self.given[path] = self.chance.choice((count, other))
        first, second = (self.method(name, path, one) for one in (count, other))
        return self.packed(b"\xA0", b"\1" + first) + self.packed(b"\xA1", second)

    def same_or_other(self, count):
        return count if self.happens(0.8) else self.chance.choice(ARGUMENT_COUNTS)

    # ---- terms

    def terms(self, depth, inside):
        if inside != "table":
            return super().terms(depth, inside)
        count = self.chance.randrange(4) if depth else self.chance.randrange(3, 12)
        return b"".join(self.run_term(depth) for _ in range(count))

    def run_term(self, depth):
        self.in_declaration = False
        if depth < MOST_DEPTH and self.happens(0.1):
            return self.scene(depth + 1)
        if self.happens(0.1):
            return self.value(depth, "table")
        if self.is_strange("table") and self.happens(0.4):
            return self.operation(self.chance.choice((ELSE, RETURN)), depth, "table")
        opcode = self.chance.choice(IN_RUNS if depth < MOST_DEPTH else IN_DEEP_TABLES)
        if opcode == IF and self.happens(0.1):
            terms = (self.operation(EXTERNAL, depth, "table") for _ in range(self.chance.randrange(3)))
            return self.packed(b"\xA0", b"\0" + b"".join(terms))
        self.in_declaration = ROWS[opcode].group == "declaration"
        code = self.operation(opcode, depth, "table")
        return code + self.operation(ELSE, depth, "table") if opcode == IF and self.happens(0.5) else code

    def block(self, opcode, depth, inside):
        if inside != "table":
            return super().block(opcode, depth, inside)
        outside, is_sure = (self.scope, self.is_sure), opcode in SCOPES and self.opened_is_sure
        self.scope, self.is_sure = self.opened if opcode in SCOPES else self.scope, self.is_sure and is_sure
        code = self.terms(depth, "table")
        self.scope, self.is_sure = outside
        return code

    def parts(self, opcode, depth, inside):
        self.opcode = opcode
        if opcode != METHOD or self.is_strange("table"):
            return super().parts(opcode, depth, inside)
        # A method has mostly the count that its name has already.
        name = self.new_or_known_name()
        told = self.space.arity(self.scope)((), name)
        count = self.chance.choice(ARGUMENT_COUNTS) if told is None else self.same_or_other(told)
        return self.declared_name(name, count) + bytes([count | self.chance.choice((0x00, 0x08, 0xF0))])

    def part(self, kind, opcode, depth, inside):
        self.opcode = opcode
        if kind == "T":
            return self.value(depth, inside)
        return super().part(kind, opcode, depth, inside)

    # ---- names

    def new_name(self, inside, count=0):
        if inside != "table" or self.is_strange(inside):
            return super().new_name(inside, count)
        return self.declared_name(self.new_or_known_name(), count)

    def new_or_known_name(self):
        """A name to be declared: a new one, or seldom one of a path declared before, of the last segment of one, of
        what stands below one, or below nothing."""
        how, paths = self.chance.random(), [path for path in self.known if path]
        if how < 0.05:
            return self.root_name(self.chance.choice(paths))
        if how < 0.09:
            return Name(False, 0, [self.chance.choice(paths)[-1]])
        if how < 0.12:
            return self.root_name((*self.chance.choice(paths)[:MOST_SEGMENTS - 1], self.fresh_segment()))
        if how < 0.13:
            return Name(False, 0, [self.fresh_segment(), self.fresh_segment()])
        return self.fresh_name("table")

    def declared_name(self, name, count):
        self.opened = name.placed(self.scope)
        is_sure = self.is_sure and self.space.has_parent(self.scope, name)
        is_sure = is_sure and (self.opcode != ALIAS or self.space.is_sure(self.alias_source))
        self.opened_is_sure = is_sure and self.opened not in self.space.declarations
        self.known.setdefault(self.opened, count)
        if self.opcode == EXTERNAL:
            self.space.add_external(self.opened, count)
        else:
            kind = ("Method", count) if self.opcode == METHOD else (KINDS.get(self.opcode, "Name"),)
            kind = self.space.alias_of(self.alias_source) if self.opcode == ALIAS else kind
            self.space.declare_so(self.scope, name, kind, is_sure)
        return self.spelled(name)

    def alias_names(self, inside):
        if inside != "table":
            return super().alias_names(inside)
        path = self.chance.choice([path for path in self.known if path])
        source = self.leading_name(path)
        found = self.space.find(self.scope, source) or ()
        if not found and self.happens(0.8):
            source, found = self.root_name(path), path
        self.alias_source = found
        return self.spelled(source) + self.new_name(inside)

    def scope_name(self):
        """The name of the path that a Scope opens: now and then of one that nothing declares, or that is no scope."""
        how = self.chance.random()
        if how < 0.15:
            self.opened, self.opened_is_sure = (self.fresh_segment(), self.fresh_segment())[:self.chance.choice((1, 2))], False
            return self.spelled(self.root_name(self.opened))
        if how < 0.6:
            self.opened = self.chance.choice([path for path in self.known if self.space.is_scope(path)])
            code = self.name_to(self.opened)
        else:
            code = super().scope_name()
        self.opened_is_sure = self.space.is_sure(self.opened) and self.space.is_scope(self.opened)
        return code

    def new_unit(self, inside):
        code = super().new_unit(inside)
        if inside == "table":
            self.space.declare_so(self.scope, Name(False, 0, [code.decode()]), ("Field",), self.is_sure)
        return code

    def called(self, depth, inside):
        """A name where a value is wanted, with the arguments that what stands so far tells."""
        if self.is_strange(inside) or inside == "body" and self.locals and self.happens(0.3):
            return super().called(depth, inside)
        if inside == "table" and self.happens(0.1 if self.in_declaration else 0.002):
            return self.spelled(Name(False, 0, [self.fresh_segment()]))
        for _ in range(MOST_TRIES):
            path = self.chance.choice(self.callable_paths(inside))
            name = self.leading_name(path)
            count = self.space.arity(self.scope)(self.locals, name)
            if count is None and inside == "body":
                count = self.methods.get(path)
            if count is not None:
                return self.spelled(name) + b"".join(self.value(depth + 1, inside) for _ in range(count))
            if self.happens(0.05):
                return self.spelled(name)
        return b"\1"

    def callable_paths(self, inside):
        """The paths to call: more often methods with arguments, and in bodies those that are declared at the end."""
        if self.happens(0.5):
            paths = list(self.methods if inside == "body" else self.given if self.happens(0.1) else ())
            paths += [path for path, count in self.known.items() if path and count and inside != "body"]
            if paths:
                return paths
        return [path for path in self.known if path]

    # ---- scenes

    def scene(self, depth):
        """Terms that meet at few paths, which load behind what stands so far, and methods that call these."""
        for _ in range(MOST_TRIES):
            maker, space = TermMaker(self.chance), copy.deepcopy(self.space)
            terms = self.chance.choice((maker.chained, maker.chained, maker.opened, maker.missed))
            code = code_of(terms() if self.happens(0.5) else joined(maker.scenery(self.scope)))
            with contextlib.suppress(Refused):
                RunReader(code, space=space, scope=self.scope, is_sure=self.is_sure).read()
                self.space, paths = space, [path for path in maker.paths if space.is_known(path)] or [("_OSI",)]
                self.known = {path: next(filter(None, space.counts(path)), 0) for path in paths} | self.known
                return code + b"".join(self.caller(depth, paths) for _ in range(self.chance.choice((1, 2, 3))))
        return b""

    def caller(self, depth, paths):
        """A method among these paths that calls one with a count that is told, now and then behind a local path."""
        path = self.chance.choice(paths)
        name = Name(False, 0, [path[-1]]) if len(path) > MOST_SEGMENTS or self.happens(0.5) else self.root_name(path)
        method = (*self.chance.choice([self.scope, *paths, *(it[:-1] for it in paths)]), self.fresh_segment())
        counts = [count for count in self.space.counts_met(method, name, ()) if count is not None]
        count = self.chance.choice([*counts, *counts, self.chance.choice(ARGUMENT_COUNTS)])
        if self.gives and self.happens(0.5):
            self.given[path] = count
        self.opcode = METHOD
        content = self.declared_name(self.leading_name(method), 0) + b"\0"
        content += b"\x08" + self.spelled(self.root_name(path)) + b"\0" if self.happens(0.1) else b""
        content += self.spelled(name) + b"".join(self.operation(BYTE, depth, "body") for _ in range(count))
        return self.packed(b"\x14", content)
