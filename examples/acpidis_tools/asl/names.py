"""The names of a definition block: what iasl knows of them, and the Externals that the text needs."""

from collections import namedtuple

from acpidis_tools import aml, running
from acpidis_tools.asl import language, terms
from acpidis_tools.listing import ROOT, NoListing, path_text

# A block that is open: its path, and what the body of a method declared so far, where it is in one
Scope = namedtuple("Scope", "path local")
# A name that is used: where it stands, and how
Use = namedtuple("Use", "scope named number")


class Names:
    """What a definition block declares and uses. `own` are the paths that it declares outside the methods, `externals`
    those of its Externals, each with the names and the numbers of their lines, `scopes` those that a Scope opens."""

    def __init__(self, space):
        self.space, self.own, self.externals, self.uses, self.scopes = space, set(), {}, [], set()
        self.inside = {}  # the scopes of what stands in the blocks of lines
        self.methods = {}  # whether iasl knows these paths as methods

    def scope(self, line):
        return self.inside.get(line.above) or Scope(ROOT, None)

    def unit(self, line, name, used):
        """An element of a field list: a unit that it declares, or a name that it uses."""
        if used:
            self.uses.append(Use(self.scope(line), terms.Named(used), line.number))
        if name:
            self.declare(self.scope(line), name)

    def line(self, line, names):
        """A term with these names. Answers the path that it declares."""
        scope, path, names = self.scope(line), None, list(names)
        if names and line.term == "External":
            named = names.pop()
            self.externals.setdefault(self.space.place(scope.path, named.name), []).append((named, line.number))
        elif names and line.term in aml.DECLARERS:
            path = self.declare(scope, names.pop(-1 if line.term in aml.NAMED_LAST else 0).name)
        self.uses += [Use(scope, named, line.number) for named in names]
        if line.end:
            opened = self.inside[line] = self.opened(scope, line.term, path, names)
            running.check_depth(opened.path, line, NoListing)
        return path

    def opened(self, scope, word, path, names):
        if word == "Scope" and names:
            path = self.space.found(scope.path, names[0].name)
            self.scopes.add(path)
        elif word != "Method" and word not in aml.OPENERS:
            path = scope.path
        return Scope(path, set() if word == "Method" else scope.local)

    def declare(self, scope, name):
        path = self.space.place(scope.path, name)
        (self.own if scope.local is None else scope.local).add(path)
        return path

    def told(self):
        """What iasl makes otherwise, since it knows other names than the tables do: with the numbers of the lines."""
        called = {}
        for use in self.uses:
            if use.named.is_call or self.externals and use.named.is_value:
                path, is_local = self.known(use)
                if use.named.is_call and (is_local or path is not None and not self.is_method(path)):
                    yield use.number, f"{use.named.name} as a call, where nothing says that it is a method"
                elif path in self.externals:
                    called.setdefault(path, use.named.count)
        for path, named, number in [(path, *it) for path, lines in self.externals.items() for it in lines]:
            # What iasl makes of the External of a method, which is called with so many arguments, or not at all
            count = called.get(path)
            if named.is_call and count is None and named.count == 0:
                yield number, "an External of a method without arguments that nothing calls"
            elif named.is_call and count is not None and count != named.count:
                yield number, "an External of a method that is called with another count"
            elif named.is_call and count is not None and not named.name.startswith("\\"):
                yield number, "an External of a method that is called, by a name that isn't from the root"

    def known(self, use):
        """The path that iasl finds for a name, and whether it is one of the body's own."""
        for path in self.space.candidates(use.scope.path, use.named.name):
            if use.scope.local and path in use.scope.local:
                return path, True
            if any(path in paths for paths in (self.own, self.externals, self.scopes, running.PREDEFINED)):
                return path, False
        return None, False

    def is_method(self, path):
        """Whether iasl knows a path as a method, through Aliases too, which may name each other. Answers are kept."""
        met = []
        while path not in self.methods:
            self.methods[path] = False  # for Aliases that name each other
            met.append(path)
            kind = (self.space.kinds if path in self.own else running.PREDEFINED).get(path)
            if path in self.scopes:
                break
            if path in self.externals:
                self.methods[path] = any(named.is_call for named, _ in self.externals[path])
            elif not isinstance(kind, tuple):  # which is the target of an Alias
                self.methods[path] = isinstance(kind, int)
            elif kind in self.own or kind in self.externals:
                path = kind
        self.methods.update(dict.fromkeys(met, self.methods[path]))
        return self.methods[path]


def externals(space, uses, own, said, rows):
    """The Externals of what a text uses and doesn't declare, which have to stand in front; and of all else that the
    rows of the listing have, so that iasl finds what is typed, and not what isn't there. `own` are the paths that the
    text declares itself, `said` what the Externals of the tables say of paths."""
    is_other = lambda path: path not in own and path not in running.PREDEFINED
    counts = {}
    for use in uses:
        path = meant(space, use, said)
        if path is not None and is_other(path):
            counts[path] = max(use.named.count, counts.get(path, 0))
    wanted = [external(space, path, said, counts[path]) for path in sorted(counts)]
    return wanted, [external(space, path, said, 0) for path in rows if path not in counts and is_other(path)]


def meant(space, use, said):
    """The path that a name means: the nearest that is declared, else that of an External, else the last that it may
    mean; None where that is the body's own."""
    paths, outside = space.candidates(use.scope.path, use.named.name), None
    for path in paths:
        if use.scope.local and path in use.scope.local:
            return None
        if path in space.kinds:
            return path
        if outside is None and path in said:
            outside = path
    return paths[-1] if outside is None else outside


def external(space, path, said, count):
    """The External of a path, which is used with so many arguments."""
    kinds = space.kinds_of(path) if path in space.kinds else []
    if not kinds and path in said:
        word, most = said[path].word, said[path].count
        return terms.declared(path_text(path), word, max(most, count if said[path].is_call else 0))
    kind = kinds[0] if kinds else count or ""
    if isinstance(kind, int):
        return terms.declared(path_text(path), "MethodObj", max(kind, count))
    return terms.declared(path_text(path), language.OBJECT_OF.get(kind, "UnknownObj"))


def said_by(blocks):
    """What the Externals of all blocks say of paths: the first of each, a method's with the most arguments."""
    said = {}
    for block in blocks:
        for path, lines in block.names.externals.items():
            for named, _ in lines:
                known = said.get(path)
                if not known or named.is_call and (not known.is_call or named.count > known.count):
                    said[path] = named
    return said
