#!/usr/bin/env -S python3 -B
"""Lists the names of methods with arguments that stand where this reader gives a name none.

    python3 examples/calls.py [OPTION..] FOLDER

Where an operator wants a target or an object, as SizeOf, Notify, Acquire and the last operand of Add do, the grammar
of grammar.md has no call with arguments. If a compiler wrote one, the arguments stand behind the operator as terms
of their own, or the body is raw. Each line says where to look: the method or scope, the name, how many arguments its
method takes, the operator, and the line of the text. CondRefOf, ObjectType and RefOf may name the method itself, and are listed
only where a value that nothing takes stands on the next line.

Raw bodies aren't looked through. Each OPTION is one of acpidis, as --any-run, but not --check. ACPIDIS names another
program. Status 0 is no such name, 3 one at least, 1 a folder that is refused, and 2 a command line or a program that is
at fault.
"""

import re
import sys

from acpidis_tools import command, running
from acpidis_tools.listing import NAME, path_of, path_text
from acpidis_tools.terms import Term, places, terms_in

SHOWN = 100
# The operators that may take a method, and none of its values.
OF_METHODS = ("CondRefOf", "ObjectType", "RefOf")
COUNT = re.compile(r"(\\\S*) ([0-7])")
EXTERNAL = re.compile(rf"External \(({NAME.pattern}), \S+, (Zero|One|0x0[0-7])\)")
# The name that a term of a body declares, a field's unit among them.
DECLARED = re.compile(
    r"(?:Name|Mutex|Event|OperationRegion|DataRegion) \(([^\s,)]+)|(?:Create\w*Field|Alias) \(.*, ([^\s,)]+)\)"
    r"|([A-Z_][A-Z0-9_]{3}), \d+"
)


def calls(text):
    """The method or scope, the name, its count, the operator and the line of each such name."""
    own, own_of, space = set(), None, text.namespace
    for line, behind in zip(text.lines, [*text.lines[1:], None]):
        if line.method is not own_of:
            own, own_of = set(), line.method
        # The names that stand as targets or objects
        found = [it for it in places(terms_in(line.pieces)) if it[1].kind == "S" and NAME.fullmatch(it[0].word)]
        scope, shown = path_text(line.scope), line.bare[:SHOWN]
        passed_over = () if not found or behind and running.is_lone(behind, space) else OF_METHODS
        for operator, name in ((place.within.word, term.word) for term, place in found):
            counts = [kind for kind in space.may_be(line.scope, name, own) if isinstance(kind, int)]
            if any(counts) and operator not in passed_over:
                yield scope, name, max(counts), operator, shown
        declared = DECLARED.match(line.bare) if line.method else None
        if declared:
            own.add(space.place(line.scope, next(filter(None, declared.groups()))))


def listing_of(asked):
    run = running.run([running.program(), *command.words_of(asked.options), "--", asked.folder])
    if run.refused:
        raise running.refused(run.refused, asked.options)
    namespace = run.listing.namespace
    for line in run.listing.lines:
        form = EXTERNAL.fullmatch(line.bare)
        if form:
            path, count = namespace.place(line.scope, form[1]), Term(form[2], 0).number
            namespace.counts[path] = max(count, namespace.counts.get(path, 0))
    file = asked.options.get("--externals")
    for number, line in enumerate(command.read(file).decode("ascii").splitlines() if file else (), 1):
        form = COUNT.fullmatch(line)
        if not form or not NAME.fullmatch(form[1]):
            raise running.Unusable(f"line {number} of {file} isn't a path and a count")
        # What a table's External names has the External's count.
        namespace.counts.setdefault(path_of(form[1]), int(form[2]))
    return run


def main():
    run = listing_of(command.parse(command.parser(__doc__, "FOLDER", usage="%(prog)s [OPTION..] FOLDER")))
    found = list(calls(run.listing))
    for scope, name, count, operator, line in found:
        print(f"{scope}: {name} takes {count}, in {operator}: {line}")
    if run.raw:
        bodies = "1 raw body isn't" if len(run.raw) == 1 else f"{len(run.raw)} raw bodies aren't"
        command.tell(f"{bodies} looked through")
    sys.exit(3 if found else 0)


if __name__ == "__main__":
    command.run(main)
