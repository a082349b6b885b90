#!/usr/bin/env python3
"""Runs acpidis over sets that are too many or too large for worked examples, and compares text, error lines and status.

    python3 tests/large_sets.py [--stop] [PROGRAM]

What has to come of most sets the independent reading of tests/oracle says; of a long body, a name of sixteen million
`^` and a million methods it is written down here, after docs/listing.md, docs/limits.md and docs/names.md."""

import gc
import itertools
from collections import namedtuple

from tally import PROGRAM, Outcome, Tally, asked, side_by_side
import hostile_shapes as shapes
from compare import difference_of, laid, run_program
from dumps import HEADER_LENGTH, MOST_BYTES, MOST_DUMPS, dumps_of
from hostile import text_of
from made_code import MOST_SEGMENTS
from made_aml import SETS, device, each, method, scope, segment, table, tables
from namespaces import MOST_METHODS
from running import DONE, RAW, Options, refused, run, run_folder

LIST, CHECK = Options(), Options(check=True)
LIST_RUNS, CHECK_RUNS = Options(any_run=True), Options(any_run=True, check=True)
WORKERS = 1, 4, 64
MOST_SHOWN = 400
BLOCK = "dsdt.dat"
# How many bytes a large method has in front of its body.
METHOD_LENGTH = 10
# How many of the cuts, the whole tables among them, are taken, and how many bodies of two bytes are read as terms.
TAKEN_CUTS, READ_BODIES = 60, 880
# The methods of the mixed order, and how many names are looked up that nothing declares. The step has no factor in common
# with the number of methods, so that each comes once.
MIXED, OTHERS, STEP = 20_000, 500, 7_919
# Rows that workers print in pieces, the depth of a path with which the caller does, and rows for a second harvest
ROWS, LONG, LATER = 8_192, 70, 30_000
# So many tables of so many methods have more bytes than the caller reads alone.
BESIDE, CALLING = 5, 1_100
# The Aliases of a chain, of which each so manieth is called, and the methods inside a Scope of what is no scope
CHAINED, STRIDE, INNER = 1_000, 50, 100

# A set, the options of a run over it, and how that has to end; the independent reading says it where nothing stands
Trial = namedtuple("Trial", "name files options wanted externals", defaults=[LIST, None, None])


def tried(program, trial):
    """What a run differs in first from how it has to end, if it does; and its status."""
    with laid(trial) as (folder, options):
        got = run_program(program, folder, options)
        wanted = trial.wanted or run_folder(folder, options)
    return None if got == wanted else difference_of(got, wanted)[:MOST_SHOWN], got.status


def check(checks, trial, difference):
    words = " ".join(["acpidis", *trial.options.words()])
    checks.is_so(f"{words}, {trial.name}: {difference}", not difference)


def cuts():
    for number, code in enumerate(SETS["cuts"], 1):
        for length, options in itertools.product(range(len(code) + 1), (LIST, CHECK)):
            yield Trial(f"table {number} cut to {length} bytes", tables(code[:length]), options)


def listed_and_checked(name, files, checks):
    """The listing of a set by the independent reading, and its check, whose lines are written down."""
    gc.disable()  # else half of the time goes into looking for what is no longer used, and there is little
    outcome = run(dumps_of(files), LIST)
    gc.enable()
    yield Trial(name, files, LIST, outcome)
    yield Trial(name, files, CHECK, outcome._replace(out="".join(checks)))


def check_line(file, size, methods, raw):
    return f'Check "{file}" Bytes {size} Methods {methods} Raw {raw} Same\n'


def bodies_of_two_bytes():
    count = 1 << 16
    code = b"".join(method(segment(number), 0, number.to_bytes(2, "big"), width=1) for number in range(count))
    check = check_line(BLOCK, len(code), count, count - READ_BODIES)
    return listed_and_checked("all bodies of two bytes", tables(code), [check])


def a_mixed_order():
    """Methods of 0 to 7 arguments, and in an SSDT a call of each in the order of their names, in one body. Of names that
    nothing declares each stands in a body of its own."""
    mixed = (place * STEP % MIXED for place in range(MIXED))
    code = b"".join(method(segment(number), number % 8, width=1) for number in mixed)
    calls = method(b"MAIN", 0, *(segment(number) + b"\x60" * (number % 8) for number in range(MIXED)))
    calls += b"".join(method(b"Z%03d" % number, 0, segment(MIXED + number)) for number in range(OTHERS))
    checks = [check_line(BLOCK, len(code), MIXED, 0), check_line("ssdt1.dat", len(calls), OTHERS + 1, OTHERS)]
    return listed_and_checked("methods in a mixed order", tables(code, calls), checks)


def what_has_a_limit():
    """Code outside methods goes 512 levels deep, where the predicate of the last If is a level below it; the most
    files, and the most bytes; and a path that is declared again and again."""
    ifs = shapes.around(511, shapes.block, b"")
    for options in LIST_RUNS, CHECK_RUNS:
        yield Trial("511 Ifs", tables(ifs), options)
    yield Trial("512 Ifs", tables(shapes.block(ifs)), LIST_RUNS)
    for options in LIST_RUNS, LIST:
        yield Trial("a path declared 200 times", tables(*[b"\x08AAAA\0" * 100] * 2), options)
    for count in MOST_DUMPS, MOST_DUMPS + 1:
        yield Trial(f"{count} empty files", dict.fromkeys(map(str, range(count)), b""))
        yield Trial(f"{count} tables", tables(*(shapes.name(segment(number)) for number in range(count))))
    yield Trial(f"{MOST_DUMPS} tables", tables(*(shapes.name(segment(number)) for number in range(MOST_DUMPS))), CHECK)
    for size in MOST_BYTES, MOST_BYTES + 1:
        yield Trial(f"{size} zeros", {BLOCK: bytes(size)})
        yield Trial(f"a table in {size} bytes", {BLOCK: table(b"DSDT", SETS["cuts"][0]).ljust(size, b"\0")})


def by_workers(name, *codes, runs=(LIST_RUNS, CHECK_RUNS)):
    """The listing and the check of a set, else with code outside methods, each by some numbers of workers."""
    files = tables(*codes)
    for options in runs:
        outcome = run(dumps_of(files), options)
        for workers in WORKERS:
            yield Trial(name, files, options._replace(workers=workers), outcome)


def below_maybes():
    """A path as long as a name can be, below paths each of which only may stand: to the end; until they are declared
    once more, with another method at the path; and with each Device inside the one before."""
    segments = [segment(number) for number in range(MOST_SEGMENTS)]
    *above, whole = [b"\\/%c" % count + b"".join(segments[:count]) for count in range(1, MOST_SEGMENTS + 1)]
    maybes = b"".join(shapes.block(device(name)) for name in above) + method(whole, 1)
    sure, call = b"".join(map(device, above)) + method(whole, 2), method(b"CALL", 0, whole + b"\1\1")
    yield from by_workers("a long path below maybes", maybes + call)
    yield from by_workers("a long path below what is sure at the end", maybes + sure + call)
    nested = method(segments[-1], 1, segments[-1] + b"\1") + method(whole, 2)
    for name in reversed(segments[1:-1]):
        nested = shapes.block(device(name, nested))
    yield from by_workers("a long path inside of maybes", device(segments[0], nested) + call)


def chains_of_aliases():
    """Aliases of Aliases, the first of which may be that of two methods, may be there, or is; and what calls them."""
    methods = method(b"MET1", 1) + method(b"MET2", 2)
    first, second = (shapes.alias(segment(0), name) for name in (b"MET1", b"MET2"))
    maybe = shapes.block(first)
    starts = {"two methods": maybe + shapes.block(second), "one that may be": maybe, "one": first}
    called = range(0, CHAINED, STRIDE)
    calls = b"".join(method(b"Z%03d" % number, 0, segment(CHAINED - number) + b"\1\1") for number in called)
    for what, start in starts.items():
        yield from by_workers(f"Aliases of Aliases of {what}", methods + start + shapes.alias_chain(CHAINED) + calls)


def scopes_of_no_scope():
    """Scopes of a Mutex, a method, a Name, an Alias of a Device, what may be a Device, and a Device. In each are
    methods and a Device, and behind it others of their paths, and what calls them."""
    declared = {
        b"MTX0": b"\x5B\x01MTX0\0", b"MTH0": method(b"MTH0", 0), b"NAM0": b"\x08NAM0\0", b"ALI0": b"\x06DEV0ALI0",
        b"MAY0": shapes.block(device(b"MAY0")) + method(b"MAY0", 0), b"DEV0": b"",
    }
    names = [segment(number) for number in range(INNER)]
    code = device(b"DEV0")
    for opened, declaration in declared.items():
        inside = [*(method(name, 1, name + b"\1") for name in names), device(b"INNR", method(b"FOO_", 1))]
        code += declaration + scope(opened, *inside)
        paths = [b"\\." + opened + name for name in names] + [b"\\/\3" + opened + b"INNRFOO_"]
        code += b"".join(method(path, 2) for path in paths)
        callers = (b"\\." + opened + b"Z%03d" % number for number in range(len(paths)))
        code += b"".join(method(caller, 0, path + b"\1\1") for caller, path in zip(callers, paths))
    return by_workers("Scopes of what is no scope", code)


def rows_in_pieces():
    """Names as many as whole pieces have, others besides, Aliases of these, and one with a long path."""
    named, deep = each(ROWS, shapes.name), device(b"LONG")
    for number in range(LONG):
        deep = device(segment(number), deep)
    later = b"".join(shapes.alias(segment(ROWS + number), segment(number % ROWS)) for number in range(LATER))
    some = later[: INNER * len(shapes.alias(shapes.LEAF))]
    others = {"": b"", " and others": some, ", and many": later, ", one of a long path": device(b"DEEP", deep) + some}
    for what, more in others.items():
        yield from by_workers(f"rows in pieces{what}", named + more)


def texts_beside_the_load():
    """Tables so long that workers make their texts beside the load, each with calls of the next one's methods; and one
    more: whose text is too long to be kept, which can't be read, or which declares a path again."""
    codes = list(shapes.calling(BESIDE, CALLING, 1))
    deep = shapes.around(500, lambda inner: device(b"DEEP", inner), b"")
    others = {"": [], ", one deep": [deep], ", one cut off": [b"\x08AAA"], ", one again": [method(segment(0), 1)]}
    for what, more in others.items():
        yield from by_workers(f"texts beside the load{what}", *codes, *more, runs=(LIST, CHECK))


def of_methods(name, code, names, lines=()):
    """The listing and the check of a table of methods of these names, whose bodies have these lines."""
    rows = [f"\\{it} Method 0" for it in names]
    block = [line for it in names for line in (f"Method ({it}, 0, NotSerialized, 0) {{", *lines, "}")]
    text = text_of(rows, block, BLOCK, length=HEADER_LENGTH + len(code))
    yield Trial(name, tables(code), LIST, Outcome(DONE, text, ""))
    yield Trial(name, tables(code), CHECK, Outcome(DONE, check_line(BLOCK, len(code), len(names), 0), ""))


def a_long_body():
    count = 100_000
    code = method(b"MAIN", 0, b"\xA4\x72\x60\x61\x00" * count)
    return of_methods("a long body", code, ["MAIN"], ["  Return (Add (Local0, Local1, ))"] * count)


def parent_prefixes():
    """A name of as many `^` as a table has room for leads above the root. As a target it is printed, and asked for nothing."""
    room = MOST_BYTES - HEADER_LENGTH
    name = b"^" * (room - 6) + b"BBBB"
    yield Trial("a declared name of ^", tables(b"\x08" + name + b"\0"), LIST, refused(f'table "{BLOCK}": AboveRoot'))
    name = b"^" * (room - METHOD_LENGTH - 5) + b"BBBB"
    yield from of_methods("a target of ^", method(b"MAIN", 0, b"\x71" + name), ["MAIN"], [f"  RefOf ({name.decode()})"])


def the_most_methods():
    """The limit is met before the place of a name is looked at. A set has one limit, whichever tables have the methods."""
    names = [segment(number).decode() for number in range(MOST_METHODS)]
    code = b"".join(b"\x14\x06%s\0" % name.encode() for name in names)
    above, more = b"\x14\x07^ABCD\0", b"\x14\x06ZZZZ\0"
    yield from of_methods("the most methods", code, names)
    for name, files, fault in [
        ("a method too many", tables(code + more), "TooManyMethods"),
        ("a method too many in an SSDT", tables(code, more), "TooManyMethods"),
        ("a method too many above the root", tables(code + above), "TooManyMethods"),
        ("the last method above the root", tables(code[:-7] + above), f'table "{BLOCK}": AboveRoot'),
    ]:
        yield Trial(name, files, LIST, refused(fault))


LARGE = (
    bodies_of_two_bytes, what_has_a_limit, below_maybes, chains_of_aliases, scopes_of_no_scope, rows_in_pieces,
    texts_beside_the_load, a_mixed_order, a_long_body, parent_prefixes, the_most_methods,
)  # fmt: skip


def check_cuts(checks, program):
    """Each cut, by several processes, and how many of them are taken."""
    trials, taken = list(cuts()), 0
    for trial, (difference, status) in zip(trials, side_by_side(lambda trial: tried(program, trial), trials)):
        check(checks, trial, difference)
        taken += status in (DONE, RAW)
    checks.is_same("cuts that are taken", taken, 2 * TAKEN_CUTS)


def main():
    words = asked(__doc__, stop=False, program=PROGRAM)
    with Tally(words.stop) as checks:
        check_cuts(checks, words.program)
        for trial in itertools.chain.from_iterable(make() for make in LARGE):
            check(checks, trial, tried(words.program, trial)[0])


main()
