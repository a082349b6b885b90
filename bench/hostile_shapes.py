"""The sets of bench/hostile.py: a DSDT of at most 16,777,216 bytes each, or many files."""
from collections import namedtuple
from functools import partial, reduce

from measuring import Sparse
import made_aml
from made_aml import each, mixed, packed, segment, table, tables
from made_sets import root

MOST_BYTES, HEADER_BYTES, SEGMENTS = 16_777_216, 36, 255
# A file of a set that is no dump, since it lies in a folder of its own.
OPTION, GIVEN = "--externals", "given/externals.txt"
ANY_RUN = "--any-run"
# Names that `segment` gives no number to, below a million.
RUN, NOTHING = b"_RUN", b"ZZZZ"
LEAF, NEAR, FRIEND, OTHER = b"LEAF", b"NEAR", b"FRND", b"OTHR"
MOST_AML, DEEPEST = MOST_BYTES - HEADER_BYTES, 510 * SEGMENTS
# So deep that Devices of long names still stand below.
DEEP = 503 * SEGMENTS
DENSE = bytes.fromhex("a472606100")  # Return (Add (Local0, Local1, ))


class Shape(namedtuple("Shape", "name size unit make is_square given any_run large", defaults=[False] * 4)):
    """A set by its size, which is doubled; `is_square` where twice the size may take four times as long, `given` where
    its runs have the set's file for `--externals`, `any_run` where they have that one, `large` where it takes 9 GB."""

    def options(self, folder):
        return [OPTION, str(folder / GIVEN)] if self.given else [ANY_RUN] if self.any_run else []


# Pieces, with package lengths as short as they can be
package, method, scope = (partial(make, width=1) for make in (packed, made_aml.method, made_aml.scope))


def one(name, size, unit, make, **more):
    """A shape of one DSDT, of this AML."""
    return Shape(name, size, unit, lambda count: tables(make(count)), **more)


def device(code, name=b"DEV0"):
    return made_aml.device(name, code, width=1)


def within(segments, code, others=lambda _: b""):
    """AML in a scope of so many segments: Devices of up to 255, one in the other, each with others in front."""
    while segments:
        count = segments % SEGMENTS or SEGMENTS
        segments -= count
        code = device(others(count) + code, b"\x2f" + bytes([count]) + each(count))
    return code


def around(levels, wrap, code):
    """Code in so many terms, one in the other."""
    return reduce(lambda inner, _: wrap(inner), range(levels), code)


def name(segment, value=b"\0"):
    return b"\x08" + segment + value


def alias(segment, source=LEAF):
    return b"\x06" + source + segment


def block(code):
    return package(b"\xa0", b"\x01" + code)


def main_method(body):
    return method(RUN, 0, body)


def named(count):
    """Names of integers, in no order."""
    return each(mixed(count), name)


def uses(count):
    return each(mixed(count))


def methods(count, body):
    return each(count, lambda it: method(it, 0, body))


# A Name that is used, a call with seven arguments, and a path as long as it can be.
LEAF_NAME, SEVEN, LONG_PATH = name(LEAF), b"AAAA" + b"\x60" * 7, b"\x5c\x2f\xff" + each(SEGMENTS)


def upward(count, depth, own=b""):
    """So many names at the root, and as many uses of them in a method of a scope of so many segments."""
    return named(count) + within(depth, main_method(own + uses(count)))


def upward_with_locals(count, depth, friends=b""):
    """Uses of a name at the root in a method that has a local name of each of 150 lengths; or of names that end as the
    used one does, with another segment before it."""
    own = b"\x2e" + friends + LEAF if friends else NEAR
    locals_ = b"".join(name(b"^" * ups + own) for ups in range(150))
    return LEAF_NAME + within(depth, main_method(locals_ + LEAF * count))


def upward_crowded(count, depth):
    """Names at the root, used in a method of a scope of so many segments, each of whose parents has another child."""
    others = lambda segments: b"".join(b"\x15" + b"^" * up + OTHER + b"\0\0" for up in range(1, segments + 1))
    return named(count) + within(depth, main_method(uses(count)), others)


def upward_turning(count, depth):
    """Uses of a name at the root in a method of so many Devices, before each of which another one has that name too."""
    before = device(LEAF_NAME, OTHER)
    return LEAF_NAME + around(depth, lambda code: device(before + code, NEAR), main_method(LEAF * count))


def regions(count, depth, value):
    """Regions in a deep scope, with a name as their offset and their length."""
    return within(depth, each(count, lambda it: b"\x5b\x80" + it + b"\0" + value * 2))


def deep_methods(count, depth):
    """Methods there, each of which calls another."""
    return within(depth, b"".join(method(segment(number), 0, segment(count - number - 1)) for number in range(count)))


def deep_owners(count, own):
    """A method in a deep scope, and Devices with a method each, in a Device of so many segments."""
    return within(DEEP, main_method(b"") + within(own, each(count, lambda it: device(main_method(b""), it))))


def alias_chain(count):
    """Aliases of which each means the one before it, and the first the first name."""
    return b"".join(alias(segment(number + 1), segment(number)) for number in range(count))


def deep_body(depth, body, beside=b""):
    """A method of this body in a scope of so many segments, and what stands beside it."""
    return within(depth, LEAF_NAME + beside + main_method(body))


def deep_root_uses(count, depth):
    """Uses of a name at the root that the method declares, which may begin as its scope does."""
    return deep_body(depth, name(b"\\NEAR") + b"\\NEAR" * count)


def field(count):
    return package(b"\x5b\x81", LEAF + b"\0" + each(count, lambda it: it + b"\x08"))


def locals_of(count):
    """A method that declares so many names, and uses each."""
    return method(b"MAIN", 0, each(mixed(count), lambda it: name(it) + b"\x70\1" + it))


def nested(levels, segments):
    path = b"\x2f" + bytes([segments]) + each(segments)
    return method(b"GLOB", 0, b"") + around(levels, lambda code: device(code, path), main_method(b"GLOB"))


def nots(count, levels):
    """Methods of so many LNots, one in the other."""
    return methods(count, b"\x92" * levels + b"\x60")


def packages(count, levels):
    """Methods of Packages of Packages."""
    return methods(count, around(levels, lambda code: package(b"\x12", b"\x01" + code), b"\0"))


def indented(count, levels):
    """A method of as many Noops in so many Ifs, each of which moves them further right."""
    return main_method(around(levels, lambda code: package(b"\xa0", b"\x60" + code), b"\xa3" * count))


def blocks(count, levels):
    return around(levels, block, named(count))


def maybe_aliases(count):
    """Aliases of a method of which one stands at most, as each is in an If, and as many calls."""
    return method(LEAF, 1, b"") + block(alias(NEAR)) * count + main_method((NEAR + b"\x01") * count)


def many_methods(count):
    return each(count, lambda name: method(name, 2, bytes.fromhex("7068607261696aa460")))


def devices(count):
    """Methods, 20 in each Device of a bus, which name one beside them and one at the root; and as many Packages."""
    bodies = (b"\x70" + segment((number + 1) % 20) + b"\x60\xa4GLOB" for number in range(20))
    inner = b"".join(method(segment(number), 0, body) for number, body in enumerate(bodies))
    inner += b"".join(name(segment(20 + number), b"\x12\x08\x04\x0a\x05\x00\x01\x0a\x06") for number in range(20))
    bus = device(each(mixed(count // 20), partial(device, inner)), b"PCI0")
    return method(b"GLOB", 0, b"\xa4\x01") + scope(b"_SB_", bus)


def buffer(size):
    return name(b"BUF_", package(b"\x11", b"\x0e" + bytes(8) + b"\xff" * (size - HEADER_BYTES - 32)))


def sparse_files(count, size):
    head = bytearray(table(b"OTHR", b""))
    head[4:8] = size.to_bytes(4, "little")
    head[9] = (head[9] - sum(head)) % 256
    files = {f"other{number}.dat": Sparse(bytes(head), size) for number in range(count - 1)}
    return {**tables(main_method(b"")), **files}


def calling(count, size, arguments, told=None):
    """AML of tables of so many methods, each of which calls one of the next table, told by an External or not."""
    for number in range(count):
        called = [segment((number + 1) % count * size + index) for index in range(size)]
        code = b"".join(b"\x15" + it + told for it in called) if told else b""
        for index, it in enumerate(called):
            code += method(segment(number * size + index), arguments, b"\xa4" + it + b"\x68\x69"[:arguments])
        yield code


ADDRESS, LED, LONG_NAME = 0x1000, ["facp.dat", "dsdt.dat"], "\x01" * 255


def led(names, width, more):
    """A root pointer, a list of entries of so many bytes each, a FADT, a DSDT and SSDTs of these names, with a map.
    The list has the FADT, each SSDT, and the last of them so many times more."""
    entries = names[2:3] + names[4:] + names[-1:] * more
    places = {it: ADDRESS * (number + 1) for number, it in enumerate(names)}
    address = {it: place.to_bytes(width, "little") for it, place in places.items()}
    pointer = root(2, 0, places[names[1]]) if width == 8 else root(0, places[names[1]], 0)
    dsdt, content = address["dsdt.dat"], b"".join(address[it] for it in entries)
    return {
        names[0]: pointer, names[1]: table(names[1][:4].upper().encode(), content),
        names[2]: table(b"FACP", bytes(104) + dsdt if width == 8 else bytes(4) + dsdt + bytes(104)),
        names[3]: table(b"DSDT", b""), **{it: table(b"SSDT", b"") for it in names[4:]},
        "tables.map": "".join(f"{places[it]:016X} {it}\n" for it in names).encode(),
    }


def both(name, count, unit, depth, make, any_run=False):
    """A shape by how many there are, so deep, and one by how deep they stand, so many."""
    yield one(name, count, unit, lambda size: make(size, depth), any_run=any_run)
    unit = "levels" if any_run else "segments"
    yield one(f"{name}-deep", depth, unit, lambda size: make(count, size), any_run=any_run)


# AML of so many, in a scope as deep as the second number says.
DEEP_TERMS = (
    ("deep-names", 2_000, "names", 10_000, named),
    ("deep-locals", 2_000, "names", 10_000, locals_of),
    ("deep-devices", 2_000, "devices", 10_000, lambda count: each(count, lambda it: device(main_method(b""), it))),
    ("deep-pairs", 1_000, "devices", DEEP, lambda count: each(count, lambda it: device(device(main_method(b"")), it))),
    ("deep-aliases", 2_000, "names", 10_000, lambda count: name(segment(0)) + alias_chain(count)),
)
# What stands in a method of a deep scope, or beside it.
DEEP_BODIES = (
    ("deep-uses", 200_000, "names", 10_000, lambda count: (b"^LEAF" * count,)),
    ("deep-units", 5_000, "units", 5_000, lambda count: (field(count),)),
    ("deep-units-outside", 2_000, "units", 10_000, lambda count: (b"", field(count))),
    # Buffers whose sizes are a name, in a package outside the methods
    ("deep-buffers", 50_000, "terms", 10_000, lambda count:
        (b"", device(name(b"PKG_", package(b"\x12", b"\0" + b"\x11\x06^LEAF" * count))))),
    # Scopes of the parent that declare nothing
    ("deep-scopes", 10_000, "terms", 5_000, lambda count: (b"", device(b"\x10\x03^\0" * count))),
)  # fmt: skip
# AML of so many, so deep: with something at the root, in front of a scope, or behind.
DEEP_SETS = (
    ("upward", 100_000, "names", 1000, upward),
    ("upward-crowded", 100_000, "names", 1000, upward_crowded),
    ("upward-local", 2_000, "names", 1000, lambda count, depth: upward(count, depth, name(b"LOCL"))),
    ("upward-locals", 5_700, "names", 5_700, upward_with_locals),
    ("upward-friends", 5_700, "names", 5_700, lambda count, depth: upward_with_locals(count, depth, FRIEND)),
    # A Device at the root behind methods of the scope, which is then no more the last that was opened
    ("deep-methods-left", 2_000, "methods", 10_000, lambda count, depth: deep_methods(count, depth) + device(named(1))),
    # Names, each behind a Scope of a Device at the root with such a name
    ("deep-returns", 2_000, "names", 10_000, lambda count, depth:
        device(b"") + within(depth, each(count, lambda it: scope(b"\\DEV0", name(it)) + name(it)))),
    ("deep-scopes-upward", 2_000, "terms", 10_000, lambda count, depth:
        device(b"") + within(depth, each(count, lambda it: scope(b"DEV0", name(it))))),
    # Aliases there of a name at the root, or of one that stands a half or a third of the way down
    *((f"deep-aliases-{where}", 2_000, "names", 10_000, lambda size, deep, cut=cut:
        within(deep // cut, LEAF_NAME + within(deep - deep // cut, each(size, alias))))
        for where, cut in (("upward", 1_000_000), ("halfway", 2), ("low", 3))),
    # Names below paths that nothing but an External's path has, each before an Alias of a name at the root
    ("deep-unsettled", 2_000, "names", 10_000, lambda count, depth:
        LEAF_NAME + each(count, lambda it: b"\x15\x5c\x2f\x03X" + it[1:] + b"YYYYZZZZ\0\0")
        + within(depth, each(count, lambda it: name(b"\x5c\x2eX" + it[1:] + b"WWWW") + alias(it)))),
    ("deep-devices-aliases", 2_000, "devices", 10_000, lambda count, depth:
        LEAF_NAME + within(depth, each(count, lambda it: device(alias(it), it)))),
    ("deep-alias", 100_000, "names", 10_000, lambda count, depth:
        within(depth, method(segment(0), 0, b"") + alias(b"\\ALIA", segment(0))) + main_method(b"ALIA" * count)),
    ("deep-methods", 2_000, "methods", 10_000, deep_methods),
    # Uses of the last of a thousand names that the method declares beside itself
    ("deep-local-uses", 20_000, "names", 10_000, lambda size, deep:
        deep_body(deep, each(999, lambda it: name(b"^" + it)) + name(b"^NEAR") + b"^NEAR" * size)),
    ("deep-root-uses", 100_000, "names", 10_000, deep_root_uses),
    *((*row, lambda count, depth, make=make: within(depth, make(count))) for *row, make in DEEP_TERMS),
    *((*row, lambda count, depth, make=make: deep_body(depth, *make(count))) for *row, make in DEEP_BODIES),
)  # fmt: skip

SHAPES = (
    one("nested", 510, "levels", lambda count: nested(count, SEGMENTS), is_square=True),
    one("nested-short", 510, "levels", lambda count: nested(count, 1), is_square=True),
    one("nested-long", 254, "segments", lambda count: nested(510, count)),
    *(shape for row in DEEP_SETS for shape in both(*row)),
    one("upward-deepest", 100_000, "names", lambda count: upward(count, DEEPEST)),
    one("upward-turning", 100_000, "names", lambda count: upward_turning(count, 500)),
    one("upward-outside", 100_000, "names", lambda count: regions(count // 2, 1000, NOTHING)),
    one("deep-owners", 10_000, "devices", lambda count: deep_owners(count, 16)),
    one("deep-owners-run", 5_000, "devices", lambda count: deep_owners(count, SEGMENTS), any_run=True),
    one("deep-outside", 2_000, "names", lambda count: regions(count // 2, 10_000, NOTHING)),
    one("locals", 1_000_000, "names", locals_of),
    one("package", 1_000_000, "names", lambda count: name(b"PKG_", package(b"\x12", b"\0" + uses(count)))),
    one("package-body", 1_000_000, "names", lambda count: main_method(package(b"\x12", b"\0" + uses(count)))),
    # A chain of Aliases of a method, and calls by the first thousand of them
    one("aliases", 1_000_000, "names", lambda count:
        method(segment(0), 1, b"") + alias_chain(count) + main_method(each(mixed(1000), lambda it: it + b"\x60"))),
    one("external", 1_000_000, "terms", lambda count:
        b"".join(b"\x15AAAA\x08" + bytes([it % 8]) for it in range(count)) + main_method(SEVEN)),
    # As many Externals, each of a path of its own, as uses of them
    one("externals", 1_000_000, "names", lambda count:
        each(count, lambda it: b"\x15" + it + b"\x08\0") + main_method(uses(count))),
    *both("blocks", 200_000, "names", 500, blocks, any_run=True),
    # Methods that are declared in both branches, and a call of each
    one("branches", 200_000, "methods", lambda count:
        block(each(mixed(count), lambda it: method(it, 1, b"")))
        + package(b"\xa1", each(mixed(count), lambda it: method(it, 1, b"")))
        + main_method(each(mixed(count), lambda it: it + b"\x01")), any_run=True),
    # Devices with a method and a name, each in an If of its own, and a call of each method
    one("devices-in-blocks", 200_000, "devices", lambda count:
        each(mixed(count), lambda it: block(device(method(NEAR, 1, b"") + LEAF_NAME, it)))
        + main_method(each(mixed(count), lambda it: b"\\\x2e" + it + NEAR + b"\x01")), any_run=True),
    # Uses of a name at the root in a method of a scope of so many segments, in each of which it may stand too
    *both("maybes", 100_000, "names", 500, lambda count, depth:
        LEAF_NAME
        + around(depth, lambda code: device(block(LEAF_NAME) + code, NEAR), main_method(LEAF * count)), any_run=True),
    # Such uses, where no name stands and an External names each of the paths
    *both("maybe-externals", 100_000, "names", 500, lambda count, depth:
        around(depth, lambda code: device(b"\x15" + LEAF + b"\x08\0" + code, NEAR), main_method(LEAF * count))),
    # Aliases of so many methods of which each stands at most, and as many calls
    one("maybe-aliases-apart", 8_000, "Aliases", lambda count:
        each(mixed(count), lambda it: method(it, 1, b"") + block(alias(NEAR, it)))
        + main_method((NEAR + b"\x01") * count), any_run=True, is_square=True),
    one("maybe-aliases", 12_000, "Aliases", maybe_aliases, any_run=True, is_square=True),
    one("maybe-aliases-deep", 1_000, "Aliases", lambda count:
        within(10_000, maybe_aliases(count)), any_run=True, is_square=True),
    one("names-outside", 8_000, "names", lambda count: LEAF_NAME + within(DEEPEST, LEAF * count), any_run=True),
    # Regions in a deep scope, whose offset and length are a name at the root
    one("regions-outside", 1_000, "regions", lambda count: LEAF_NAME + regions(count, DEEPEST, LEAF), any_run=True),
    one("terms-outside", 1_000_000, "names", lambda count:
        LEAF_NAME + within(2 * SEGMENTS, LEAF * count), any_run=True),
    # A Field in a deep scope, whose connections are Buffers of a size that is a name which nothing declares
    one("connections-outside", 100_000, "names", lambda count:
        within(9 * SEGMENTS, package(b"\x5b\x81", NEAR + b"\1" + (b"\2\x11\5" + LEAF) * count))),
    Shape("again", 2_000_000, "names", lambda count: tables(*[LEAF_NAME * (count // 2)] * 2), any_run=True),
    # As many uses of names as lines that give them counts, and many lines for one name
    Shape("given", 1_000_000, "lines", given=True, make=lambda count:
        {**tables(main_method(uses(count))), GIVEN: each(mixed(count), lambda it: b"\\%s 0\n" % it)}),
    Shape("given-again", 2_000_000, "lines", given=True, make=lambda size:
        {**tables(main_method(SEVEN)), GIVEN: b"".join(b"\\AAAA %d\n" % (number % 8) for number in range(size))}),
    one("long-names", MOST_AML, "bytes", lambda size:
        name(LONG_PATH) + main_method(LONG_PATH * ((size - 2 * len(LONG_PATH) - 64) // len(LONG_PATH)))),
    one("carets", MOST_AML, "bytes", lambda size: main_method(b"\x71" + b"^" * (size - 64) + b"AAAA")),
    one("nots", 32_000, "methods", lambda count: nots(count, 500)),
    one("nots-deep", 508, "levels", lambda count: nots(32_000, count)),
    one("packages-deep", 508, "levels", lambda count: packages(4_000, count)),
    one("indented", 200_000, "terms", lambda count: indented(count, 508)),
    one("indented-deep", 508, "levels", lambda count: indented(200_000, count)),
    one("tiny", 1_048_576, "methods", lambda count: methods(count, b"")),
    one("raw", 1_048_576, "methods", lambda count: methods(count, NOTHING)),
    one("raw-body", MOST_BYTES, "bytes", lambda size: main_method(NOTHING + b"\xff" * (size - 68))),
    one("buffer", MOST_BYTES, "bytes", buffer),
    one("text", MOST_BYTES, "bytes", lambda size: name(b"TXT_", b"\x0d" + b"\xff" * (size - 44) + b"\0")),
    one("scopes", 4_000_000, "terms", lambda count: b"\x10\x03\x5c\0" * count),
    one("dense", MOST_AML, "bytes", lambda size: main_method(DENSE * ((size - 64) // len(DENSE)))),
    Shape("files", 512, "files", lambda count: sparse_files(count, 1 << 20)),
    Shape("files-large", 512, "files", lambda count: sparse_files(count, MOST_BYTES), large=True),
    Shape("tables", 512, "files", lambda count: tables(*calling(count, 500, 1))),
    Shape("madt", MOST_BYTES, "bytes", lambda size:
        {**tables(b""), "apic.dat": table(b"APIC", bytes(8) + b"\xff\x02" * ((size - 44) // 2))}),
    # Five hundred SSDTs with addresses, and an XSDT that lists so many, the last of them again and again
    Shape("listed", 2_000_000, "entries", lambda count:
        led(["rsdp.dat", "xsdt.dat", *LED, *(f"ssdt{number}.dat" for number in range(500))], 8, count - 501)),
    # An RSDT that lists a file again and again, each byte of whose long name is four in the text
    Shape("named-entries", 262_144, "entries", lambda it: led(["rsdp.dat", "rsdt.dat", *LED, LONG_NAME], 4, it - 2)),
)  # fmt: skip
