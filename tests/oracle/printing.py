"""The text of terms, namespaces and definition blocks after docs/listing.md, line by line."""

from namespaces import path_text
from reading import METHOD, Name, Named, Op

CONSTANTS = {0x0A, 0x0B, 0x0C, 0x0D, 0x0E}
UNIT_WORDS = {"access": "Access", "extended": "ExtendedAccess"}


def quoted(text):
    plain = (chr(byte) if 0x20 <= byte <= 0x7E and byte not in b'"\\' else f"\\x{byte:02X}" for byte in text)
    return '"' + "".join(plain) + '"'


def file_text(name):
    return quoted(name.encode())


def listed(texts):
    return f"{{{', '.join(texts)}}}"


def hexadecimal(data):
    return (f"{byte:02X}" for byte in data)


def inline(part):
    if part is None:
        return ""
    if isinstance(part, Name):
        return str(part)
    if isinstance(part, bytes):
        return quoted(part)
    if isinstance(part, Named):
        return str(part.name) + (f" ({', '.join(map(inline, part.args))})" if part.args else "")
    if isinstance(part, tuple):
        return f"0x{part[1]:0{2 * part[0]}X}"
    if part.opcode in CONSTANTS:
        return inline(part.parts[0])
    if part.row.tail == "y":
        return f"{head(part)} {listed(hexadecimal(part.tail))}"
    if part.row.tail == "e":
        return f"{head(part)} {listed(map(inline, part.tail))}"
    return head(part)


def head(term):
    return term.row.mnemonic + (f" ({', '.join(map(inline, term.parts))})" if term.row.parts else "")


def unit_text(unit):
    kind, *rest = unit
    if kind == "unit":
        return f"{rest[0]}, {rest[1]}"
    if kind == "reserved":
        return f"Reserved, {rest[0]}"
    if kind == "connection":
        return f"Connection ({inline(rest[0])})"
    return f"{UNIT_WORDS[kind]} ({', '.join(f'0x{byte:02X}' for byte in rest)})"


def term_lines(term, body_of, level):
    """The lines of a term. `body_of` says what a Method's body is."""
    indent = "  " * level
    if not isinstance(term, Op) or term.row.tail in ("", "y", "e"):
        yield indent + inline(term)
        return
    if term.opcode == METHOD:
        flags, body = term.parts[1][1], body_of(term)
        serialized = "Serialized" if flags & 8 else "NotSerialized"
        yield f"{indent}Method ({term.parts[0]}, {flags & 7}, {serialized}, {flags >> 4}) {{"
        # The bytes of a body stand where it has no terms.
        inside = [f"Raw {listed(hexadecimal(body.code))}"] if body.terms is None else body.terms
    else:
        yield f"{indent}{head(term)} {{"
        inside = map(unit_text, term.tail) if term.row.tail == "f" else term.tail
    for inner in inside:
        yield from [f"{indent}  {inner}"] if isinstance(inner, str) else term_lines(inner, body_of, level + 1)
    yield indent + "}"


def row_text(path, kind, marks=()):
    """A path of the namespace with its kind, of which an Alias' target is the last part that is listed, and with the
    marks of one that only may stand or is declared several times."""
    word, *more = kind[:2]
    texts = (path_text(one) if isinstance(one, tuple) else str(one) for one in more)
    return " ".join([path_text(path), word, *texts, *marks])


def namespace_lines(space):
    rows = space.rows()
    yield f"Namespace {len(rows)}"
    yield from (f"  {row_text(*row)}" for row in rows)


def block_lines(names, loaded, bodies):
    by_place = {(body.method.table, body.method.start): body for body in bodies}
    for table, (name, terms) in enumerate(zip(names, loaded.trees)):
        yield f"DefinitionBlock ({file_text(name)}) {{"
        for term in terms:
            yield from term_lines(term, lambda method, table=table: by_place[table, method.tail[0]], 1)
        yield "}"
