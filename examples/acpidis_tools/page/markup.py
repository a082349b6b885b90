"""Writes a listing as one HTML page: the tree and the search, the tables, the definition blocks, uses and comparison.

The anchor of a path is the path itself, and that of a line its number.
"""

import base64
import hashlib
import pathlib
import re
from html import escape
from string import Template

from acpidis_tools.comparison import Marked, differences
from acpidis_tools.errors import raw_lines
from acpidis_tools.listing import HEADER, TEXT, Dump, Listing, path_text
from acpidis_tools.names import PREDEFINED
from acpidis_tools.page.lines import BlockWriter
from acpidis_tools.page.sheet import Sheet, classed, link, packed
from acpidis_tools.page.tree import TreeWriter
from acpidis_tools.standard import counted

# Longer lists of a comparison are folded.
MOST_OPEN = 20
ADDRESS_OF_ENTRY = re.compile(rf"(  Entry [0-9A-F]+) ({TEXT})")
HEADS = ("", "File", "Table", "Length", "Revision", "OEM", "Creator", "")


def folded_list(head: str, items: list[str], is_open: bool = False) -> list[str]:
    return [f"<details{' open' * is_open}><summary>{head}</summary><ul>\n", *items, "</ul></details>"]


def raw_list_html(sheet: Sheet) -> list[str]:
    raw = [line for line in raw_lines(sheet.listing) if sheet.shows(line.number)]
    if not raw:
        return []
    name = lambda line: f"<a href=#{line.number}>{path_text(line.method)}</a>"
    items = [f"<li>{name(line)} {sheet.faults.get(line.number, '')}</li>\n" for line in raw]
    head = "1 body is raw" if len(raw) == 1 else f"{len(raw):,} bodies are raw"
    return ["<section id=raw>", *folded_list(head, items), "</section>\n"]


def undeclared_html(sheet: Sheet) -> list[str]:
    """The predefined names that are used, and the names that nothing declares."""
    names, uses_html = sheet.names, sheet.uses_html
    kinds = {path_text(path): kind for path, kind in PREDEFINED.items() if path not in names.lines}
    predefined = [f"<div><dfn id={it}>{it}</dfn> {kinds[it]}{uses_html(names.uses[it])}</div>\n" for it in kinds]
    strays = [
        f"<div><u>{word}</u>{uses_html(uses)}</div>\n" for word, uses in sorted(names.strays.items())
        if sheet.shown is None or any(sheet.shows(number) for numbers in uses.values() for number in numbers)
    ]
    end = "</section>\n"
    written = ["<section id=predefined><h2>Predefined names</h2>\n", *predefined, end]
    return written + ["<section id=strays><h2>Names that nothing declares</h2>\n", *strays, end] if strays else written


def dump_cells(dump: Dump) -> list[str]:
    form = HEADER.fullmatch(dump.text)
    if not form:
        return [dump.text]
    revision = form["before"] or form["behind"]
    texts = [form["length"], revision, form["oems"], form["creators"] or form["leads"], form["rest"].strip()]
    return [dump.file[1:-1], form["signature"] or "RSD PTR ", *(text or "" for text in texts)]


def tables_html(sheet: Sheet) -> list[str]:
    """The dumps as rows of a table, each with the lines below its own in another one."""
    files = {dump.file: dump.number for dump in sheet.listing.dumps}
    blocks = {block.file: block.lines[0].number for block in sheet.listing.blocks if sheet.shows(block.lines[0].number)}
    different = sheet.comparison.lines if sheet.comparison else set()
    mark = lambda number: classed("differs" if number in different else "")

    def note(number: int, text: str) -> str:
        form, shown = ADDRESS_OF_ENTRY.fullmatch(text), escape(text)
        if form and form[2] in files:
            shown = f"{escape(form[1])} <a href=#{files[form[2]]}>{escape(form[2])}</a>"
        return f"<p id={number}{mark(number)}>{shown}</p>"

    def rows(dump: Dump) -> str:
        cells = [escape(cell) for cell in dump_cells(dump)]
        if dump.file in blocks:
            cells[0] = f"<a href=#{blocks[dump.file]}>{cells[0]}</a>"
        columns = "".join(f"<td>{cell}</td>" for cell in cells)
        html = f"<tr id={dump.number}{mark(dump.number)}><th>{dump.number}</th>{columns}</tr>\n"
        if dump.notes:
            is_open = " open" if any(number in different for number, _ in dump.notes) else ""
            head = f"<details{is_open}><summary>{counted(len(dump.notes), 'line')}</summary>"
            notes = "".join(note(number, text) for number, text in dump.notes)
            html += f"<tr class=more><td></td><td colspan=7>{head}{notes}</details></td></tr>\n"
        return html

    heads = "".join(f"<th>{head}</th>" for head in HEADS)
    head = f"<section id=tables><h2>Tables</h2>\n<div class=wide><table>\n<tr>{heads}</tr>\n"
    return [head, *map(rows, sheet.listing.dumps), "</table></div>\n</section>\n"]


def marked_html(lines: Marked) -> str:
    """Lines of two listings: those that one alone has get `-` or `+` from the page's style."""
    shown = (f"<{mark}>{escape(line)}</{mark}>" if mark else escape(line) for mark, line in lines)
    return "<pre>" + "\n".join(shown) + "</pre>"


def table_changes_html(sheet: Sheet) -> list[str]:
    """The tables with the lines that differ."""
    tables = sheet.comparison.tables if sheet.comparison else {}
    if not tables:
        return []
    numbers = {dump.file: dump.number for dump in sheet.listing.dumps}
    items = []
    for file, lines in tables.items():
        name = escape(file[1:-1])
        head = f"<a href=#{numbers[file]}>{name}</a>" if file in numbers else f"{name}, here not"
        shown = " isn't there" if lines is None else marked_html(lines) if lines else " has its lines in another order"
        items.append(f"<li class=changed>{head}{shown}</li>\n")
    return [*folded_list(f"{counted(len(items), 'table')} that it has otherwise", items, True), "\n"]


def comparison_html(sheet: Sheet) -> list[str]:
    found = sheet.comparison
    if not found:
        return []
    links = {path: link(path) if sheet.has_path(path) else path_text(path) for path in (*found.lacks, *found.changes)}
    lacks = [f"<li class=lacking>{links[path]}</li>\n" for path in sorted(found.lacks)]
    adds, changes = [], []
    for path, text in found.adds.items():
        # It may be predefined here, or an External's, and then has its anchor.
        anchor = "" if path in PREDEFINED or path in sheet.names.externals else f" id={path_text(path)}"
        head, shown = f"<details{anchor}><summary>{path_text(path)}</summary>", escape("\n".join(text))
        adds.append(f"<li class=added>{head}<pre>{shown}</pre></details></li>\n")
    for path, text in found.changes.items():
        head = f"<details id=c{sheet.names.lines[path].number}><summary>{links[path]}</summary>"
        shown = marked_html(differences(found.here[path], text))
        changes.append(f"<li class=changed>{head}{shown}</details></li>\n")
    written = [f"<section id=comparison><h2>Beside {escape(found.other)}</h2>\n", *table_changes_html(sheet)]
    ours, theirs = escape(sheet.name), escape(found.other)
    kinds = [f"{theirs} alone has", f"{ours} alone has", f"{theirs} has otherwise than {ours}"]
    for word, items in zip(kinds, (adds, lacks, changes)):
        written += [*folded_list(f"{counted(len(items), 'path')} that {word}", items, len(items) <= MOST_OPEN), "\n"]
    if found.outside:
        head = f"The texts differ in {counted(len(found.outside), 'more line')} outside declarations"
        written += folded_list(head, [f"<li class=changed>{marked_html(found.outside[:MOST_OPEN])}</li>\n"], True)
    elif not (adds or lacks or changes or found.tables):
        written += ["<p>No line differs</p>\n"]
    return [*written, "</section>\n"]


def title_of(listing: Listing) -> str:
    """The OEM's names for the machine, from its DSDT, without what fills them."""
    dsdt = next((dump for dump in listing.dumps if dump.signature == '"DSDT"'), None)
    texts = re.findall(TEXT, dsdt.text)[2:4] if dsdt else []
    return " ".join(filter(None, (text[1:-1].replace("\\x00", "").strip() for text in texts)))


def page(sheet: Sheet) -> str:
    files = (pathlib.Path(__file__).with_name(f"page.{kind}") for kind in ("html", "css", "js"))
    html, style, script = (file.read_text() for file in files)
    tree, oem, listing = TreeWriter(sheet), title_of(sheet.listing), sheet.listing
    counts = {"line": listing.line_count, "table": len(listing.dumps), "path": len(listing.rows)}
    facts = ", ".join(counted(count, word) for word, count in counts.items())
    button = "<button type=button value={0}>{0} <small>{1:,}</small></button>"
    parts = (*comparison_html(sheet), *raw_list_html(sheet), *tables_html(sheet), *BlockWriter(sheet).write())
    return Template(html).substitute(
        digest=base64.b64encode(hashlib.sha256(script.encode()).digest()).decode(), style=style, script=script,
        title=escape(": ".join(filter(None, (sheet.name, oem))) or "ACPI tables"),
        heading=escape(sheet.name or oem or "ACPI tables"),
        oem=f"<p class=oem>{escape(oem)}</p>" if oem and sheet.name else "",
        facts="a part of " * (sheet.shown is not None) + facts,
        kinds=" ".join(button.format(*it) for it in tree.counts.most_common()),
        tree="".join(tree.write()),
        parts="".join((*parts, *undeclared_html(sheet))),
        # What is looked through by the search
        index=packed("\n".join(tree.index())),
    )
