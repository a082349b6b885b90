"""Writes the lines of definition blocks: each is an element with its number as `id`, whose text is the line, but for
elements of the classes `note` and `say`. What a line means is said behind it, and in rows below it."""

from __future__ import annotations

import re
from collections.abc import Iterator
from html import escape

from acpidis_tools.errors import Fault, name_at
from acpidis_tools.listing import Line, path_text
from acpidis_tools.names import Meaning, Sort, is_name
from acpidis_tools.page.sheet import BETWEEN, DEEPEST_FOLD, Sheet, classed, packed
from acpidis_tools.standard import counted

# A block of so many lines isn't laid out before it is seen. Its height is known beforehand by its lines.
LONG_BLOCK = 12
# So many lines are packed together.
CHUNK = 300
NUMBERS = ("Zero", "One", "Ones")
PLAIN = re.compile("Local[0-7]|Arg[0-6]|(Not)?Serialized")
# The bytes of a buffer of more than eight.
BYTES = re.compile(r"\{[0-9A-F]{2}(?:, [0-9A-F]{2}){8,}\}")


class BlockWriter:
    """Writes the lines of the definition blocks, the blocks inside these as elements that fold."""

    def __init__(self, sheet: Sheet):
        self.sheet = sheet
        self.nexts = dict(self.next_notes())
        self.uses: list[str] = []
        self.changed = sheet.comparison.lines if sheet.comparison else set()

    def write(self) -> Iterator[str]:
        """The blocks, and the uses of what they declare, in the order of the text; in a packed page each chunk has
        those of its lines, and these are the others."""
        for block in self.sheet.listing.blocks:
            lines = [line for line in block.lines if self.sheet.shows(line.number)]
            if lines:
                yield f'<section class=block data-file="{escape(block.file[1:-1])}">\n'
                yield from self.packed(lines) if self.sheet.is_packed else self.folded(lines, DEEPEST_FOLD)
                yield "</section>\n"
                if not self.sheet.is_packed:
                    self.uses += (html for line in lines for html in self.line_uses_html(line))
        if self.uses or self.sheet.is_packed:
            state = " hidden" if self.sheet.is_packed else ""
            yield f"<section id=uses{state} style=--n:{len(self.uses)}><h2>Uses</h2>\n"
            yield from (*self.uses, "</section>\n")

    def folded(self, lines: list[Line], deepest: int) -> Iterator[str]:
        folds: list[int] = []
        for line in lines:
            if folds_here(line) and len(folds) < deepest and line.end <= lines[-1].number:
                folds.append(line.end)
                yield self.head(line)
            else:
                yield self.line(line)
            if folds and folds[-1] == line.number:
                folds.pop()
                yield "</details>\n"

    def head(self, line: Line) -> str:
        text, mark = self.content(line)
        count = line.end - line.number + 1
        fold = f"<details open style=--d:{line.depth + 1}{f';--n:{count}' * (count >= LONG_BLOCK)}>"
        return f"{fold}<summary id={line.number}{classed(mark)}>{text}</summary>\n"

    def line(self, line: Line) -> str:
        text, mark = self.content(line)
        return f"<p id={line.number}{classed(mark)}>{text}</p>\n"

    def packed(self, lines: list[Line]) -> Iterator[str]:
        """The lines in chunks, and between these what folds more lines than a chunk has."""
        folds: list[int] = []
        chunk: list[Line] = []
        kept_to = 0

        def flushed() -> Iterator[str]:
            if chunk:
                yield self.chunk(chunk, DEEPEST_FOLD - len(folds))
                chunk.clear()

        for line in lines:
            is_free, size = line.number > kept_to, line.end - line.number if folds_here(line) else 0
            if is_free and folds and line.number == folds[-1]:
                yield from flushed()
                folds.pop()
                yield self.line(line) + "</details>\n"
            elif is_free and size >= CHUNK and len(folds) < DEEPEST_FOLD // 2:
                yield from flushed()
                folds.append(line.end)
                yield self.head(line)
                self.uses += self.line_uses_html(line)
            else:
                kept_to = line.end if is_free and 0 < size < CHUNK else kept_to
                chunk.append(line)
                if len(chunk) >= CHUNK and line.number >= kept_to:
                    yield from flushed()
        yield from flushed()

    def chunk(self, lines: list[Line], deepest: int) -> str:
        """Some lines as plain text, which can be found and printed, and what they become when they are seen."""
        uses = [html for line in lines for html in self.line_uses_html(line)]
        html = packed("".join(self.folded(lines, deepest)) + BETWEEN + "".join(uses))
        texts = [text for line in lines for text in self.texts(line)]
        first, count = lines[0].number, lines[-1].number - lines[0].number + 1
        head = f'<pre class=chunk style=--n:{len(texts)} data-line={first} data-count={count} data-packed="{html}">'
        return head + escape("\n".join(texts)) + "</pre>\n"

    def texts(self, line: Line) -> list[str]:
        """A line as plain text, with what its numbers and bytes mean behind and below it."""
        notes, rows = self.said_of(line)
        return ["   ".join([line.text, *notes]), *("  " * (line.depth + 2) + row for row in rows)]

    def content(self, line: Line) -> tuple[str, str]:
        """A line's text with its notes, and how its path differs from another listing's."""
        if line.term == "Raw" and line.method:
            return self.raw_html(line, self.sheet.faults.get(line.number)), "raw"
        notes, rows = self.said_of(line)
        text, mark = self.line_html(line, bool(rows) and not line.end), ""
        for meaning in self.sheet.names.meanings[line.number]:
            if meaning.sort in (Sort.DECLARES, Sort.LOCAL):
                uses = self.sheet.names.uses.get(meaning.anchor)
                if uses:
                    text += f"<a class=note href=#u{line.number}>{counted(sum(map(len, uses.values())), 'use')}</a>"
                if meaning.sort is Sort.DECLARES:
                    mark = self.sheet.mark(meaning.path)
        if mark == "changed":
            text += f"<a class=note href=#c{line.number}>changed</a>"
        elif line.number in self.changed:
            mark = "differs"
        said = [f"<small class=say>{escape(note)}</small>" for note in notes]
        said += [f'<small class="say row">{escape(row)}</small>' for row in rows]
        return "".join([text, self.nexts.get(line.number, ""), *said]), mark

    def name_html(self, word: str, meaning: Meaning) -> str:
        if meaning.sort is Sort.LEADS:
            if not self.sheet.has_anchor(meaning):
                return f'<span class=out title="{path_text(meaning.path)}, not on this page">{word}</span>'
            # What it may mean too, in another run
            others = " or ".join(path_text(other.path) for other in meaning.others if other.path is not None)
            title = f' title="or {others}"' if others else ""
            return f"<a href=#{meaning.anchor}{title}>{word}</a>"
        if meaning.sort is Sort.DECLARES:
            return f"<dfn id={meaning.anchor}>{word}</dfn>"
        if meaning.sort is Sort.AGAIN:
            return f"<dfn class=again title={meaning.anchor}>{word}</dfn>"
        if meaning.sort is Sort.LOCAL:
            path = f" title={path_text(meaning.path)}" if meaning.path else ""
            return f"<dfn{path}>{word}</dfn>"
        return f'<u title="nothing declares it">{word}</u>'

    def line_html(self, line: Line, is_decoded: bool) -> str:
        """A line. Bytes whose meaning stands below it are shown when they are clicked on."""
        pieces = line.pieces.copy()
        if is_decoded:
            pieces[::2] = [BYTES.sub(r"<span class=bytes tabindex=0>\g<0></span>", piece) for piece in pieces[::2]]
        next_meaning = iter(self.sheet.names.meanings[line.number])
        for place in range(1, len(pieces), 2):
            word = pieces[place]
            if word[0] == '"':
                pieces[place] = f"<q>{escape(word)}</q>"
            elif word[0] == "0" or word in NUMBERS:
                pieces[place] = f"<i>{word}</i>"
            elif is_name(word):
                pieces[place] = self.name_html(word, next(next_meaning))
            elif not PLAIN.fullmatch(word):
                pieces[place] = f"<b>{word}</b>"
        return "  " * line.depth + "".join(pieces)

    def raw_html(self, line: Line, fault: Fault | None) -> str:
        """The bytes of a raw body, the one that the fault is about marked, and the fault."""
        shown, said = line.pieces[2], "raw"
        if fault:
            said = f"raw: {fault}"
            at = 2 + 4 * (fault.at if fault.at is not None else len(line.code))
            if at < len(shown) - 1:
                shown = f"{shown[:at]}<mark>{shown[at:at + 2]}</mark>{shown[at + 2:]}"
                name = name_at(fault, line.code)
                said += f", {name}" if name else ""
        return f"{'  ' * line.depth}<b>Raw</b>{shown}<em class=note>{said}</em>"

    def said_of(self, line: Line) -> tuple[list[str], list[str]]:
        """What is said behind a line, and in rows below it."""
        templates = [template.texts() or ["no resources"] for template in self.sheet.decoder.templates(line)]
        rows = [text for texts in (*templates, self.sheet.decoder.rows(line)) for text in texts]
        return self.sheet.decoder.notes(line), rows

    def next_notes(self) -> Iterator[tuple[int, str]]:
        """For each declaration of a path that has several, by its line's number, the link to the next one."""
        for lines in self.sheet.names.declarations.values():
            if len(lines) > 1:
                for place, line in enumerate(lines, 1):
                    behind = lines[place % len(lines)].number
                    tag, to = ("a", f" href=#{behind}") if self.sheet.shows(behind) else ("span", "")
                    yield line.number, f"<{tag} class=note{to}>{place:,} of {len(lines):,}</{tag}>"

    def line_uses_html(self, line: Line) -> Iterator[str]:
        """For each declaration of a line that is used, where it is."""
        for meaning in self.sheet.names.meanings[line.number]:
            uses = self.sheet.names.uses.get(meaning.anchor)
            if uses and meaning.sort in (Sort.DECLARES, Sort.LOCAL) and meaning.path is not None:
                head = f"<a href=#{meaning.anchor}>{path_text(meaning.path)}</a>"
                yield f"<div id=u{line.number}>{head}{self.sheet.uses_html(uses)}</div>\n"


def folds_here(line: Line) -> bool:
    """Whether the block of a line folds: a single line does in a method alone, since each fold costs the browser."""
    return line.end > line.number + 2 or bool(line.end) and line.term == "Method"
