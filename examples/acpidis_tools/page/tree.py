"""Writes the namespace as a tree, and what its paths are found by."""

from collections import Counter, defaultdict, namedtuple
from collections.abc import Iterable
from html import escape

from acpidis_tools.errors import raw_lines
from acpidis_tools.listing import Path, path_of, path_text
from acpidis_tools.names import PREDEFINED
from acpidis_tools.page.sheet import DEEPEST_FOLD, Sheet, classed, link, packed
from acpidis_tools.standard import DEVICE_NAMES

# What has so many paths below it is packed.
MANY = 60
# A path in the tree: its kind, nothing where it isn't declared, its marks, how many declared ones are below it
Node = namedtuple("Node", "kind marks is_maybe below", defaults=["", "", False, 0])


class TreeWriter:
    """`nodes` are the declared paths and those on the way to them, in order, `identifiers` those of devices."""

    def __init__(self, sheet: Sheet):
        self.sheet = sheet
        rows = [row for row in sheet.listing.rows if sheet.has_path(row.path)]
        self.counts = Counter(row.kind.split()[0] for row in rows)
        nodes = {row.path: Node(row.kind, row.marks, row.is_maybe) for row in rows}
        nodes |= {path: Node("added") for path in (sheet.comparison.adds if sheet.comparison else ())}
        below = Counter(path[:length] for path in nodes for length in range(1, len(path)))
        paths = sorted(nodes.keys() | below.keys())
        self.nodes = {path: nodes.get(path, Node())._replace(below=below[path]) for path in paths}
        self.raw = {line.method for line in raw_lines(sheet.listing)}
        self.identifiers: dict[Path, list[str]] = defaultdict(list)
        for line in sheet.listing.lines:
            self.identifiers[line.scope[:-1] if line.method else line.scope] += sheet.decoder.identifiers(line)

    def write(self) -> list[str]:
        """The tree. In a packed page the parts that begin closed are packed, but for small ones."""
        parts: list[list[str]] = [[]]
        opened: list[tuple[Path, bool]] = []
        for path, node in (*self.nodes.items(), ((), None)):
            while opened and path[:len(opened[-1][0])] != opened[-1][0]:
                if opened.pop()[1]:
                    inner = packed("".join(parts.pop()))  # unpacked when what it is in is opened
                    parts[-1].append(f'<div class=branch data-packed="{inner}"></div>\n')
                parts[-1].append("</details>\n")
            if node is None:
                break
            dimmed = classed("maybe" * node.is_maybe)
            if not node.below or len(opened) >= DEEPEST_FOLD:
                parts[-1].append(f"<p{dimmed}>{self.node_html(path, node)}</p>\n")
                continue
            is_packed = self.sheet.is_packed and node.below >= MANY and len(path) > 1
            state = " open" if len(path) == 1 else ""
            parts[-1].append(f"<details{state}><summary{dimmed}>{self.node_html(path, node)}</summary>\n")
            opened.append((path, is_packed))
            if is_packed:
                parts.append([])
        return parts[0]

    def node_html(self, path: Path, node: Node) -> str:
        mark = self.sheet.mark(path) or ("raw" if path in self.raw else "")
        # A kind, and what an Alias stands for as a link
        word, _, target = node.kind.partition(" \\")
        aim = path_of(f"\\{target}")
        shown = f"{word} {link(aim)}" if target and self.sheet.has_path(aim) else node.kind
        kind = f" {shown}" if node.kind else ""
        marks = f" <small>{node.marks}</small>" if node.marks else ""
        below = f" <small>{node.below:,}</small>" if node.below else ""
        ids = " ".join(dict.fromkeys(self.identifiers.get(path, ())))
        named = f" <small class=id>{escape(ids)}</small>" if ids else ""
        is_linked = self.is_linked(path, node)
        tag, of = ("a", f"{classed(mark)} href=#{path_text(path)}") if is_linked else ("span", f" id={path_text(path)}")
        return f"<{tag}{of}>{path[-1]}</{tag}>{kind}{marks}{below}{named}"

    def is_linked(self, path: Path, node: Node) -> bool:
        external = None if path in self.sheet.names.lines else self.sheet.names.externals.get(path)
        return bool(node.kind) or path in PREDEFINED or external is not None and self.sheet.shows(external.number)

    def index(self) -> Iterable[str]:
        """For each path that the search finds its path, its kind, the line of its declaration, and its identifiers."""
        for path, node in self.nodes.items():
            if self.is_linked(path, node):
                line = self.sheet.names.lines.get(path) or self.sheet.names.externals.get(path)
                ids = dict.fromkeys(self.identifiers.get(path, ()))
                words = [*ids, *(DEVICE_NAMES.get(text, "") for text in ids)]
                number = line.number if line and self.sheet.shows(line.number) else 0
                yield "\t".join([path_text(path), node.kind, str(number), " ".join(filter(None, words))])
