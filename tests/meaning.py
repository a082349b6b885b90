#!/usr/bin/env python3
"""Prints docs/meaning.md: what an Ok means, on one page that is read from top to bottom.

    python3 tests/meaning.py [--write]

The page has the definitions that `Means` and `Shows` of crates/acpidis/specs/Meaning.antt are made of, as they stand
in the specs, each before what it is made of, and each type of the sources behind the definition that names it first.
Definitions that share a comment stay together, in the order of their file. One that goes form by form through a type
that holds itself (`node_step` of `Node-F`) is a table, which has the forms of the type too. What only --any-run adds
stands apart, cut off at the names that tests/meaning.txt has for it, and so does what a run prints. The head of the
page is tests/meaning_words.md: its last table has just those words of the kit's library that definitions name, its
other words stand on the page, and what it quotes in the sources. Without --write docs/meaning.md is compared."""

import itertools
import re

from tally import TOP, Tally, asked, first_difference, tables_in

PAGE = TOP / "docs/meaning.md"
HEAD = TOP / "tests/meaning_words.md"
# The parts of the page, as that text says
*PARTS, ADDED, PRINTED, (FAULTS, FAULT_TYPES) = (tuple(line.split(" | ")) for line in tables_in("meaning.txt")[0])
FAULT_TYPES = FAULT_TYPES.split()
# A line `use`: a module with another name, or names of it
USE = re.compile(r"^use ([^\s{]+?)(?: as (\S+)|\.\{(.*)\})\n", re.M)
LINES_A_MINUTE = 22
ROWS_A_MINUTE = 40
# So many lines of a definition, or more, that begin or end with ∷ are rows of a table.
LEAST_ROWS = 3
WORD = re.compile(r"(?<![\w.\-])(?:([A-Za-z]\w*)\.)?([^\W\d][\w\-×]*)(?![\w\-]*\s=\s)")
MARKS = re.compile(r"(?<!\S)(?:abbrev|unfoldable|pub) ")
SIGN = re.compile(r"(?<=\s)[^\w\s(){}\[\],.;:\"→λ×∀=|¬⊥_]+(?=\s|\)|$)|(?<=\s)(?:==|\|\|)(?=\s)|\[\]|\bif\b")
# A line of a definition that goes through the forms of a type, and a form of the type with what is said of it
STEP = re.compile(r"\w+ \(?(\w+)-F\.(\w+)[\w ]*\)? = (.*)")
FORM = re.compile(r"((?:^    ///.*\n)*)^    ([A-Z]\w*)(?:( \{)\n((?:^        .*\n)*)^    \}|(.*)),$", re.MULTILINE)
TYPE = re.compile(r"((?:^ *///.*\n|^#\[.*\n)*)^pub(?:\(crate\))? (?:struct|enum) (\w+)[^;{]*(?:\{\n(?:.*\n)*?\}|.*;)$", re.MULTILINE)


class File:
    """A file of specs: its definitions, and what its `use` lines bring."""

    def __init__(self, path):
        self.crate, self.name = path.parts[-3], path.stem
        self.imports, self.aliases, self.definitions, self.groups = {}, {}, [], 0
        for module, alias, words in USE.findall(path.read_text()):
            pairs = [word.partition(" as ") for word in words.split(", ") if word]
            self.imports |= {other or name: (module, name) for name, _, other in pairs}
            self.aliases |= {alias: module} if alias else {}
        lines = USE.sub("", path.read_text()).split("\n")
        first = next(number for number, line in enumerate(lines) if not line.startswith("--"))
        self.add(lines[first:], [], (self, tuple(lines[:first])))

    def add(self, lines, around, section):
        for block in paragraphs(lines, 2 if around else 0):
            code = code_of(block)
            if not code:
                section = (self, tuple(block))
            elif code[0].startswith("module _"):
                self.add(block[block.index(code[0]) + 1 :], [code[0], ""], section)
            else:
                last = self.definitions[-1].section if self.definitions else None
                self.groups += code != block or section != last
                self.definitions.append(Definition(self, section, block, around))


class Definition:
    """A paragraph of a file of specs, which may define several names. Its comment makes it one of a group."""

    def __init__(self, file, section, lines, around):
        self.file, self.section, self.lines, self.around, self.code = file, section, lines, around, code_of(lines)
        self.group = (file, file.groups)
        self.names, self.forms = names_in(self.code)
        self.uses, self.types, self.kit, self.renamed = [], [], [], []
        rows = [line for line in self.code if re.match(r"\s+∷ ", line) or line.endswith(" ∷")]
        self.steps = [step for step in map(STEP.fullmatch, self.code[1:]) if step]
        self.rows = len(self.steps) or (len(rows) if len(rows) >= LEAST_ROWS else 0)
        self.other_lines = 0 if self.steps else len(self.code) - self.rows


class Type:
    """A struct or an enum of the sources with its texts, and what definitions see in its place."""

    def __init__(self, path, match, text):
        self.crate, self.name, self.uses = path.relative_to(TOP).parts[1], match[2], text
        self.lines = [line for line in match[0].split("\n") if not re.match(r"\s*(#\[|// |pub ghost )", line)]
        self.code = [line for line in self.lines if not line.lstrip().startswith("//")]
        model = re.search(rf"^impl(?:<.*>)? Model for {self.name}\b.*?Value = \{{ (.*?) \}};", text, re.MULTILINE | re.DOTALL)
        self.seen = model and model[1]
        self.stepped = False

    def forms(self):
        """Its forms by their names: each on one line, and what is said of it."""
        forms = {}
        for said, name, brace, fields, rest in FORM.findall("\n".join(self.lines)):
            fields = " ".join(line.strip() for line in fields.split("\n")).strip().rstrip(",")
            words = " ".join(line.strip().lstrip("/ ") for line in said.split("\n")).strip()
            forms[name] = (f"{name} {{ {fields} }}" if brace else name + rest, words)
        return forms

    def is_plain(self):
        """Whether it has bare forms alone, of which nothing is said: definitions that go through them list them all."""
        return "enum" in self.code[0] and all(form == name and not said for name, (form, said) in self.forms().items())

    def words(self):
        """The names of types in it, those of its own forms left out."""
        forms = r"^    [A-Z]\w*" if f"enum {self.name}" in self.code[0] else "$^"
        return re.findall(r"\b[A-Z]\w+", re.sub(forms, "", "\n".join(self.code[1:] or self.code), flags=re.MULTILINE))


def code_of(lines):
    return [line for line in lines if line.strip() and not line.lstrip().startswith("--")]


def without_marks(line):
    """A line of a definition without the words that say who may use it, and how the prover does."""
    return line if line.lstrip().startswith("--") else MARKS.sub("", line)


def paragraphs(lines, indent):
    """What blank lines part. What stands further in belongs to what is before it."""
    found = []
    for text in re.split(r"\n(?:[ \t]*\n)+", "\n".join(lines).strip("\n")):
        block = text.split("\n")
        if found and len(block[0]) - len(block[0].lstrip()) > indent:
            found[-1] += ["", *block]
        elif text:
            found.append(block)
    return found


def names_in(code):
    """The names that some lines define, and the forms of what they define as data."""
    names, forms, inside, depth = [], [], None, 0
    for line in code:
        indent = len(line) - len(line.lstrip())
        inside = inside if indent > depth else None
        head = re.match(r"\s*(?:(?:abbrev|unfoldable|pub) )*(?:(record|data) ([^\s{]+)|((?:[^\s:(){}]+ )+): )", line)
        if head and head[1]:
            names.append(head[2])
            inside, depth = head[1], indent
        elif head and inside == "data":
            forms += head[3].split()
        elif head and not inside and len(head[3].split()) == 1:
            names += head[3].split()
    return names, forms


class Sources:
    """All definitions by their crates and names, and all types."""

    def __init__(self):
        files = [File(path) for path in sorted(TOP.glob("crates/*/specs/*.antt"))]
        self.modules = {(it.crate, it.name): {name: d for d in it.definitions for name in d.names + d.forms} for it in files}
        texts = {path: path.read_text() for path in sorted(TOP.glob("crates/*/src/**/*.rt"))}
        types = [Type(path, match, text) for path, text in texts.items() for match in TYPE.finditer(text)]
        self.types = {(it.crate, it.name): it for it in types}
        for file in files:
            for name in {step[1] for it in file.definitions for step in it.steps}:
                self.types[file.crate, name].stepped = True
        for definition in [definition for file in files for definition in file.definitions]:
            self.resolve(definition)

    def named(self, roots):
        """The definitions of these crates with these names, and the names that there are none of."""
        words = [(crate, name) for crate, names in re.findall(r"(\w+):((?: \w+(?![\w:]))+)", roots) for name in names.split()]
        found = {word: [m[word[1]] for (crate, _), m in self.modules.items() if crate == word[0] and word[1] in m] for word in words}
        return [some[0] for some in found.values() if some], [word for word, some in found.items() if not some]

    def resolve(self, definition):
        """Fills in what a definition names, in the order in which it does."""
        text = re.sub(r'"(?:\\.|[^"\\])*"', " ", "\n".join([*definition.around, *definition.code]))
        for match in WORD.finditer(text):
            self.note(definition, match[1], match[2])
        infixes = {**definition.file.imports, **self.modules[definition.file.crate, definition.file.name]}
        for sign in [match[0] for match in SIGN.finditer(text)] + re.findall(r" do$", text, re.MULTILINE):
            infix = {"if": "if◌then◌else◌", " do": "◌>>=◌"}.get(sign, f"◌{sign}◌")
            self.note(definition, None, infix if infix in infixes else sign)

    def note(self, definition, prefix, word):
        file = definition.file
        if prefix in file.aliases:
            path, name = file.aliases[prefix], word
        else:
            path, name = file.imports.get(prefix or word, (f"Rattle.{file.crate}.specs.{file.name}", prefix or word))
            _, *places = path.split(".")
            owner = f"`{places[0]}`'s sources" if ".declared." in path else f"`{places[-1]}` of `{places[0]}`"
            owner = "the kit" if path.startswith(("Rattle.std.", "lib.")) else owner
            definition.renamed += [f"`{prefix or word}` is `{name}` of {owner}"] if name != (prefix or word) else []
        _, crate, *module = path.split(".")
        used = self.modules.get((crate, *module[1:]), {}).get(name)
        owners = [self.types[crate, it] for it in module if module[1:2] == ["declared"] and (crate, it) in self.types]
        if owners or used and used is not definition:
            items, item = (definition.types, owners[0]) if owners else (definition.uses, used)
        elif (crate, *module[1:]) not in self.modules and (prefix in file.aliases or (prefix or word) in file.imports):
            name = module[3] if module[1:2] == ["declared"] else name
            items, item = definition.kit, f"{module[-1]}.{name}" if prefix in file.aliases and name != module[-1] else name
        else:
            return
        items += [item] if item not in items else []

    def types_in(self, it):
        for name in [name for name in it.words() if name != it.name]:
            form = rf"^(?:pub )?use (\w+)::(?:\w+::)*(?:\{{[^}}]*\b{name}\b[^}}]*\}}|{name};)"
            crates = [it.crate, *re.findall(form, it.uses, re.MULTILINE), *sorted(crate for crate, n in self.types if n == name)]
            yield from [self.types[crate, name] for crate in crates if (crate, name) in self.types][:1]


def topmost_first(roots, parts_of):
    """Some things and what they are made of, each before its parts."""
    done, order = set(), []

    def visit(it):
        if it not in done:
            done.add(it)
            for part in reversed(parts_of(it)):
                visit(part)
            order.insert(0, it)

    for root in reversed(roots):
        visit(root)
    return order


def in_groups(definitions):
    """Definitions with those of a group together, as they stand in their file, and each group before what it is made of."""
    groups = {it.group: [d for d in it.file.definitions if d in definitions and d.group == it.group] for it in definitions}
    uses = lambda group: [used.group for it in groups[group] for used in it.uses if used in definitions]
    return [it for group in topmost_first(list(groups), uses) for it in groups[group]]


class Page:
    """The page while it is made: its lines, the definitions and types on it, and what each part has of them."""

    def __init__(self, sources):
        self.sources, self.lines, self.known, self.shown, self.parts, self.told = sources, [], [], [], [], set()
        roots = [sources.named(names)[0] for _, names in [*PARTS, ADDED, PRINTED]]
        for number, (title, _) in enumerate([*PARTS, ADDED, PRINTED]):
            others = {it for other in roots[:number] + roots[number + 1 :] for it in other}
            self.part(title, roots[number], others.union(self.known))
        # The types of faults, behind all that an Ok is made of
        types = [it for name in FAULT_TYPES for (_, other), it in self.sources.types.items() if other == name]
        self.lines += [f"## {FAULTS}", "", "No statement on this page says what these hold; what each is of, [refusals.md](refusals.md) says.", ""]
        self.block("rust", [line for it in types for line in [*it.lines, ""]])
        self.parts.append((FAULTS, [], types))

    def part(self, title, roots, others):
        definitions = topmost_first(roots, lambda it: [used for used in it.uses if used not in others])
        shown, inside = len(self.shown), set(definitions)
        sections = {it.section: in_groups([d for d in definitions if d.section == it.section]) for it in definitions}
        self.lines += [f"## {title}", ""]
        if title == ADDED[0]:
            self.lines += ["Cut off at " + ", ".join(f"`{name}`" for it in roots for name in it.names) + ": what is met through these alone.", ""]
        above = lambda it: [u.section for d in sections[it] for u in d.uses if u in inside]
        for file, some in itertools.groupby(topmost_first(list(sections), above), lambda it: it[0]):
            some = list(some)
            renamed = dict.fromkeys(words for it in some for d in sections[it] for words in d.renamed)
            self.lines += [f"### `{file.name}` of `{file.crate}`", ""]
            self.lines += [f"Here {', '.join(renamed)}.", ""] if renamed else []
            for section in some:
                self.section(section[1], sections[section])
        self.parts.append((title, self.known[-len(definitions) :], [it for it in self.shown[shown:] if not (it.seen or it.stepped or it.is_plain())]))

    def section(self, comment, definitions):
        block, around = [] if comment in self.told else [*comment, ""], []
        self.told.add(comment)
        self.known += definitions
        for definition in definitions:
            if definition.steps:
                self.block("antt", block)
                self.steps(definition)
                block = []
            else:
                block += [*(definition.around if definition.around != around else []), *map(without_marks, definition.lines), ""]
            around = definition.around
            types = self.new_types(definition.types)
            if types:
                self.block("antt", block)
                plain = [it for it in types if it.is_plain()]
                self.block("rust", [line for it in types if not (it.seen or it.stepped or it in plain) for line in [*it.lines, ""]])
                self.lines += [line for it in plain for line in (f"`{it.name}` is one of {', '.join(f'`{form}`' for form in it.forms())}.", "")]
                seen = [f"a{'n' * (it.name[0] in 'AEIOU')} `{it.name}` as `{it.seen}`" for it in types if it.seen]
                self.lines += [f"Definitions see {', '.join(seen)}.", ""] if seen else []
                block = []
        self.block("antt", block)

    def steps(self, definition):
        """A definition that goes through the forms of a type: a row for each, in one table with the definition in front."""
        head = [line.lstrip("- ") for line in definition.lines if line.startswith("--")]
        if self.lines[-2].startswith("| "):
            self.lines.pop()
        else:
            self.lines += [*head, "", "| In memory | As data | What it is |", "|---|---|---|"]
        for step in definition.steps:
            form, words = self.sources.types[definition.file.crate, step[1]].forms()[step[2]]
            self.lines += [f"| `{step[1]}::{form}` | `{step[3]}` | {words} |"]
        self.lines += [""]

    def block(self, kind, lines):
        self.lines += [f"```{kind}", *lines[:-1], "```", ""] if lines else []

    def new_types(self, types):
        """Those of some types, and of what they are made of, that no definition named before."""
        parts_of = lambda it: [] if it.seen or it.name in FAULT_TYPES else list(self.sources.types_in(it))
        found = [it for it in topmost_first(types, parts_of) if it not in self.shown and it.name not in FAULT_TYPES]
        self.shown += found
        return found

    def counts(self):
        comments = sum(line.lstrip().startswith("--") for it in self.known for line in it.lines)
        files = len({(it.file.crate, it.file.name) for it in self.known})
        *parts, added, printed, faults = self.parts
        sums = ("What an Ok means: the six above", [it for part in parts for it in part[1]], [it for part in parts for it in part[2]])
        return [
            "## How much it is", "",
            f"The definitions stand in {files} files. {comments} lines of comments in them, and the texts of the types, aren't counted. "
            f"The minutes are for the definitions alone, {LINES_A_MINUTE} lines a minute, or {ROWS_A_MINUTE} rows of tables; who reads the "
            "comments and the head of the page along takes about twice as long.",
            "", "| Part | Names | Lines of definitions | Rows of tables | Lines of types | Minutes |",
            "|---|---|---|---|---|---|",
            *[counts_of(*part) for part in (*parts, sums, added, printed, faults)], "",
        ]


def counts_of(title, definitions, types):
    rows = sum(it.rows for it in definitions)
    lines = sum(it.other_lines for it in definitions)
    kinds = sum(len(it.code) for it in types)
    minutes = round((lines + kinds) / LINES_A_MINUTE + rows / ROWS_A_MINUTE)
    return f"| {title} | {sum(len(it.names) for it in definitions)} | {lines} | {rows} | {kinds} | {minutes} |"


def late_in(parts):
    """The names behind what they are made of in a part, but for what is of their group, or a section made of theirs."""
    above = lambda it, used: any(u.section == it.section for d in used.file.definitions if d.section == used.section for u in d.uses)
    is_late = lambda it, used: used.group != it.group and (used.section == it.section or not above(it, used))
    earlier = lambda it, some: {used for used in it.uses if used in some and is_late(it, used)}
    return [it.names for _, some, _ in parts for number, it in enumerate(some) if earlier(it, some[:number])]


def unused_in(head, text):
    """The words of the head's list and of its first table that the page behind it doesn't have."""
    cells = re.findall(r"^\| (`.*?`) \|", head.split("\n## ")[-2], re.MULTILINE)
    signs = {sign for cell in cells for sign in re.findall(r"[\w\-]{2,}|[^\w\s(){}.,:=`]", cell) if sign not in text}
    words = [word for word in re.findall(r"\*\*(.*?)\*\*", head) if not re.search(rf"(?i)\b{word.rstrip('s')}s?\b", text)]
    return sorted(signs) + words


def main():
    sources, head = Sources(), HEAD.read_text()
    page = Page(sources)
    text = "\n".join([head, *page.lines, *page.counts()])
    if asked(__doc__, write=False).write:
        PAGE.write_text(text)
    there = PAGE.read_text() if PAGE.exists() else ""
    other = first_difference(there.split("\n"), text.split("\n"))
    lost = [word for _, names in [*PARTS, ADDED, PRINTED] for word in sources.named(names)[1]]
    cells = re.findall(r"^\| (`.*?`) \|", head.split("\n## ")[-1], re.MULTILINE)
    words = {word for cell in cells for word in re.findall(r"`([^` ]+)[^`]*`", cell.replace("\\|", "|"))}
    # The words of the kit's library as they are written: of an operator its sign
    kit = {re.sub(r"◌.*", "", word.strip("◌")) for definition in page.known for word in definition.kit}
    late, strange, checks = late_in(page.parts), sorted(words ^ kit), Tally()
    checks.is_so(f"tests/meaning.txt: no specs have {lost}", not lost)
    checks.is_so(f"these stand behind what they are made of: {late}", not late)
    checks.is_so(f"tests/meaning_words.md and the definitions: {strange}", not strange)
    quoted = re.findall(r"\(`(crates/[^`]*)`\):\n\n```[a-z]+\n(.*?)^```$", head, re.MULTILINE | re.DOTALL)
    unused = unused_in(head, "\n".join(page.lines))
    checks.is_so(f"tests/meaning_words.md has what the page never uses: {unused}", not unused)
    for source, block in quoted or [("tests/meaning_words.md", "a quotation of a source")]:
        checks.is_so(f"tests/meaning_words.md: {source} has not\n{block}", block in (TOP / source).read_text())
    checks.is_so(f"docs/meaning.md is made anew by --write; it differs at {other}", there == text)
    checks.end()


main()
