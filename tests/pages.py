#!/usr/bin/env python3
"""Runs the commands of the pages for users, each as its page prints it, and compares what comes with what stands there.

    python3 tests/pages.py [--no-scripts]

A block that begins with ```console has commands behind `$ `, more lines of theirs behind `> `, and below what they
print. They run in a folder with the sets of examples/sets, of which `mine` has the first block of docs/listing.md as
its text, and with `examples`; `./acpidis` is the launcher. Then they run once more as the commands of an installed
program, `acpidis-page` for `examples/page.py`. README and docs have no more pages and words than they may. What pages
quote, link to or name stands there: sources, headings, contracts, clauses, wrong bodies. The manual page is looked
through by mandoc and groff, each where it is installed; options and words are compared with the program's and the
sources'. Last, the scripts that the pages speak of are tried, but with --no-scripts."""

import itertools
import os
import pathlib
import re
import shutil
import subprocess

from tally import TOP, Tally, asked, ended, executable, new_room

LISTING = "docs/listing.md"
PAGES = ["listing", "tables", "refusals", "any_run", "changing", "many", "facts"]
MANUAL = "docs/acpidis.1"
LINTS = [["mandoc", "-T", "lint"], ["groff", "-ww", "-man", "-z"]]
REFUSALS, README, PROOFS, MEANING = "docs/refusals.md", "README.md", "docs/work/proofs.md", "docs/meaning.md"
MOST_WORDS = 2000
# Of docs without meaning.md, which is made of the sources
MOST_PAGES, MOST_WORDS_OF_PAGES = 15, 24000
# What pages call a thing that no source names
MADE_UP = {"draw_copy1", "Lts"}
SCRIPTS = ["tests/meaning.py", "tests/survey.sh", "tests/install.sh", "tests/examples.py", "tests/library.sh"]


def make_room(room, is_installed):
    commands = {"bin/ssh": (TOP / "tests/ssh.sh").read_text()}
    if is_installed:
        program = {"PROGRAM": str(TOP / "out/acpidis"), "PREFIX": str(room), "DESTDIR": ""}
        subprocess.run([TOP / "install"], env={**os.environ, **program}, stdout=subprocess.DEVNULL, check=True)
    else:
        (room / "examples").symlink_to(TOP / "examples")
        commands["acpidis"] = f"#!/bin/sh\nexec '{TOP}/acpidis' \"$@\"\n"
    shutil.copytree(room / "share/acpidis/sets" if is_installed else TOP / "examples/sets", room, dirs_exist_ok=True)
    for name, text in commands.items():
        executable(room / name, text)


def printed_by(*words, **more):
    return ended(*words, **{"stderr": subprocess.STDOUT, **more}).out


def blocks_of(page, kind):
    return re.findall(rf"^```{kind}\n(.*?)^```$", (TOP / page).read_text(), re.MULTILINE | re.DOTALL)


def commands_of(page):
    """Each command of a page with what stands below it."""
    if page == LISTING:
        yield from (("./acpidis mine 2>/dev/null", block) for block in blocks_of(page, "")[:1])
    for block in blocks_of(page, "console"):
        for part in re.split(r"^\$ ", block, flags=re.MULTILINE)[1:]:
            command, more, wanted = re.fullmatch(r"([^\n]*\n)((?:> [^\n]*\n)*)(.*)", part, re.DOTALL).groups()
            yield command + re.sub(r"^> ", "", more, flags=re.MULTILINE), wanted


def pages():
    """All pages that are written by hand, and the installed README's neighbours among them."""
    files = [TOP / README, TOP / "CONTRIBUTING.md", *TOP.glob("docs/**/*.md"), *TOP.glob("crates/*/README.md")]
    return sorted(str(file.relative_to(TOP)) for file in files)


def prose_of(page):
    """A page without its blocks of code."""
    return re.sub(r"^ *```.*?^ *```$", "", (TOP / page).read_text(), flags=re.MULTILINE | re.DOTALL)


def anchors_of(page):
    """The anchors that the headings of a page have."""
    headings = re.findall(r"^#+ (.*)$", prose_of(page), re.MULTILINE)
    return {re.sub(r"[^\w\- ]", "", re.sub(r"\]\([^)]*\)", "", it).lower()).replace(" ", "-") for it in headings}


def leads_nowhere(page, link):
    name, _, anchor = link.partition("#")
    file = os.path.relpath(os.path.normpath(TOP / pathlib.Path(page).parent / name), TOP) if name else page
    return "://" not in link and (not (TOP / file).exists() or anchor and anchor not in anchors_of(file))


def text_of_crate(crate, *kinds):
    return "\n".join(file.read_text() for kind in kinds for file in (TOP / "crates" / crate).glob(kind))


def words_of_sources():
    """All words of the sources and scripts, and the names of their files."""
    kinds = "crates/*/src/**/*.rt crates/*/specs/*.antt crates/*/proofs/**/*.antt crates/*/must-fail/* crates/*/*.edits"
    kinds += " crates/acpi_cases/std* tests/**/*.* examples/**/*.* bench/*.* library/*.*"
    kinds += " acpidis build install package test"
    files = [file for kind in kinds.split() for file in TOP.glob(kind) if file.is_file()]
    texts = {file: file.read_text(errors="replace") for file in files if file.suffix not in (".pyc", ".png")}
    return {word for file, text in texts.items() for word in (*re.findall(r"\w+", text), *file.parts, file.stem)}


def options_in(text):
    return set(re.findall(r"--[a-z][a-z-]*", text))


def section(manual, name):
    return "".join(re.findall(rf"^\.SH {name}\n(.*?)^\.SH", manual, re.MULTILINE | re.DOTALL)[:1])


class Checks(Tally):
    def try_commands(self, page, is_installed):
        commands = list(commands_of(page))
        self.is_so(f"{page}: it has no command", commands)
        with new_room() as room:
            make_room(room, is_installed)
            environment = {**os.environ, "PATH": f"{room}/bin:{os.environ['PATH']}"}
            for command, wanted in commands:
                if is_installed:
                    command = re.sub(r"(?:python3 )?\bexamples/(\w+)\.(?:py|sh)\b", r"acpidis-\1", command)
                    command = command.replace("./acpidis", "acpidis")
                printed = printed_by("sh", "-c", command, cwd=room, env=environment)
                self.is_so(f"{page}: {command}\nprinted\n{printed}not\n{wanted}", printed == wanted)

    def check_readme(self):
        text = (TOP / README).read_text()
        quoted = re.findall(r"\(`(crates/[^`]*)`\):\n\n```[a-z]+\n(.*?)^```$", text, re.MULTILINE | re.DOTALL)
        for source, block in quoted:
            self.is_so(f"{README}: {source} has not\n{block}", block in (TOP / source).read_text())
        self.is_so(f"{README}: it quotes {len(quoted)} sources", len(quoted) >= 3)
        self.is_so(f"{README}: {len(text.split())} words", len(text.split()) <= MOST_WORDS)

    def check_links(self):
        """The links of each page; and how many pages there are, and how long."""
        for page in pages():
            lost = [link for link in re.findall(r"\]\(([^)\s]*)\)", prose_of(page)) if leads_nowhere(page, link)]
            self.is_so(f"{page}: these lead nowhere: {', '.join(lost)}", not lost)
        own = [page for page in pages() if page.startswith("docs/") and page != MEANING]
        words = sum(len((TOP / page).read_text().split()) for page in own)
        most = f"{MOST_PAGES} with {MOST_WORDS_OF_PAGES} at most"
        is_short = len(own) <= MOST_PAGES and words <= MOST_WORDS_OF_PAGES
        self.is_so(f"docs: {len(own)} pages with {words} words, and not {most}", is_short)

    def check_proofs(self):
        """The contracts and definitions that the page of proofs names of each crate."""
        rows = re.findall(r"^\| (\[`\w+`\]\(.*?\)) \| (.*?) \|(.*)\|$", (TOP / PROOFS).read_text(), re.MULTILINE)
        self.is_so(f"{PROOFS}: it names no crate", len(rows) >= 10)
        for links, contracts, definitions in rows:
            crates = re.findall(r"`(\w+)`", links)
            text = "\n".join(text_of_crate(crate, "src/**/*.rt", "specs/*.antt", "proofs/*.antt") for crate in crates)
            names = [name.split("::")[-1] for name in re.findall(r"`([\w:]+)`", contracts + definitions)]
            form = r"^ *[a-z ()]*\b{0}\b.*?(?: : |[(<])|\b(?:struct|enum|trait|fn|impl) {0}\b|\b{0} for\b"
            lacking = [name for name in names if not re.search(form.format(name), text, re.MULTILINE)]
            self.is_so(f"{PROOFS}: {', '.join(crates)} has not {', '.join(lacking)}", not lacking)

    def check_crates(self):
        """That each crate has a README, and the clauses that this names."""
        for name in re.findall(r"^(\w+)", (TOP / "crates.txt").read_text(), re.MULTILINE):
            text = text_of_crate(name, "README.md")
            clauses = re.findall(r"\w+", " ".join(re.findall(r"\(((?:`\w+`(?:, )?)+)\)", text)))
            lost = set(clauses) - set(re.findall(r"\w+", text_of_crate(name, "src/**/*.rt", "specs/*.antt")))
            fault = f"it has not {', '.join(sorted(lost))}" if lost else "it is missing"
            self.is_so(f"crates/{name}/README.md: {fault}", text and not lost)

    def check_names(self):
        """That some source has each name of several words that a page marks as code."""
        known = words_of_sources() | MADE_UP
        for page in pages():
            names = re.findall(r"`([A-Za-z_]\w*(?:(?:::|\.)\w+)*)`", prose_of(page))
            names = [it for it in names if re.search(r"[a-z]_[a-z]|[A-Z][a-z]", it)]
            stale = {it for it in names for word in re.findall(r"\w+", it) if word not in known}
            self.is_so(f"{page}: no source has {', '.join(sorted(stale))}", not stale)

    def check_goals(self):
        """That each crate has the wrong bodies of its list of goals."""
        for goals in sorted(TOP.glob("crates/*/wrong-bodies.goals")):
            there = re.findall(r"^edit: (\w+)", text_of_crate(goals.parent.name, "*.edits"), re.M)
            there += [it.stem for it in goals.parent.glob("must-fail/*.edit")]
            named = [line.split()[0] for line in goals.read_text().splitlines() if line[0] != "#"]
            lost = [it for it in named if it not in there]
            self.is_so(f"{goals.relative_to(TOP)}: {', '.join(lost)} isn't there", not lost)

    def check_manual(self):
        for lint in LINTS:
            if shutil.which(lint[0]):
                said = printed_by(*lint, TOP / MANUAL)
                self.is_so(f"{MANUAL}: {lint[0]}\n{said}", not said)

    def check_words(self):
        """The options of the manual and README beside the program's, and the words of the manual and refusals.md."""
        readme = (TOP / README).read_text().partition("\n## Options")[2].partition("\n## ")[0]
        manual = (TOP / MANUAL).read_text().replace("\\-", "-")
        headings = "\n".join(re.findall(r"^(?:\.BR? |acpidis: )(.*)$", section(manual, "DIAGNOSTICS"), re.MULTILINE))
        options = options_in(printed_by(TOP / "acpidis", "--any-sum", "--help"))
        # The words of standard error: the first of each message in the sources, where it is one
        form = r'(?:#\[error\("|"acpidis: |Fault::\w+(?:\(_\))? => f\.write_str\(")([^"{]+)'
        messages = [it for source in TOP.glob("crates/*/src/**/*.rt") for it in re.findall(form, source.read_text())]
        words = {word for message in messages for word in re.findall(r"^[A-Z][A-Za-z]+", message)}
        cells = re.findall(r"^\| `([^`]*)`", (TOP / REFUSALS).read_text(), re.MULTILINE)
        for name, got, wanted in [
            ("options of the manual", options_in(section(manual, "OPTIONS")), options),
            ("options of README", options_in(readme) | {"--help", "--version"}, options),
            ("words of the manual", set(re.findall(r"\b[A-Z][a-z]+[A-Za-z]*\b", headings)), words),
            ("words of refusals.md", set(re.findall(r"[A-Z][A-Za-z]+[a-z]", "\n".join(cells))), words),
        ]:
            self.is_so(f"{name}: {sorted(got ^ wanted)}", got == wanted)

    def try_scripts(self):
        """Each check of a script, by its last line."""
        for script in SCRIPTS:
            *shown, last = printed_by(TOP / script, stderr=None).splitlines()
            print("".join(f"{line}\n" for line in shown), end="")
            passed, failed = map(int, re.fullmatch(r"(\d+) passed, (\d+) failed", last).groups())
            self.passed += passed
            self.failed += failed


def main():
    words, checks = asked(__doc__, no_scripts=False), Checks()
    for name, is_installed in itertools.product(PAGES, (False, True)):
        checks.try_commands(f"docs/{name}.md", is_installed)
    checks.check_all()
    if not words.no_scripts:
        checks.try_scripts()
    checks.end()


main()
