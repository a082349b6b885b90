"""Runs acpidis, and reads what it printed: for the scripts beside this file."""

import os
import pathlib
import re
import select
import shutil
import subprocess
from collections import namedtuple

from acpidis_tools import aml, names
from acpidis_tools.errors import FAULT, Fault
from acpidis_tools.listing import NAME, ROOT, Name, NoListing, path_of, read_listing

LAUNCHER = pathlib.Path(__file__).resolve().parents[2] / "acpidis"
# Beside the script, where it is installed
BIN = LAUNCHER.parents[1] / "bin"
# What the program may write: a listing of so many bytes takes a minute and 1 GB. It is read in parts.
MOST_BYTES, PART = 64_000_000, 65_536
# A name is looked for in each scope around it, which a hostile set could make many.
MOST_SEGMENTS = 64
METHOD = re.compile(r"Method \((\S+), ([0-7]), ")
RAW = re.compile(rb"^ *Raw \{", re.MULTILINE)
BY_ANY_RUN = re.compile(r'table "[^"]*": (ModuleCode|ModuleCall|Duplicate|ScopeMissing)( .*)?')
SCOPES = {"Scope", "Method"} | aml.OPENERS
# What has no effect as a term of its own, so that no compiler writes it there.
CONSTANT = re.compile(r'(Local[0-7]|Arg[0-6]|Zero|One|Ones|Revision|Timer|Debug|0x[0-9A-F]+|".*")')
VALUE = re.compile(
    r"(Buffer|Package|VarPackage|LAnd|LOr|LNot|LEqual|LGreater|LLess|DerefOf|RefOf|SizeOf|ObjectType|Match) \(.*"
    r"|(Add|Subtract|Multiply|Mod|And|NAnd|Or|NOr|XOr|Not|ShiftLeft|ShiftRight|Concatenate|Index|Mid|To\w+) \(.*, \)"
)
PREDEFINED = {**names.PREDEFINED, ("_OSI",): 1}
# What a run printed: the reason why the set is refused, or the listing and its methods whose bodies are raw
Run = namedtuple("Run", "refused listing raw")


class Unusable(Exception):
    """The program couldn't be run, or printed what this file doesn't know."""


class Refused(Exception):
    """The set, or what else a script is given, is refused for this reason."""


def refused(line, options):
    """The refusal of a set for this line. Where it was run without --any-run, which may read the set, it says so."""
    is_read = BY_ANY_RUN.fullmatch(line) and "--any-run" not in options
    return Refused(f"the set is refused: {line}" + "; --any-run may read it" * bool(is_read))


def command():
    """The command that ACPIDIS names, else this repository's launcher, else the program on PATH or beside a script."""
    named = os.environ.get("ACPIDIS")
    if not named and LAUNCHER.is_file():
        return str(LAUNCHER)
    found = shutil.which(named or "acpidis", path=f"{os.environ.get('PATH', os.defpath)}{os.pathsep}{BIN}")
    if not found:
        raise Unusable("no program acpidis: install it, or name it in ACPIDIS")
    return found


def program():
    """The program itself, which the launcher builds where it isn't."""
    found = command()
    if found != str(LAUNCHER):
        return found
    run = subprocess.run([found, "--program"], stdout=subprocess.PIPE, check=False)
    if run.returncode:
        raise Unusable("the program couldn't be built")
    return os.fsdecode(run.stdout.rstrip(b"\n"))


class Namespace:
    """The paths of a text. `kinds` are those of all that are declared, a method's as its count and an Alias's as the
    path that it stands for, `maybe` those that only may stand, `most` the greatest counts of the methods that are
    declared, and `counts` those of paths that aren't declared. Names are texts."""

    def __init__(self):
        self.kinds, self.maybe, self.most, self.counts = PREDEFINED.copy(), set(), {}, {}

    def add(self, row):
        """The path of a row of a listing."""
        kind, _, more = row.kind.partition(" ")
        self.kinds[row.path] = int(more) if kind == "Method" else path_of(more) if kind == "Alias" else kind
        if row.is_maybe and row.path not in PREDEFINED:
            self.maybe.add(row.path)
        return row.path

    @staticmethod
    def candidates(scope, name):
        """The paths that a name may mean, the nearest first. Above the root stands the root itself."""
        name = Name.of(name)
        return name.candidates(scope) or [name.segments]

    def place(self, scope, name):
        return self.candidates(scope, name)[0]

    def may_be(self, scope, name, own=()):
        """What a name may be: methods' counts and other kinds, those of the nearest path first, up to one that is sure;
        nothing where no table tells. `own` are paths that the body declared."""
        counts, found = [], []
        for path in self.candidates(scope, name):
            if path in own:
                return [*found, "Local"]
            if path in self.kinds:
                found += self.kinds_of(path)
                if path not in self.maybe:
                    return found
            elif path in self.counts:
                counts.append(self.counts[path])
        return found or counts[:1]

    def kinds_of(self, path):
        kind = self.kinds[path]
        if isinstance(kind, tuple):
            path, kind = kind, self.kinds.get(kind, self.counts.get(kind))
        return [it for it in (kind, self.most.get(path)) if it is not None]

    def found(self, scope, name):
        """The path that a name means, else its nearest place."""
        path = next((path for path in self.candidates(scope, name) if path in self.kinds), None)
        if path is None:
            return self.place(scope, name)
        return self.kinds[path] if isinstance(self.kinds[path], tuple) else path


class Method:
    """A method of the text: its number, its path, the lines of its body, and of a raw one the bytes and their fault."""

    def __init__(self, number, path):
        self.number, self.path, self.lines, self.raw, self.fault = number, path, [], None, None


def is_lone(line, namespace):
    """Whether a line is a value that nothing takes."""
    text = line.bare
    if NAME.fullmatch(text):
        kinds = namespace.may_be(line.scope, text)
        return bool(kinds) and not any(isinstance(kind, int) for kind in kinds)
    return bool(CONSTANT.fullmatch(text) or VALUE.fullmatch(text))


def check_depth(scope, line, fault):
    if len(scope) > MOST_SEGMENTS:
        raise fault(f"line {line.number}: a scope of more than {MOST_SEGMENTS} segments is too deep for this script")


class Listing:
    """A text: its namespace, its methods, and its lines but for the ends of blocks, with their scopes and methods;
    `outside` are those that stand in none."""

    def __init__(self, text):
        self.namespace, self.methods, self.outside = Namespace(), [], []
        try:
            found = read_listing(text)
        except NoListing as fault:
            raise Unusable(f"what it printed is no listing: {fault}") from fault
        for row in found.rows:
            self.namespace.add(row)
        self.lines, opened = [line for line in found.lines if line.term], {}
        for line in self.lines:
            line.scope, line.method = opened.get(line.above, (ROOT, None))
            if line.method and line.term == "Raw":
                line.method.raw = line.code
            else:
                (line.method.lines if line.method else self.outside).append(line)
            if line.end:
                opened[line] = self.opened(line)

    def opened(self, line):
        if line.term not in SCOPES or line.method:
            return line.scope, line.method
        name = line.pieces[3] if line.pieces[2] == " (" else ""
        look = self.namespace.found if line.term == "Scope" else self.namespace.place
        path = look(line.scope, name)
        check_depth(path, line, Unusable)
        if line.term != "Method":
            return path, None
        form = METHOD.match(line.bare)
        if form:
            self.namespace.most[path] = max(int(form[2]), self.namespace.most.get(path, 0))
        self.methods.append(Method(len(self.methods), path))
        return path, self.methods[-1]


def started(words, errors):
    """How the program ends with these words, and the lines of its standard error."""
    try:
        with subprocess.Popen(words, stdin=subprocess.DEVNULL, stdout=subprocess.PIPE, stderr=subprocess.PIPE) as program:
            out, err = texts_of(program)
        return subprocess.CompletedProcess(words, program.returncode, out), err.decode(errors=errors).splitlines()
    except (OSError, ValueError) as fault:
        raise Unusable(f"cannot run {words[0]}: {fault}") from fault


def texts_of(program):
    """What a program writes to standard output and to standard error. One that writes too much is ended."""
    texts = {program.stdout: bytearray(), program.stderr: bytearray()}
    waiting = list(texts)
    while waiting and sum(map(len, texts.values())) <= MOST_BYTES:
        for stream in select.select(waiting, [], [])[0]:
            part = os.read(stream.fileno(), PART)
            texts[stream] += part
            if not part:
                waiting.remove(stream)
    if waiting:
        program.kill()
        raise Refused(f"acpidis writes more than {MOST_BYTES:,} bytes, which are too many for this script")
    return texts.values()


def ended(words, errors="strict"):
    """What the program writes with these words, the lines of its standard error, and that of a refusal or None."""
    done, err = started(words, errors)
    is_refused = done.returncode == 1 and len(err) == 1
    if not is_refused and done.returncode not in (0, 3):
        raise Unusable(f"{words[0]} ended with status {done.returncode}: {' '.join(err[:1])}")
    return done.stdout, err, err[0] if is_refused else None


def run(words):
    out, err, refusal = ended(words)
    if refusal is not None:
        return Run(refusal.removeprefix("acpidis: "), None, [])
    forms = [FAULT.fullmatch(line) for line in err]
    # What tables can write freely stands in quotes, so that no line but a raw body's begins so.
    if None in forms or len(forms) != len(RAW.findall(out)):
        raise Unusable("the lines of standard error don't fit the raw bodies of the text")
    listing = Listing(out)
    raw = [method for method in listing.methods if method.raw is not None]
    for method, form in zip(raw, forms):
        method.fault = Fault.of(form)
    return Run(None, listing, raw)
