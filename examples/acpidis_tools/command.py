"""What all scripts have of a command: the words of its line, the options of acpidis that it passes on, its end."""

import argparse
import contextlib
import os
import pathlib
import re
import sys
import tempfile
import time

from acpidis_tools import listing, running

REFUSED, AT_FAULT = 1, 2
# The command's name where it is installed, which its messages begin with
NAME = f"acpidis-{pathlib.Path(sys.argv[0]).stem.removeprefix('acpidis-')}"
OPTION = re.compile(r"^ {2}(?:-\w, | {4})(--[a-z][a-z-]*)(?: <(\w+)>)?(?= |$)", re.MULTILINE)
# What comes with these is no listing.
NO_LISTING = ("--help", "--version", "--check")
SEGMENT = re.compile(r"[A-Z_][A-Z0-9_]{0,3}")
read = listing.read_file
# How files begin that are packed.
PACKED = (b"\x1f\x8b", b"BZh", b"\xfd7zXZ", b"PK\3\4", b"\x28\xb5\x2f\xfd")


class Parser(argparse.ArgumentParser):
    """A command line, of whose faults is told as of all others."""

    def error(self, message):
        self.print_usage(sys.stderr)
        leave(message)


def parser(about, *names, **more):
    """The command line of a script, with words of these names, whose help is what its first lines say. Where it is
    installed it has another name there."""
    made = Parser(description=about, formatter_class=argparse.RawDescriptionHelpFormatter, **more)
    if made.prog.startswith("acpidis-"):
        made.description = re.sub(r"(?:python3 )?examples/(\w+)\.py", r"acpidis-\1", about)
    for name in names:
        made.add_argument(name.lower(), metavar=name)
    return made


def path_of(word):
    """The path that a word means, with four signs in each segment: \\_SB_.PCI0._PTS of _sb.pci0._pts."""
    segments = word.strip().upper().removeprefix("\\").split(".")
    if not all(map(SEGMENT.fullmatch, segments)):
        shown = repr(word).replace("\\\\", "\\")
        raise argparse.ArgumentTypeError(f"{shown} is no path, as \\_SB_.PCI0._PTS is one")
    return "\\" + ".".join(segment.ljust(4, "_") for segment in segments)


def known():
    """The options of acpidis, each with the name of its value, which is empty where it takes none."""
    done, _ = running.started([running.command(), "--help"], "replace")
    options = done.stdout.decode(errors="replace").partition("\nOptions:\n")[2].partition("\n\n")[0]
    return dict(OPTION.findall(options))


class Keep(argparse.Action):
    """Keeps an option with its value, or with None where it takes none. One with an empty value is as good as none."""

    def __call__(self, parser, namespace, values, option_string=None):
        if self.metavar == "FILE" and os.path.exists(values):
            listing.check_file(values)  # the program would wait
        if values != "":
            namespace.options = {**namespace.options, self.option_strings[0]: values or None}


def parse(words, but=()):
    """What the command line asks for, with the options of acpidis in `options`, but for those that the script has
    itself or can't do with. Only where an option isn't the script's own is acpidis asked which it has."""
    words.set_defaults(options={})
    if any(word.startswith("-") for word in words.parse_known_args()[1]):
        for option, value in known().items():
            if option not in (*NO_LISTING, *but):
                takes = {"metavar": value} if value else {"nargs": 0}
                words.add_argument(option, action=Keep, dest="options", **takes)
    return words.parse_args()


def words_of(options):
    """Options with their values, as words of the command line."""
    return [word for item in options.items() for word in item if word is not None]


class Progress:
    """How far a script is, in a line of a terminal, from two seconds on. Into a file or a pipe it says nothing."""

    AFTER, BETWEEN = 2, 0.2

    def __init__(self, what):
        self.what, self.done, self.next = what, 0, time.monotonic() + self.AFTER
        self.is_shown = False

    def step(self):
        self.done += 1
        if sys.stderr.isatty() and time.monotonic() >= self.next:
            self.is_shown, self.next = True, time.monotonic() + self.BETWEEN
            print(f"\r{self.what} {self.done:,}", end="", file=sys.stderr, flush=True)

    def end(self):
        """Takes the line away."""
        if self.is_shown:
            print("\r\x1b[K", end="", file=sys.stderr, flush=True)
            self.is_shown = False


def run(main):
    """Runs the main function of a script, and writes out what it printed. What is at fault is told in a line."""
    try:
        # Standard output may be closed. With PYTHONUNBUFFERED a write of a part would pass for one of the whole.
        how = {"encoding": sys.stdout.encoding, "errors": sys.stdout.errors} if sys.stdout else {}
        sys.stdout = open(1, "w", closefd=False, **how)
        try:
            main()
        finally:
            sys.stdout.flush()
    except BrokenPipeError:
        leave()  # who reads it has enough
    except OSError as fault:
        what = repr(os.fsdecode(fault.filename)) if fault.filename else "cannot write"  # standard output has no name
        leave(f"{what}: {fault.strerror}")
    except running.Refused as fault:
        refuse(fault)
    except (running.Unusable, UnicodeError) as fault:
        leave(fault)
    except MemoryError:
        leave("there is not enough memory")
    except KeyboardInterrupt:
        leave("interrupted")


@contextlib.contextmanager
def reading(file, what=""):
    """Names the file of which comes why it is refused, with some words about it."""
    try:
        yield
    except (listing.NoListing, running.Refused) as fault:
        refuse(f"{file!r}{what}: {fault}")


@contextlib.contextmanager
def whole(place):
    """A part that becomes a file, or a folder, as a whole or not at all, where a link leads. Faults have the name of what
    is written."""
    try:
        there = os.path.realpath(place)
        with tempfile.TemporaryDirectory(prefix=".part", dir=os.path.dirname(there)) as room:
            part = pathlib.Path(room, "part")
            yield part
            os.replace(part, there)
    except OSError as fault:
        fault.filename = place
        raise


def write(file, data):
    """Writes a file as a whole. What is no regular file stays."""
    if os.path.exists(file) and not os.path.isfile(file):
        leave(f"{file!r} is no regular file: name another")
    with whole(file) as part:
        part.write_bytes(data)
        part.chmod(0o644)


def tell(text):
    print(f"{NAME}: {text}", file=sys.stderr)


def refuse(text):
    """Ends the script, which was given what it doesn't take."""
    tell(text)
    sys.exit(REFUSED)


def leave(text=""):
    """Ends the script. What standard output didn't take isn't tried again at the end."""
    if text:
        tell(text)
    os.dup2(os.open(os.devnull, os.O_WRONLY), 1)
    sys.exit(AT_FAULT)
