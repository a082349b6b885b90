#!/usr/bin/env python3
"""Tries the verdicts of tests/wrong_bodies.py on lines as the prover prints them, and whole checks of a made-up crate.

In place of the prover the checks run a script, which takes a function with the word WRONG in it, or one that names a
changed constant, for one with a goal that it can't show, and can't read the word UNREADABLE."""

import pathlib
import re
import types

from tally import TOP, Tally, executable
import wrong_bodies as tried

TESTS = TOP / "tests"
# What tests/verdicts.txt has: the function, the verdict, words of its reason, and what was printed; then files
SAMPLE = re.compile(r"^== (\w+) (\w+)(?:: (.*))?\n((?:(?!==|#).*\n)+)", re.M)
TEXT = (TESTS / "verdicts.txt").read_text()
FILES = dict(re.findall(r"^== (\S+/\S+)\n((?:(?!==).*\n)+)", TEXT, re.M))
SOURCES = {name: text for name, text in FILES.items() if name.startswith("src/")}
# In place of the prover: it keeps the words of each of its runs, and judges the functions that are asked for, or all.
PROVER = r"""#!/usr/bin/env python3
import pathlib, re, sys

with open("{log}", "a") as file:
    print(*sys.argv[1:], file=file)
asked = [word for before, word in zip(sys.argv, sys.argv[1:]) if before == "--only"]
sources = {{name: pathlib.Path("src", name).read_text() for name in ("lib.rt", "limits.rt")}}
for name, text in sources.items():
    for number, line in enumerate(text.splitlines(), 1):
        if "UNREADABLE" in line:
            sys.exit(print(f"src/{{name}}:{{number}}:5: error: no such word") or 1)
changed = "u32 = 512" not in sources["limits.rt"]
failed = 0
for module, text in ("", sources["lib.rt"]), ("limits::", sources["limits.rt"]):
    for name, body in re.findall(r"pub fn (\w+).*?\n{{\n(.*?)\n}}\n", text, re.S):
        if asked and module + name not in asked:
            continue
        wrong = "WRONG" in body or changed and "MOST_LEVELS" in body
        failed += wrong
        said = "no proof: `search` did not prove `returns`" if wrong else "proved"
        print(f"fn made_up::{{module}}{{name}}: {{said}}")
print("only=1" if asked else "logic=proved")
sys.exit(failed > 0)
"""
# Wrong bodies that are tried at once, and by how many checks
TRIALS = [
    (int(count), [line.split(" | ") for line in lines.splitlines()])
    for count, lines in re.findall(r"^-- (\d+)\n((?:\w+ \| .*\n)+)", TEXT, re.M)
]

# The made-up crate, as the kit's library gives one
WORDS = ["--crate-name", "made_up", "src/lib.rt"]
CRATE = types.SimpleNamespace(name="made_up", words=lambda flags, keeps: [*WORDS, *flags])


def check_trials(checks, room):
    """Whether each trial gets the verdicts that it has to, by as many checks."""
    tried.TOP, log = room, pathlib.Path(room, "log")
    files = {f"crates/{CRATE.name}/{name}": text for name, text in SOURCES.items()}
    for name, text in {**files, "prover": PROVER.format(log=log)}.items():
        executable(pathlib.Path(room, name), text)
    kit = types.SimpleNamespace(RATTLE=f"{room}/prover")
    for count, bodies in TRIALS:
        log.write_text("")
        waiting = [
            tried.WrongBody(name, [(file, old, new)], {tried.place_at(file, SOURCES[file], SOURCES[file].index(old))})
            for name, file, old, new, *_ in bodies
        ]
        found = dict(tried.judged(kit, CRATE, waiting, f"{room}/kept", is_seeded=False))
        runs, wanted = log.read_text().splitlines(), {name: (kind, words) for name, *_, kind, words in bodies}
        told = {name: (it.kind, wanted[name][1] in it.reason and wanted[name][1]) for name, it in found.items()}
        checks.is_same(f"{', '.join(wanted)}: {found} by {runs}", (told, len(runs)), (wanted, count))


def main():
    places = {
        "read_name": tried.Place("reading", "reading::read_name", None),
        "encode_node": tried.Place("encode", "encode::encode_node", "encode"),
    }
    with Tally() as checks:
        proofs, answers = checks.room / "proofs", "reading/read_name/Answers.antt"
        (proofs / answers).parent.mkdir(parents=True)
        (proofs / answers).write_text(FILES[answers])
        for function, kind, words, printed in SAMPLE.findall(TEXT):
            body = tried.WrongBody("made_up", [], {places[function]})
            verdict = tried.verdict_of(body, *tried.read_output(printed, proofs), printed)
            is_right = str(verdict.kind) == kind and words in verdict.reason
            checks.is_so(f"wanted {kind} with '{words}', got {verdict} of:\n{printed}", is_right)
        check_trials(checks, str(checks.room))


main()
