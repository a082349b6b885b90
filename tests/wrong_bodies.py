#!/usr/bin/env python3
"""Tries wrong bodies, several in one check: a goal of the function that each stands in must be refused.

usage: tests/wrong_bodies.py [--outside|--all] [--over FOLDER] [CRATE[/NAME]..]

The wrong bodies are those of crates/CRATE/must-fail, with --outside those of crates/CRATE/wrong-bodies.edits, or both.
The crates below are proved first, where that isn't done yet; with --over they are those that rt ci left in a copy of
the repository. There are three verdicts, each printed with its reason:

- refused: the prover tried a goal of the wrong body's own function and couldn't show it. The goal's name is printed.
- UNDECIDED: the function isn't proved, but no goal of it was tried and refused: a name of a proof no longer fits the
  changed code, a text can't be read, or only what it calls isn't proved. That says nothing of the contract, so the run
  fails, and the wrong body wants another form.
- PROVED: the contract lets the wrong body through. The run fails.

A function is proved from its own body and the contracts of what it calls. So one check of a crate with wrong bodies of
different functions says of each whether it is proved, and the bodies of the others are left out at first, with a hole
for each proof, unless out/ has kept proofs of the crate. A further wrong body of one function stands in a copy of it,
but of a method of a trait or a function of a cycle of calls, whose wrong bodies are tried in different checks. What
such checks don't refuse is tried with all bodies, and at last alone, as one is at once that stands in no function,
over all functions of the crate. One whose text can't be read is told so, and the others are tried without it."""

import collections
import concurrent.futures
import os
import re
import shutil
import subprocess
import sys
import tempfile
from pathlib import Path

import tally

TOP = str(tally.TOP)
FUNCTION = re.compile(r"( {4})?(?:pub(?:\(\w+\))? )?(?:(?:const|final|unsafe|ghost) )*fn (\w+)")
BLOCK = re.compile(r"(?:unsafe )?(?:pub )?(?:impl|trait)\b(?:<[^{]*?> )?\s*(?:(?P<trait>[\w:]+(?:<[^{]*?>)?) for )?(?P<type>\w+)")

# What is added to the verdict on a function under `Wait`
MAY_WAIT = ", may wait"
TYPE = re.compile(r"^(?:pub(?:\(\w+\))? )?(?:struct|enum) (\w+)", re.M)
TABLE = re.compile(r"^(?:pub(?:\(\w+\))? )?static (\w+): .*?^[}\]];$", re.M | re.S)

# A function by the end of its name, and the module that it is written in; without a name the module's other items
Place = collections.namedtuple("Place", "module name cycle")
# The offsets of what stands before a function, of its body and of its last line, its name, its impl's type and trait
Function = collections.namedtuple("Function", "place start begin end name type trait")
# The number of the copy that it stands in, and 0 for the function itself
WrongBody = collections.namedtuple("WrongBody", "name changes places copy", defaults=[0])
# A function that is no method of a trait: its source, the path of its name below the crate, and whether it can have copies
Own = collections.namedtuple("Own", "file function path is_lone")
# Refused by which goals, or undecided or proved, and why
Verdict = collections.namedtuple("Verdict", "kind reason")


def kit():
    """The kit's library, which says how a crate is checked: it lies beside the command rt."""
    command = shutil.which("rt") or sys.exit("the Rattle kit isn't there: its command rt has to be on the PATH")
    return tally.module_of("rtlib", os.path.join(os.path.dirname(os.path.realpath(command)), "rtlib.py"))


def module_of(file):
    """The module that a source is: the path of its names below the crate."""
    return "::".join(it for it in file.removeprefix("src/").removesuffix(".rt").split("/") if it not in ("lib", "mod"))


def functions_of(file, text):
    """The functions of a source that have a body of more than one line. The end of a function's name is as the prover gives
    it: a method stands below its type, wherever its impl stands."""
    module = module_of(file)
    place, body, item, indent, block, cycle, start, end = None, None, 0, "", None, None, 0, 0
    for line in text.split("\n"):
        begin, end = end, end + len(line) + 1
        block = BLOCK.match(line) or (block if line != "}" else None)
        in_cycle, started = re.match(r" *#\[cycle\((\w+)\)\]", line), FUNCTION.match(line)
        cycle = in_cycle[1] if in_cycle else cycle
        if started:
            indent, name = started[1] or "", started[2]
            owner, trait = block.group("type", "trait") if indent and block else (None, None)
            above = owner + re.sub(r".*::|[^A-Za-z0-9_]", "", trait or "") if owner else module
            place, body, item, cycle = Place(module, f"{above}::{name}".removeprefix("::"), cycle), None, start, None
        if place and body is None and re.match(rf"{indent}\S.*{{$|{indent}{{$", line):
            body = end
        elif place and body is not None and line == indent + "}":
            yield Function(place, item, body, begin, name, owner, trait)
            place = None
        if re.search(r"^$|[{}]$", line):
            start = end


def place_at(file, text, at):
    """What stands at an offset of a source: the body of a function, or one of the module's other items. A table that
    one function alone names counts as a part of its body."""
    functions = list(functions_of(file, text))
    begun = next((it for it in TABLE.finditer(text) if it.start() <= at < it.end()), None)
    naming = [it for it in functions if begun and re.search(rf"\b{begun[1]}\b", text[it.begin : it.end])]
    within = [it for it in functions if it.begin <= at < it.end] or naming
    return within[0].place if len(within) == 1 else Place(module_of(file), None, None)


def read_wrong_body(name, text, folder):
    """A wrong body from the text of its edit: lines `file: PATH`, and then pairs of `old: TEXT` and `new: TEXT`. It
    may change names in a file of answers too, where the wrong body gives a call of the right one another name."""
    changes, places, file, sources = [], set(), None, {}
    for path, old, new in re.findall(r"^file: (.*)|^old: (.*)\nnew:(?: (.*))?", text, re.M):
        file = path.strip() or file
        if not re.fullmatch(r"src/\S+\.rt|proofs/\S+/Answers\.antt", str(file)):
            sys.exit(f"{folder}: {name}: a wrong body stands in src/, and the names that it changes in a file of answers")
        if old:
            source = sources.get(file) or Path(folder, file).read_text()
            if source.count(old) != 1:
                sys.exit(f"{folder}: {name}: its old text stands {source.count(old)} times in {file}, and not once")
            changes.append((file, old, new))
            if file.startswith("src/"):
                places.add(place_at(file, source, source.index(old)))
            sources[file] = source.replace(old, new)
    return WrongBody(name, changes, places) if places else sys.exit(f"{folder}: {name}: it changes no body")


def wrong_bodies(folder, outside):
    """The wrong bodies of a crate: those that ./test tries, or the others."""
    texts = []
    for file in sorted(Path(folder).glob("wrong-bodies.edits" if outside else "must-fail/*.edit")):
        text = file.read_text()
        parts = re.split(r"^edit: ", text, flags=re.M)[1:] if outside else [f"{file.stem}\n{text}"]
        texts += (part.split("\n", 1) for part in parts)
    if len(dict(texts)) < len(texts):
        sys.exit(f"{folder}: two wrong bodies have one name")
    return [read_wrong_body(name.strip(), text, folder) for name, text in texts]


def sources_in(folder):
    """The sources of a crate, by their paths below it."""
    return {str(file.relative_to(folder)): file.read_text() for file in Path(folder).glob("src/**/*.rt")}


def own_functions(sources):
    """The functions that are no methods of a trait. Those of one source come from its end on. Those can have copies that
    neither are of a cycle nor call themselves."""
    types = {found[1]: module_of(file) for file, text in sources.items() for found in TYPE.finditer(text)}
    for file, text in sources.items():
        for it in reversed(list(functions_of(file, text))):
            if not it.trait and (not it.type or it.type in types):
                called_on = re.findall(rf"([\w.:]*)\b{it.name}\(", text[it.begin : it.end])
                # A field's method of the same name is another one.
                is_lone = not it.place.cycle and all(re.fullmatch(r"self\.\w+\.", on) for on in called_on)
                module = types[it.type] if it.type else it.place.module
                yield Own(file, it, [*filter(None, [*module.split("::"), it.type, it.name])], is_lone)


def name_of_copy(name, number):
    return f"{name}_copy{number}" if number else name


COPY = re.compile(r"_copy\d+$")


def first_batch(waiting, lone):
    """Wrong bodies of different functions and cycles, as many as there are; or one that stands in no function. Further
    ones of a function that can have copies, those of `lone`, stand in copies of it."""
    batch, taken = [], collections.Counter()
    for it in waiting:
        keys = {place.cycle or place.name for place in it.places}
        number = max(taken[key] for key in keys)
        can_copy = len(keys) == 1 and keys <= lone and all(file.startswith("src/") for file, *_ in it.changes)
        if None not in keys and (not number or can_copy):
            places = {place._replace(name=name_of_copy(place.name, number)) for place in it.places}
            batch.append(it._replace(places=places, copy=number))
            taken.update(keys)
    return batch or waiting[:1]


def add_copy(crate, lone, source, wrong, room):
    """Adds a copy of a function of this source behind it, with its proofs and with a wrong body in it."""
    file, it, path, _ = lone
    item = source[it.start : source.index("\n", it.end) + 1]
    *above, name = path
    copied = [*above, name_of_copy(name, wrong.copy)]
    text = re.sub(rf"\bfn {name}\b", f"fn {copied[-1]}", item, count=1)
    for _, old, new in wrong.changes:
        text = text.replace(old, new)
    beside = Path(room, file).read_text()
    end = next(found.end for found in functions_of(file, beside) if found.place.name == it.place.name)
    end = beside.index("\n", end) + 1
    Path(room, file).write_text(f"{beside[:end]}\n{text}{beside[end:]}")
    proofs, below = Path(room, "proofs"), f"Rattle.{crate}.proofs."
    if proofs.joinpath(*path).is_dir():
        shutil.copytree(proofs.joinpath(*path), proofs.joinpath(*copied))
    for proof in proofs.joinpath(*copied).glob("*"):
        proof.write_text(proof.read_text().replace(f"{below}{'.'.join(path)}.", f"{below}{'.'.join(copied)}."))


def copy_with(crate, batch, room):
    folder = f"{TOP}/crates/{crate}"
    for part in ("src", "specs", "proofs"):
        if os.path.isdir(f"{folder}/{part}"):
            shutil.copytree(f"{folder}/{part}", f"{room}/{part}")
    for it in [it for it in batch if not it.copy]:
        for file, old, new in it.changes:
            text = Path(room, file).read_text()
            if text.count(old) != 1:
                sys.exit(f"{file}: beside the others this stands {text.count(old)} times, and not once: {old}")
            Path(room, file).write_text(text.replace(old, new))
    sources = sources_in(folder)
    lone = [it for it in own_functions(sources) if it.is_lone]
    lone = {name_of_copy(it.function.place.name, body.copy): it for it in lone for body in batch}
    for it in [it for it in batch if it.copy]:
        (place,) = it.places
        add_copy(crate, lone[place.name], sources[lone[place.name].file], it, room)


def leave_out_bodies(crate, room, batch):
    """Makes functions of a copy never end that have no wrong body, and are lone or of a cycle without any, with a hole
    for the proof of each. What they state is left, which is all that the others know of them."""
    sources = sources_in(room)
    tried = {key for it in batch for place in it.places for key in (place.name, place.cycle)}
    own = list(own_functions(sources))
    others = {it for file, text in sources.items() for it in functions_of(file, text)} - {it.function for it in own}
    # A cycle that a method of a trait belongs to is left in whole.
    left_in = tried | {None} | {it.place.cycle for it in others}
    for file, it, path, is_lone in own:
        if it.place.name in tried or not is_lone and it.place.cycle in left_in:
            continue
        text = sources[file]
        # Without its body a function of a cycle calls no other.
        head = re.sub(r" *#\[cycle\(\w+\)\]\n", "", text[it.start : it.begin])
        sources[file] = f"{text[: it.start]}{head}loop {{}}\n{text[it.end :]}"
        folder = f"{room}/proofs/{'/'.join(path)}"
        shutil.rmtree(folder, ignore_errors=True)
        shutil.rmtree(f"{room}/proofs/{'/'.join(path[:-1])}/+{it.place.cycle}", ignore_errors=True)
        os.makedirs(folder)
        statement, name = ".".join(["Rattle", crate, "proofs", *path, "Statement"]), f"{path[-1]}_spec"
        proof = f"use {statement}.{{statement}}\n\npub {name} : {{M : Type 1}} → statement M\n{name} = ?\n"
        Path(folder, "Proof.antt").write_text(proof)
    for file, text in sources.items():
        Path(room, file).write_text(text)


# What a check of some functions, or of a whole crate, ends with once it has read all sources
ENDED = re.compile(r"^(?:only|logic)=", re.M)
UNREAD = re.compile(r"^(?:\./)?((?:src|specs)/\S+?):(\d+)(?::\d+)?: error.*", re.M)


def check(rtlib, crate, batch, kept, only_these):
    """Checks a copy of the crate with these wrong bodies, and returns what was printed, the names of those whose text
    can't be read, and of those that are left untried for it: where a text can't be read nothing is said of any.
    `only_these` says that the other functions' bodies are left out."""
    # What stands in no function, as a constant, is told by all functions of the crate.
    is_whole = any(not place.name for it in batch for place in it.places)
    modules = {} if is_whole else {place.name: place.module for it in batch for place in it.places}
    with tempfile.TemporaryDirectory() as room:
        copy_with(crate.name, batch, room)
        if only_these:
            leave_out_bodies(crate.name, room, batch)
        while True:
            words = crate.words(["--jobs", "1"], keeps=False) + (["--incremental", kept] if kept else [])
            words += ["--allow-holes"] * only_these + [word for name in modules for word in ("--only", name)]
            ran = tally.ended(rtlib.RATTLE, "check", *words, cwd=room, stderr=subprocess.STDOUT)
            # An impl for one instance of a generic type gives its methods longer names: all of the module is checked.
            unknown = re.search(r"has no function `(\S+)`", ran.out)
            if not unknown or not modules.get(unknown[1]):
                break
            modules[modules.pop(unknown[1])] = None
        # Status 0 says that all is proved, 1 that something isn't; any other that nothing was judged.
        if ran.status in (0, 1) and not UNREAD.search(ran.out) and ENDED.search(ran.out):
            return ran.out, set(), set()
        unread = unread_in(room, batch, ran.out)
        return ran.out, unread, {it.name for it in batch} - unread


def unread_in(room, batch, printed):
    """The wrong bodies of a check in whose functions a text can't be read; none where that is told of another place too."""
    places = set()
    for file, number in UNREAD.findall(printed):
        text = Path(room, file).read_text()
        places.add(place_at(file, text, sum(map(len, text.splitlines(keepends=True)[: int(number) - 1]))).name)
    found = {it.name for it in batch if places & {place.name for place in it.places if place.name}}
    own = {place.name for it in batch if it.name in found for place in it.places}
    return found if places <= own else set()


# What an answer is refused with that was tried at its goal: all else, as a name not in scope, says that it wasn't.
TRIED = re.compile(
    r"the two (?:types|values)|expected type|expected .*, but|no occurrence|no proof of|did not|does not|found no|list the missing equation|components but its type"
)
STALE = re.compile(r"has no (?:field|`)|not in scope|not admitted|is no name|cannot be named|unknown (?:name|module|field)|ambiguous|no module")


def stands_at(place, path):
    """Whether a function, or the cycle that it is in, is the one at this path below proofs/."""
    above, _, name = (place.name or "").rpartition("::")
    own = rf"(^|/){above.replace('::', '/')}(\+[^/]*)?/\+?{name}$" if above else rf"(^|/)\+?{name}$"
    return bool(name and re.search(own, path)) or place.cycle is not None and path.split("/")[-1] == f"+{place.cycle}"


REFUSED = re.compile(r"(?:\./)?proofs/(\S+)/(Answers|Proof|Invariants)\.antt:\S+ error: (?:`([^`]+)`: )?(.*)")
FALSE = re.compile(r"note: .*\(`([^`]+)`\); the facts known there allow values at which this goal is false")
UNPROVED = re.compile(r"`search` did not prove ((?:`[^`]+`(?:, )?)+)")


def read_output(printed, proofs):
    """What a check printed of functions and cycles that aren't proved, each with its path below proofs/: goals that
    were tried and aren't shown, by the prover's own search or by an answer in `proofs`, and other reasons."""
    goals, others, false = [], [], set()
    for line in printed.split("\n"):
        answer, ended, counterexample = REFUSED.match(line), re.match(r"fn \w+::(\S+): (.*)", line), FALSE.match(line)
        if answer:
            path, file, name, said = answer.groups()
            kept = Path(proofs, COPY.sub("", path), "Answers.antt")
            # What else a file of answers declares is a step on the way.
            answers = re.findall(r"^pub (\S+)\s*:\s*goal\.", kept.read_text(), re.M) if kept.exists() else []
            if file == "Answers" and name in answers and TRIED.search(said) and not STALE.search(said):
                goals.append((path, name))
            else:
                others.append((path, f"{file}: `{name}`: {said}"))
        elif counterexample:
            false.add(counterexample[1])
        elif ended:
            name, said = ended.groups()
            # Of a function in a cycle the answers stand in the folder of the cycle.
            file, unproved = re.search(r"expected answers in (?:\./)?proofs/(\S+)/Answers\.antt", said), UNPROVED.search(said)
            path = file[1] if file else name.replace("::", "/")
            if unproved:
                found = re.findall(r"`([^`]+)`", unproved[1])
                goals += [(path, f"{it}{' (false at some values)' * (it in false)}") for it in found]
            elif said.removesuffix(MAY_WAIT) not in ("proved", "no holes") and not said.startswith("depends on a hole"):
                others.append((path, said))
            false = set()
    return goals, others


def verdict_of(wrong, goals, others, printed):
    """The verdict on a wrong body from the goals and other reasons that a check told. There is none, with the lines
    that were printed of it, where all that is said of its function is that a callee isn't proved."""
    names = {place.name.rpartition("::")[2] for place in wrong.places if place.name}
    is_own = lambda path: any(stands_at(place, path) for place in wrong.places) or not names
    own = {}
    for path, goal in goals:
        # In a cycle of several functions a goal's name begins with that of its function.
        cycle = path.rpartition("/")[2].partition("+")[2]
        if is_own(path) and (cycle in {"", *names} or any(goal.startswith(f"{name}-") for name in names)):
            own[f"{goal} of {path}"] = None
    if own:
        return Verdict("refused", "; ".join(own))
    told = [f"{path}: {it}" for path, it in others if is_own(path)]
    ends = [said for name, said in re.findall(r"^fn \w+::(\S+): (.*)", printed, re.M) if is_own(name.replace("::", "/"))]
    if not told and ends and all(it.removesuffix(MAY_WAIT) == "proved" for it in ends):
        return Verdict("PROVED", "the contract lets it through")
    if any("it calls" not in it for it in told):
        return Verdict("UNDECIDED", "\n".join(told))
    elsewhere = [f"{path}: {it}" for path, it in goals + others]
    return Verdict(None, "\n".join(told or elsewhere or printed.rstrip("\n").split("\n")[-20:]))


def verdicts_on(batch, checked, proofs, left_out):
    """The verdicts that a check gives on some of the wrong bodies in it, by their names, from what `check` answers."""
    printed, unread, untried = checked
    goals, others = read_output(printed, proofs)
    found = {it.name: verdict_of(it, goals, others, printed) for it in batch}
    told = "\n".join([it[0] for it in UNREAD.finditer(printed)] or printed.rstrip("\n").split("\n")[-20:])
    found.update({name: Verdict("UNDECIDED", f"it can't be read\n{told}") for name in unread})
    found.update({name: Verdict(None, told) for name in untried})
    if len(batch) == 1 and not left_out:
        return {name: Verdict(it.kind or "UNDECIDED", it.reason) for name, it in found.items()}
    # A fault of a function that no wrong body stands in is the check's own, and then nothing is believed but what is unread.
    is_sound = all(any(stands_at(place, path) for it in batch for place in it.places) for path, _ in goals)
    is_told = lambda name, it: name in unread or is_sound and it.kind and (it.kind == "refused" or not left_out)
    return {name: it for name, it in found.items() if is_told(name, it)}


def judged(rtlib, crate, waiting, kept, is_seeded):
    """Gives the verdicts on all wrong bodies of a crate, each with its name, as they come."""
    left_out, alone = not is_seeded, False
    lone = {it.function.place.name for it in own_functions(sources_in(f"{TOP}/crates/{crate.name}")) if it.is_lone}
    while waiting:
        batch = waiting[:1] if alone else first_batch(waiting, lone)
        left_out = left_out and all(place.name for it in batch for place in it.places)
        # What is checked is only worth keeping where another check follows.
        is_last = len(batch) == len(waiting) and not os.path.exists(kept)
        checked = check(rtlib, crate, batch, None if is_last else kept, left_out)
        found = verdicts_on(batch, checked, f"{TOP}/crates/{crate.name}/proofs", left_out)
        yield from found.items()
        waiting = [it for it in waiting if it.name not in found]
        left_out, alone = left_out and bool(found), not (left_out or found)


def main():
    given, rtlib = tally.asked(__doc__, outside=False, all=False, over=TOP, names=()), kit()
    kinds, names = [False, True] if given.all else [given.outside], set(map(str, given.names))
    os.chdir(given.over)
    tasks = []
    for crate in rtlib.crates_below(os.getcwd()):
        bodies = [it for kind in kinds for it in wrong_bodies(f"{TOP}/crates/{crate.name}", kind)]
        bodies = [it for it in bodies if not names or names & {crate.name, f"{crate.name}/{it.name}"}]
        if bodies:
            tasks.append((crate, bodies))
            if given.over == TOP and any(below.build_rlib(["--jobs", "1"], anew=False) for below in crate.below()):
                sys.exit(f"{crate.name}: what it stands on isn't proved")
    counts = collections.Counter()

    def judge(task):
        # It begins with what `rt check` kept, if anything: then each check proves little more than what changed.
        (crate, bodies), kept = task, f"{room}/{task[0].name}"
        is_seeded = given.over == TOP and os.path.isdir(f"{crate.folder}/out/incremental")
        if is_seeded:
            shutil.copytree(f"{crate.folder}/out/incremental", kept)
        for name, verdict in judged(rtlib, crate, bodies, kept, is_seeded):
            said = verdict.reason.replace("\n", "\n    ")
            print(f"{crate.name}/{name}: {verdict.kind}: {said}", flush=True)
            counts[verdict.kind] += 1
        shutil.rmtree(kept, ignore_errors=True)

    lanes = int(os.environ.get("RT_JOBS") or len(os.sched_getaffinity(0)))
    with tempfile.TemporaryDirectory() as room, concurrent.futures.ThreadPoolExecutor(lanes) as pool:
        list(pool.map(judge, sorted(tasks, key=lambda it: -len(it[1]))))
    tally.end(counts["refused"], counts["UNDECIDED"] + counts["PROVED"])


if __name__ == "__main__":
    main()
