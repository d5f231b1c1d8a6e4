#!/usr/bin/env python3
"""Plants wrong bodies in a crate, and tells which of them its contracts refuse.

    tools/plant.py CRATE [WORD..]      tries the bugs of tests/planted/CRATE.txt, or those of the functions that a word names
    tools/plant.py --fit CRATE..       only says which bugs do not fit the code, and how many there are

A list has a line '@ FILE FUNCTION' for each function, and under it two lines for each bug, '- OLD' and '+ NEW'. The old text stands once in
the body of that function. A function is named as `power`, `Scalar::term` or `<From<BitsFault> for StateFault>::from`; an item without a
body, as a constant or an enum, by `const MOST` or `enum Refusal`.

The crate has to be proved first (`rt check`): each try is a check of a copy, over what that check kept in out/. The bugs are tried many
at a time, one in each function. One that is still proved, or shows nothing, is tried once more alone. The table goes to standard output,
and what happens meanwhile to standard error. What was tried is kept in out/planted.json, and not tried again while crate and libraries
stay the same.
"""
import collections
import concurrent.futures
import contextlib
import json
import os
import re
import shutil
import subprocess
import sys
import tempfile

TOP = os.path.dirname(os.path.dirname(os.path.realpath(__file__)))
sys.dont_write_bytecode = True
sys.path.insert(0, os.path.dirname(os.path.realpath(shutil.which("rt"))))
import rtlib  # noqa: E402  (the kit's own module, which knows the words of a check)

# How many checks run side by side.
SIDE_BY_SIDE = int(os.environ.get("CHECKS", "2"))

Bug = collections.namedtuple("Bug", "file function old new")
Place = collections.namedtuple("Place", "names start end")
Failure = collections.namedtuple("Failure", "goals written lost callees")


# ---- the lists

def bugs_of(crate):
    """The bugs of a crate's list, in its order."""
    found, file, function, old = [], None, None, None
    with open(f"{TOP}/tests/planted/{crate}.txt", encoding="utf-8") as lines:
        for line in lines:
            line = line.rstrip("\n")
            if line.startswith("@ "):
                _, file, function = line.split(" ", 2)
            elif line.startswith("- "):
                old = line[2:]
            elif line.startswith("+"):
                found.append(Bug(file, function, old, line[2:]))
    return found


# ---- functions in a source file

IMPL = re.compile(r"^(?:impl(?:<[^{]*?>)? (?:(?P<trait>[^{]+?) for )?|pub trait )(?P<type>\w+)", re.M)
FUNCTION = re.compile(r"^(?P<indent> *)(?:pub(?:\(crate\))? )?(?:final )?(?:extern \"C\" )?fn (?P<name>\w+)", re.M)
ITEM = re.compile(r"^(?:pub(?:\(crate\))? )?(?P<name>(?:const|enum|struct) \w+)", re.M)


def places_of(text):
    """The functions and items of a source file, by the names that a list may give them, and where their bodies stand."""
    for match in FUNCTION.finditer(text):
        body = body_of(text, match.start(), match["indent"])
        if body:
            yield Place(names_of(text, match), *body)
    for match in ITEM.finditer(text):
        end = re.compile(r"^\}|;$", re.M).search(text, match.end()).end()
        yield Place([match["name"]], match.start(), end)


def body_of(text, start, indent):
    """Where the body of a function stands that begins at a place: its brace opens at the function's own indent."""
    opened = re.compile(rf"^{indent}\{{$| \{{$|;$", re.M).search(text, start)
    if not opened or opened.group().endswith(";"):
        return None
    closed = re.compile(rf"^{indent}\}}", re.M).search(text, opened.end())
    return opened.end(), closed.start()


def names_of(text, match):
    """The names of a function: alone, or behind the type that it is a method of."""
    if not match["indent"]:
        return [match["name"]]
    impl = [it for it in IMPL.finditer(text, 0, match.start())][-1]
    names = [f"{impl['type']}::{match['name']}"]
    if impl["trait"]:
        names.append(f"<{impl['trait']} for {impl['type']}>::{match['name']}")
    return names


def planted(text, bug):
    """The text with the bug, or why it cannot be planted."""
    places = [it for it in places_of(text) if bug.function in it.names]
    if len(places) != 1:
        return None, f"{len(places)} functions have this name"
    start, end = places[0].start, places[0].end
    found = text[start:end].count(bug.old)
    if found != 1:
        return None, f"the old text is there {found} times"
    return text[:start] + text[start:end].replace(bug.old, bug.new) + text[end:], None


def read(crate, file):
    with open(f"{TOP}/crates/{crate}/{file}", encoding="utf-8") as it:
        return it.read()


def misfits(crate, bugs):
    """Each bug that cannot be planted, with the reason."""
    for bug in bugs:
        why = planted(read(crate, bug.file), bug)[1]
        if why:
            yield bug, why


# ---- rounds

def key_of(bug):
    """What tells the functions of one round apart."""
    return bug.function, "" if "::" in bug.function else bug.file


def rounds_of(bugs):
    """The bugs in rounds, one for each function in each; a bug in an item that is no function is alone."""
    rounds = []
    for bug in bugs:
        if is_item(bug):
            yield [bug]
            continue
        room = next((it for it in rounds if key_of(bug) not in it), None)
        if room is None:
            room = {}
            rounds.append(room)
        room[key_of(bug)] = bug
    yield from (list(it.values()) for it in rounds)


def is_item(bug):
    """Whether the bug is in a constant or a type, which all functions see."""
    return bug.function.startswith(("const ", "enum ", "struct "))


# ---- a check

def checked(crate, texts):
    """What a check says of a copy of the crate with these texts, over what the crate's own check kept."""
    with tempfile.TemporaryDirectory(prefix=f"plant-{crate.name}-") as room:
        for part in rtlib.PARTS:
            if os.path.isdir(f"{crate.folder}/{part}"):
                shutil.copytree(f"{crate.folder}/{part}", f"{room}/{part}")
        for file, text in texts.items():
            with open(f"{room}/{file}", "w", encoding="utf-8") as it:
                it.write(text)
        shutil.copytree(f"{crate.folder}/out/incremental", f"{room}/seed", copy_function=linked)
        words = [rtlib.RATTLE, "check", *crate.words(["--jobs", "1"], keeps=False), "--incremental", f"{room}/seed"]
        ran = subprocess.run(words, cwd=room, stdin=subprocess.DEVNULL, stdout=subprocess.PIPE, stderr=subprocess.STDOUT, errors="replace")
    return ran.stdout


def linked(one, other):
    """A second name for what was proved, and a copy of any other file."""
    return os.link(one, other) if one.endswith(".oantt") else shutil.copy2(one, other)


def texts_with(crate, bugs):
    """The files that the bugs change, as they are with them."""
    texts = {}
    for bug in bugs:
        text = texts.get(bug.file) or read(crate.name, bug.file)
        texts[bug.file] = planted(text, bug)[0]
    return texts


# ---- what a check says

NAMES = re.compile(r"has no field|is not in scope|has no `|was not admitted|is no name")
PROOF = re.compile(r"^(?:note: )?(?:\./)?proofs/(\S+)/(Answers|Invariants|Proof)\.antt:(\d+):\d+: error: (.*)")
FN = re.compile(r"^fn (\S+): (.*)")


def goal_at(crate, path, kind, line):
    """The goal whose written proof stands at a line of a proof file."""
    if kind == "Invariants":
        return "loop"
    with open(f"{crate.folder}/proofs/{path}/{kind}.antt", encoding="utf-8") as it:
        lines = it.read().split("\n")
    above = [re.search(r": goal\.(\S+)", it) for it in lines[: line]]
    below = [re.search(r": goal\.(\S+)", it) for it in lines[line:]]
    found = [it[1] for it in above if it][-1:] or [it[1] for it in below if it][:1]
    return found[0] if found else "returns"


def failures_of(crate, said):
    """By the check's name of each function that is not proved, what was not."""
    written, lost = collections.defaultdict(list), collections.defaultdict(list)
    for line in said.split("\n"):
        match = PROOF.match(line)
        if match:
            into = lost if NAMES.search(match[4]) else written
            into[match[1]].append(goal_at(crate, match[1], match[2], int(match[3])))
    failures, proved = {}, set()
    for line in said.split("\n"):
        match = FN.match(line)
        if match and match[2].startswith("proved"):
            proved.add(match[1])
        elif match:
            path = "/".join(match[1].split("::")[1:])
            failures[match[1]] = failure_of(match[2], written[path], lost[path])
    return failures, proved


def failure_of(said, written, lost):
    """What is said of one function: goals that the search did not prove, written proofs that do not fit, and callees not proved."""
    searched = re.search(r"`search` did not prove ([^;]*)", said)
    goals = re.findall(r"`([^`]+)`", searched[1]) if searched else []
    return Failure(goals, written, lost, "it calls" in said)


def is_of(name, bug, crate):
    """Whether the check's name of a function, or of a closure in it, is that of the function with the bug."""
    trait, own = re.match(r"(?:<(.*)>::)?(.*)", bug.function).groups()
    module = crate if bug.file in ("src/lib.rt", "src/main.rt") else os.path.basename(bug.file)[:-3]
    owner, function = [impl_name(trait), own] if trait else own.split("::") if "::" in own else [module, own]
    is_prefix = not trait and "::" in own
    parts = [it for it in re.split(r"::|\+\+", name) if it != "fn"]
    return any(two == function and (one.startswith(owner) if is_prefix else one == owner) for one, two in zip(parts, parts[1:]))


def impl_name(impl):
    """The check's name of an impl: `From<Option<Scalar>> for Answer` is AnswerFromOptionScalar, and type parameters are left out."""
    trait, owner = impl.split(" for ")
    signs = {"()": "Unit", "&": "Ref", "[": "Slice"}
    words = [signs.get(it, it[0].upper() + it[1:]) for it in re.findall(r"\w+|\(\)|&|\[", trait)]
    return owner.split("<")[0] + "".join(it for it in words if not re.fullmatch("[A-Z]", it))


# ---- verdicts

def kind_of(goal):
    """What kind of goal it is, in the words of the table."""
    clause = re.search(r"-clause-(\w+)", goal)
    if re.search(r"-requires", goal):
        return "a call's requires"
    if goal.startswith("returns"):
        return f"ensures `{clause[1]}`" if clause else "ensures"
    if goal.startswith("loop"):
        return "loop"
    if goal.startswith("invariant"):
        return "invariant"
    return "arithmetic and ranges"


def verdict_of(failures):
    """What refused a bug, with a star where only a written proof does not fit; None where it shows nothing, '' where nothing did."""
    goals = [it for failure in failures for it in failure.goals]
    written = [it for failure in failures for it in failure.written]
    lost = [it for failure in failures for it in failure.lost]
    if goals and not lost:
        return kind_of(goals[0])
    if written or goals:
        return kind_of((written or goals)[0]) + "*"
    if lost or any(not it.callees for it in failures):
        return None
    return ""


def tried(crate, bugs):
    """The verdict on each bug of a round, and what the check says besides."""
    said = checked(crate, texts_with(crate, bugs))
    if not re.search(r"^fn ", said, re.M):
        return alone_or_none(crate, bugs, said)
    failures, proved = failures_of(crate, said)
    verdicts, named = {}, set()
    for bug in bugs:
        own = {it for it in failures if len(bugs) == 1 or is_of(it, bug, crate.name)}
        named |= own
        verdicts[bug] = verdict_of([failures[it] for it in own])
        if not own and not any(is_of(it, bug, crate.name) for it in proved):
            tell(f"UNKNOWN: the check names no function for {bug.file} {bug.function}")
    for name, failure in failures.items():
        if name not in named and verdict_of([failure]) != "":
            tell(f"BESIDE: {name}: {failure}")
    return verdicts


def alone_or_none(crate, bugs, said):
    """The verdicts where the code does not compile: those of both halves, and nothing is shown by a bug alone."""
    if len(bugs) == 1:
        first = next((it for it in said.split("\n") if "error" in it), said[:300])
        tell(f"NO CODE: {bugs[0].function}: {bugs[0].old} -> {bugs[0].new}: {first[:300]}")
        return {bugs[0]: None}
    at = {(it[1], int(it[2])) for it in re.finditer(r"(src/\S+?\.rt):(\d+):\d+", said)}
    bad = [bug for bug in bugs if any(stands_at(crate, bugs, bug, *it) for it in at)] or bugs[: len(bugs) // 2]
    good = [it for it in bugs if it not in bad]
    verdicts = {}
    for part in ([[it] for it in bad] if good and len(bad) < 4 else [bad]) + ([good] if good else []):
        verdicts |= tried(crate, part)
    return verdicts


def stands_at(crate, bugs, bug, file, line):
    """Whether a line of a file with the bugs is one of the function with this bug."""
    if bug.file != file:
        return False
    text = texts_with(crate, [it for it in bugs if it.file == file])[file]
    place = next(it for it in places_of(text) if bug.function in it.names)
    return text.count("\n", 0, place.start) < line <= text.count("\n", 0, place.end) + 1


def tell(text):
    print(text, file=sys.stderr, flush=True)


# ---- the table

def shown(bug):
    """The function of a bug, as the table names it."""
    trait = re.match(r"<(From<.*|TryFrom<.*)>::\w+$", bug.function)
    if trait:
        return f"`{trait[1]}`"
    name = bug.function.split(" for ")[-1].replace(">::", "::") if bug.function.startswith("<") else bug.function
    module = os.path.basename(bug.file)[:-3]
    if is_item(bug):
        return f"a constant of `{module}`" if name.startswith("const") else f"numbers of `{name.split()[1]}`"
    return f"`{name}`" if "::" in name or module in ("lib", "main") else f"`{module}::{name}`"


def row(bug, verdict):
    old, new = (it.replace("|", "\\|") for it in (bug.old, bug.new))
    change = f"`{old}` → `{new}`" if new else f"`{old}` dropped"
    return f"| {shown(bug)} | {change} | {verdict or 'still proved'} |"


def counts(crate, bugs, verdicts):
    """The row of the table of counts."""
    given = [verdicts[it] for it in bugs]
    none, open_ = given.count(None), given.count("")
    starred = sum(1 for it in given if it and it.endswith("*"))
    refused = len(given) - none - open_
    functions = len({(it.file, it.function) for it in bugs if not is_item(it)})
    return f"| `{crate}` | {functions} | {len(given)} | {none} | {refused} | {refused - starred} | {starred} | {open_} |"


def main(words):
    if words[:1] == ["--fit"]:
        for name in words[1:]:
            bugs = bugs_of(name)
            for bug, why in misfits(name, bugs):
                print(f"{name}: {bug.file} {bug.function}: {bug.old}: {why}")
            print(f"{name}: {len(bugs)} bugs in {len({it[:2] for it in bugs})} functions")
        return 0
    crate = next(it for it in rtlib.crates_below(TOP) if it.name == words[0])
    bugs = [it for it in bugs_of(crate.name) if not words[1:] or any(word in it.function for word in words[1:])]
    bad = [it for it, _ in misfits(crate.name, bugs)]
    bugs = [it for it in bugs if it not in bad]
    verdicts = all_tried(crate, bugs)
    for bug in bugs:
        if verdicts[bug] is not None:
            print(row(bug, verdicts[bug]))
    print(counts(crate.name, bugs, verdicts))
    return len(bad)


def all_tried(crate, bugs):
    """The verdicts of all rounds; what is still proved, or shows nothing, is tried once more alone."""
    verdicts = kept(crate, bugs)
    final = set(verdicts)
    add_rounds(crate, rounds_of([it for it in bugs if it not in final]), verdicts, lambda it: verdicts[it])
    # (a proof file that cannot be read hides what is not proved in the callers of its function)
    add_rounds(crate, rounds_of([it for it in bugs if verdicts[it] == ""]), verdicts, lambda it: verdicts[it])
    add_rounds(crate, [[it] for it in bugs if not verdicts[it] and it not in final], verdicts, lambda it: True)
    for bug in bugs:
        if not verdicts[bug]:
            tell(f"{'STILL PROVED' if verdicts[bug] == '' else 'SHOWS NOTHING'}: {bug.file} {bug.function}: {bug.old} -> {bug.new}")
    return verdicts


def add_rounds(crate, rounds, verdicts, is_final):
    """Adds the verdicts of these rounds, of which the final ones are kept as each round ends."""
    rounds = list(rounds)
    with concurrent.futures.ThreadPoolExecutor(SIDE_BY_SIDE) as pool:
        for number, found in enumerate(pool.map(lambda it: tried(crate, it), rounds)):
            verdicts |= found
            keep(crate, {bug: verdict for bug, verdict in found.items() if is_final(bug)})
            tell(f"{crate.name}: round {number + 1} of {len(rounds)}")


def kept(crate, bugs):
    """The verdicts of earlier runs on this crate as it stands."""
    with contextlib.suppress(OSError, ValueError), open(f"{crate.folder}/out/planted.json", encoding="utf-8") as it:
        stamp, found = json.load(it)
        return {Bug(*bug): verdict for *bug, verdict in found if stamp == crate.stamp() and Bug(*bug) in bugs}
    return {}


def keep(crate, verdicts):
    """Keeps verdicts for later runs, beside those of bugs that this run does not try."""
    every = kept(crate, bugs_of(crate.name)) | verdicts
    with open(f"{crate.folder}/out/planted.json", "w", encoding="utf-8") as it:
        json.dump([crate.stamp(), [[*bug, verdict] for bug, verdict in every.items()]], it)


if __name__ == "__main__":
    sys.exit(main(sys.argv[1:]))
