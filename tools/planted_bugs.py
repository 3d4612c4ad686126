#!/usr/bin/env python3
"""Plants the bugs of tools/planted_bugs/*.bug in a copy of the repository, one at a time, and says what sees each.

    tools/planted_bugs.py [NAME..]           run bugs, by label (host/offer_never_kept) or by crate
    tools/planted_bugs.py --list [NAME..]    only list them
    tools/planted_bugs.py --table            the results so far, as a Markdown table

Verdicts: `refused`, a fact is not proved; `tests only`, all is proved and a test or a program's run differs;
`passed`, nothing sees the bug; `unfit`, the edit does not build or a written proof no longer fits it, which says
nothing, so such a bug is to be reworded. The file of results (--results FILE; results.jsonl beside the bugs) has one JSON
object to a line, the newest of a label counting, so that a campaign can be run in pieces; --new leaves out the bugs that
have a result. Run `rt all check` first: rt begins in the copy with what that kept, and is then much faster.

A file CRATE.bug has the bugs of one crate. Each is four lines `bug: LABEL`, `sort: ..`, `in: PUBLIC FUNCTION`, `file: ..`,
then a line `old:`, the text to replace, which must stand once in that file, a line `new:`, the new text, and a line `end`.
"""

import argparse
import collections
import contextlib
import datetime
import json
import pathlib
import re
import shutil
import subprocess
import sys
import tempfile
import time

ROOT = pathlib.Path(__file__).resolve().parent.parent
BUGS = ROOT / "tools" / "planted_bugs"
FIELDS = ("bug", "sort", "in", "file")
COPIED = ("crates", "crates.txt")
VERDICTS = ("refused", "tests only", "passed", "unfit")

Bug = collections.namedtuple("Bug", "label crate sort function file old new")
Verdict = collections.namedtuple("Verdict", "word detail")

# What the prover prints. A fact that fails stands in a note about a source, or in an error of a written proof: there
# what is to be shown is another fact than the proof shows. Any other error of a proof is of its names or its form.
# The invariants of a type are one fact where they are all asked for, and of that the note says that no proof was found.
FACT = re.compile(r"^note: (\S+\.rt:\d+):\d+: (?:it is not proved that |(?=`search` found no proof ))(.*)")
BUILD = re.compile(r"^(\S+\.rt:\d+):\d+: error(?:\[([\w-]+)\])?: (.*)")
PROOF = re.compile(r"^(\S+\.antt:\d+):\d+: error: (.*)")
FALSE = re.compile(r"no proof of|does not follow|two types (first )?differ|: expected type|give a proof of that")
BLAMED = re.compile(r"^(?:fn|impl|struct) (\S+): (?:not proved$|no proof: expected)")

# What is printed only where all is proved: that a program starts, and that a test fails.
RUN = re.compile(r"^(?:rt: running |test result: FAILED)", re.M)


# ---- the bugs

def field(lines, name):
    """The text of one 'name: text' line, which comes next."""
    line = lines.popleft()
    head, _, text = line.partition(": ")
    if head != name:
        sys.exit(f"expected '{name}: ..' and found '{line}'")
    return text


def block(lines, first, last):
    """The lines between two lines, joined."""
    if lines.popleft() != first:
        sys.exit(f"expected a line '{first}'")
    taken = []
    while lines[0] != last:
        taken.append(lines.popleft())
    return "\n".join(taken)


def read_bugs(path):
    """The bugs of one file, which has the name of their crate."""
    lines = collections.deque(path.read_text().splitlines())
    crate = path.stem
    while lines:
        if not lines[0] or lines[0].startswith("#"):
            lines.popleft()
            continue
        label, sort, function, file = (field(lines, name) for name in FIELDS)
        old = block(lines, "old:", "new:")
        new = block(lines, "new:", "end")
        lines.popleft()
        yield Bug(f"{crate}/{label}", crate, sort, function, file, old, new)


def all_bugs():
    order = list(dependencies(ROOT))
    files = sorted(BUGS.glob("*.bug"), key=lambda path: order.index(path.stem))
    bugs = [bug for path in files for bug in read_bugs(path)]
    doubled = [label for label, n in collections.Counter(bug.label for bug in bugs).items() if n > 1]
    if doubled:
        sys.exit(f"labels that stand twice: {', '.join(doubled)}")
    return bugs


def chosen(bugs, names):
    """The bugs of these labels and crates; all if none is named."""
    known = {bug.label for bug in bugs} | {bug.crate for bug in bugs}
    unknown = [name for name in names if name not in known]
    if unknown:
        sys.exit(f"neither a label nor a crate with bugs: {', '.join(unknown)}")
    return [bug for bug in bugs if not names or bug.label in names or bug.crate in names]


# ---- the crates

def dependencies(root):
    """The crates in the order of crates.txt, each with what it is built on."""
    found = {}
    for line in (root / "crates.txt").read_text().splitlines():
        name, colon, rest = line.partition("#")[0].partition(":")
        if colon:
            found[name.split()[0]] = rest.split()
    return found


def above(root, crate):
    """The crates built on one, directly or not, the lowest first."""
    deps = dependencies(root)
    reached = {crate}
    grew = True
    while grew:
        more = {name for name, built_on in deps.items() if reached & set(built_on)} - reached
        grew = bool(more)
        reached |= more
    return [name for name in deps if name in reached and name != crate]


def is_program(root, crate):
    return (root / "crates" / crate / "src" / "main.rt").exists()


def has_runs(root, crate):
    """Whether a crate is a program or a crate of tests."""
    return crate.endswith("_tests") or is_program(root, crate)


# ---- the copy

def copy_to(folder):
    """A copy of what the prover reads, without what rt has kept."""
    listed = subprocess.run(["git", "ls-files", "-z", *COPIED], cwd=ROOT, stdout=subprocess.PIPE, text=True, check=True)
    for name in listed.stdout.split("\0")[:-1]:
        (folder / name).parent.mkdir(parents=True, exist_ok=True)
        shutil.copy2(ROOT / name, folder / name)


def forget(folder, bug):
    """Forgets what was proved with a bug in place."""
    for name in [bug.crate, *above(folder, bug.crate)]:
        shutil.rmtree(folder / "crates" / name / "out", ignore_errors=True)


@contextlib.contextmanager
def planted(folder, bug):
    """The bug is in the copy while this lasts."""
    path = folder / "crates" / bug.crate / bug.file
    text = path.read_text()
    if text.count(bug.old) != 1:
        sys.exit(f"{bug.label}: its old text stands {text.count(bug.old)} times in {bug.file}, and must stand once")
    path.write_text(text.replace(bug.old, bug.new))
    try:
        yield
    finally:
        path.write_text(text)


# ---- the prover and what it says

def rt(folder, crate, word):
    """One run of rt in a crate of the copy: whether it ended well, and all that it printed."""
    run = subprocess.run(["rt", word], cwd=folder / "crates" / crate, stdin=subprocess.DEVNULL,
                         stdout=subprocess.PIPE, stderr=subprocess.STDOUT, text=True, errors="replace")
    return run.returncode == 0, run.stdout


def rt_run(folder, crate):
    """The same of a program, which is to print the crate's stdout of its stdin."""
    at = folder / "crates" / crate
    with (at / "stdin").open("rb") as given:
        run = subprocess.run(["rt", "run"], cwd=at, stdin=given, stdout=subprocess.PIPE, stderr=subprocess.PIPE)
    good = run.returncode == 0 and run.stdout == (at / "stdout").read_bytes()
    return good, run.stderr.decode(errors="replace")


def tail(where):
    """A file and line below the crate that they stand in."""
    return re.sub(r"^\./", "", where)


def short(text, room=110):
    """The beginning of a message, on one line and without what would break a table."""
    text = " ".join(text.split()).replace("|", "/")
    return text if len(text) <= room else text[:room] + ".."


def clauses(at, where):
    """The labels of the `ensures` of the function around a line of a source of a crate."""
    path, _, line = where.rpartition(":")
    lines = (at / path).read_text().splitlines()
    start = int(line) - 1
    while start > 0 and not re.search(r"\bfn \w+", lines[start]):
        start -= 1
    labels = []
    for text in lines[start + 1:]:
        if text.strip() == "{":
            break
        labels += re.findall(r"^\s*ensures (\w+) \{", text)
    return ", ".join(labels)


def clause_at(at, where):
    """The clause that a line of a written proof is about, if it begins with its label."""
    path, _, line = where.rpartition(":")
    text = (at / path).read_text().splitlines()[int(line) - 1]
    label = re.match(r"\s*(\w+) = ", text)
    return f" clause {label.group(1)}:" if label else ""


def shown_otherwise(text):
    """An error of a written proof in few words."""
    need, _, said = text.partition(": ")
    if said.startswith(("expected type", "give a proof of that")):
        said = "what is to be shown is not what the written proof shows"
    return f"{short(said)} ({need.strip('`')})"


def fact_of(at, where, text):
    """A failed fact in few words: what is not proved, and the name that the prover has for that place."""
    what, _, rest = text.partition(" (`")
    name = rest.partition("`")[0]
    if what == "what the function ensures holds when it returns":
        what = f"ensures {clauses(at, where)}".strip()
    return f"{short(what)} ({name})" if name else short(what)


def blamed(log):
    """The function that the first failed fact belongs to."""
    names = [found.group(1) for found in map(BLAMED.match, log.splitlines()) if found]
    return names[0].split("::", 1)[-1] if names else ""


def judged(at, log):
    """The verdict of a log of the crate in a folder, in which not all is proved."""
    lines = log.splitlines()
    builds = [found for found in map(BUILD.match, lines) if found]
    facts = [found for found in map(FACT.match, lines) if found]
    proofs = [found for found in map(PROOF.match, lines) if found]
    false = [found for found in proofs if FALSE.search(found.group(2))]
    if builds:
        where, code, text = builds[0].groups()
        return Verdict("unfit", f"{tail(where)}: {code or 'error'}: {short(text)}")
    if facts:
        return Verdict("refused", f"{blamed(log)}, {tail(facts[0].group(1))}: {fact_of(at, *facts[0].groups())}")
    if false:
        where, text = false[0].groups()
        return Verdict("refused", f"{blamed(log)}, {tail(where)}:{clause_at(at, where)} {shown_otherwise(text)}")
    if proofs:
        return Verdict("unfit", f"{tail(proofs[0].group(1))}: {short(proofs[0].group(2))}")
    return Verdict("unfit", short(lines[-1] if lines else "rt printed nothing"))


def run_differs(crate, log):
    """What a log says of a run that failed, if it has one: the program, or the first test that failed."""
    if not RUN.search(log):
        return None
    test = re.search(r"^test (\S+) \.\.\. FAILED", log, re.M)
    return f"{crate}: {test.group(1) if test else 'its run'}"


def tried(folder, crate):
    """One try of a crate: a program is run, the tests of a crate of tests are, and any other crate is checked."""
    if is_program(folder, crate):
        return rt_run(folder, crate)
    return rt(folder, crate, "test" if has_runs(folder, crate) else "check")


def seen_above(folder, bug, keep):
    """The verdict on a bug with which its own crate is still proved."""
    higher = above(folder, bug.crate)
    libraries = [name for name in higher if not has_runs(folder, name)]
    runs = [name for name in [bug.crate, *higher] if has_runs(folder, name)]
    for name in libraries + runs:
        good, log = tried(folder, name)
        keep(log)
        if good:
            continue
        differs = run_differs(name, log)
        if differs:
            return Verdict("tests only", differs)
        verdict = judged(folder / "crates" / name, log)
        return Verdict(verdict.word, f"above, in {name}: {verdict.detail}")
    return Verdict("passed", "")


def try_bug(folder, bug, keep):
    with planted(folder, bug):
        good, log = rt(folder, bug.crate, "check")
        keep(log)
        verdict = seen_above(folder, bug, keep) if good else judged(folder / "crates" / bug.crate, log)
    if good:
        forget(folder, bug)
    return verdict


# ---- results

def keeper(logs, bug):
    """What takes each log of a bug: a file in the folder `logs`, if there is one."""
    if not logs:
        return lambda log: None
    logs.mkdir(parents=True, exist_ok=True)
    path = logs / f"{bug.label.replace('/', '-')}.log"
    path.write_text("")

    def keep(log):
        with path.open("a") as out:
            out.write(log)
    return keep


def run_bugs(folder, bugs, results, logs):
    for bug in bugs:
        began = time.monotonic()
        verdict = try_bug(folder, bug, keeper(logs, bug))
        took = round(time.monotonic() - began, 1)
        print(f"{bug.label} | {bug.crate} | {verdict.word} | {verdict.detail} | {took} s", flush=True)
        line = {"label": bug.label, "verdict": verdict.word, "detail": verdict.detail, "seconds": took}
        with results.open("a") as out:
            out.write(json.dumps(line) + "\n")


def read_results(path):
    """The newest result of each label."""
    if not path.exists():
        return {}
    lines = [json.loads(line) for line in path.read_text().splitlines()]
    return {line["label"]: line for line in lines}


def date():
    today = datetime.date.today()
    return f"{today.day} {today:%B %Y}"


def print_table(bugs, results):
    run = [(bug, results[bug.label]) for bug in bugs if bug.label in results]
    counts = collections.Counter(line["verdict"] for _, line in run)
    total = ", ".join(f"{counts[word]} {word}" for word in VERDICTS if counts[word])
    print(f"{len(run)} of {len(bugs)} bugs run on {date()}: {total}.\n")
    print("| bug | sort | crate and function | verdict |")
    print("|---|---|---|---|")
    for bug, line in run:
        detail = f": {line['detail']}" if line["detail"] else ""
        print(f"| `{bug.label}` | {bug.sort} | `{bug.crate}`, `{bug.function}` | {line['verdict']}{detail} |")


def options():
    parser = argparse.ArgumentParser(description=__doc__.splitlines()[0])
    parser.add_argument("names", nargs="*", help="labels or crates; all if none is given")
    parser.add_argument("--list", action="store_true", help="only list the bugs")
    parser.add_argument("--table", action="store_true", help="write the results as a Markdown table")
    parser.add_argument("--results", type=pathlib.Path, default=BUGS / "results.jsonl",
                        help="the file of results, one JSON object to a line")
    parser.add_argument("--new", action="store_true", help="leave out the bugs that have a result")
    parser.add_argument("--logs", type=pathlib.Path, help="a folder that gets the prover's log of each bug")
    return parser.parse_args()


def main():
    given = options()
    bugs = chosen(all_bugs(), given.names)
    if given.list:
        for bug in bugs:
            print(f"{bug.label} | {bug.sort} | {bug.function}")
        return
    results = read_results(given.results)
    if given.table:
        print_table(bugs, results)
        return
    todo = [bug for bug in bugs if not (given.new and bug.label in results)]
    with tempfile.TemporaryDirectory(prefix="planted-") as folder:
        copy_to(pathlib.Path(folder))
        run_bugs(pathlib.Path(folder), todo, given.results, given.logs)


if __name__ == "__main__":
    main()
