"""Tries planted bugs that no contract refuses: a test of the programs has to fail for each.

    python3 tools/caught_by_tests [--only WORD] [--jobs N] [--alone] [--proofs] [FILE ..]
    python3 tools/caught_by_tests --applies

A planted bug is a file tools/caught_by_tests/CRATE/NAME.edit: a file of the crate, texts in it, and what replaces them,
as in a must-fail edit. A text that is in the file more than once has a line `after: TEXT` before it, a text that is there
once. tools/caught_by_tests/ends.txt says how each bug ends:

    test TRIAL PART       this part of a trial fails for it each time
    sometimes TRIAL PART  this part fails for it now and then
    clause                a contract refuses it by now
    allowed WHY           no user and no contract is harmed
    beyond WHY            no test can show it
    untried TRIAL PART    this is meant to fail for it, and was not seen to fail yet

Each program is built once with all bugs, and without a proof (unproved.py); each run of it chooses a bug (chosen.py). A
bug outside of the bodies of functions gets a build of its own. With --alone each bug does, as one needs to find the bug
that does not compile.

Then tests/runs, the tests of the crate, tests/memory_faults and a part of tests/model are run until one fails, and before
them the part that ends.txt names. A part counts if it fails each time with the bug, and never without it, in tries by
turns: on a busy computer tests that wait can fail by themselves.

With --proofs the check of its crate is asked about each bug first, over the work that is kept in out/, and only what it
lets through is tried by tests. With FILEs these edits are tried and no others. They may be those of
crates/NAME/must-fail, if a check has let one through; such an edit ends in 'clause' unless ends.txt says otherwise.

Run it by hand, and before a release. The last line is 'N as expected, M otherwise'. The status is 1 if a bug ends
otherwise than ends.txt says: it is newly refused or newly passes, no longer applies, or was untried. It is 2 for bad
words, and if nothing could be judged.

With --applies nothing is built: each bug has to apply and to have one end in ends.txt, and each end a bug. The gate does
so. The last line is then 'N passed, M failed'.
"""
import argparse
import concurrent.futures
import pathlib
import shutil
import subprocess
import sys
import tempfile
import threading

# Nothing is left behind beside these files.
sys.dont_write_bytecode = True
sys.path.insert(1, str(pathlib.Path(__file__).resolve().parent.parent))

import chosen  # noqa: E402
import crates  # noqa: E402
import refused_by_prover  # noqa: E402
import unproved  # noqa: E402
from crates import ROOT  # noqa: E402
from machine import PROCESSORS  # noqa: E402
from plants import HERE, Plant, listed_ends  # noqa: E402
from trials import tests_of, trials  # noqa: E402

# How often a part that failed is tried again, with and without the bug in turn.
TURNS = 2

# How often a part that fails now and then is tried.
SOMETIMES = 12


def copied(to):
    """Copies the sources, without what was built, to a folder. Returns the folder."""
    shutil.copytree(ROOT, to, ignore=shutil.ignore_patterns(".git", "out"))
    return to


class NotBuilt(Exception):
    """A program with a planted bug that the toolchain did not build."""


class NothingToJudgeBy(Exception):
    """A program with all planted bugs that the toolchain did not build."""


class Builds:
    """The programs of a copy, each built when it is first used."""

    def __init__(self, root, folder, fault, objects=()):
        self.root, self.folder, self.fault, self.objects = root, folder, fault, objects
        self.built, self.lock = {}, threading.Lock()

    def __getitem__(self, name):
        with self.lock:
            if name not in self.built:
                to = self.folder / name
                output = unproved.build(name, self.root, to, self.objects)
                if output is not None:
                    raise self.fault(f"{name} can't be built: {output.strip()[-300:]}")
                self.built[name] = to
        return self.built[name]


class Chosen:
    """Programs with all bugs, of which each run has the one with this number: their paths have it."""

    def __init__(self, builds, number):
        self.builds, self.folder = builds, builds.folder / f"plant-{number}"

    def __getitem__(self, name):
        built = self.builds[name]
        with self.builds.lock:
            self.folder.mkdir(exist_ok=True)
            path = self.folder / name
            if not path.exists():
                path.hardlink_to(built)
        return path


class Either:
    """The programs that a change of a crate changes, and others in place of those that it does not."""

    def __init__(self, changed, changes, unchanged):
        self.changed, self.changes, self.unchanged = changed, changes, unchanged

    def __getitem__(self, name):
        return (self.changed if self.changes(name) else self.unchanged)[name]


class Judge:
    """Programs that have all planted bugs that can be chosen. Those with a bug are judged beside those without."""

    def __init__(self, folder, plants, needs):
        self.folder, self.needs = folder, needs
        self.root = copied(folder / "all")
        self.numbers = chosen.made(self.root, plants)
        which = folder / "chosen.o"
        subprocess.run(["cc", "-O2", "-c", "-fPIC", "-o", which, HERE / "chosen.c"], check=True)
        self.builds = Builds(self.root, folder, NothingToJudgeBy, [which])
        self.sound = Chosen(self.builds, 0)

    def found_end(self, plant):
        """Returns how a bug ends: 'test ..', 'sometimes ..', 'passes', or why it can't be tried."""
        def changes(name):
            return plant.crate in self.needs[name]

        if plant.name in self.numbers:
            return self.end_among(plant, self.root, Chosen(self.builds, self.numbers[plant.name]), changes)
        with tempfile.TemporaryDirectory(dir=self.folder) as folder:
            root = copied(pathlib.Path(folder) / "copy")
            if not plant.made_in(root):
                return "does not apply"
            built = Builds(root, pathlib.Path(folder), NotBuilt)
            return self.end_among(plant, root, Either(built, changes, self.sound), changes)

    def end_among(self, plant, root, programs, changes):
        """Returns how a bug ends that these programs have."""
        try:
            for trial, names in in_order(plant, trials(tests_of(plant.crate, self.needs))):
                if not any(map(changes, trial.needs)):
                    continue
                if names and plant.fails_sometimes():
                    if self.fails_now_and_then(trial, root, programs, names):
                        return f"sometimes {trial.name} {', '.join(sorted(names))}"
                    continue
                failed = self.failed(trial, root, programs, names)
                if failed and failed >= names:
                    return f"test {trial.name} {', '.join(sorted(failed))}"
        except NotBuilt as it:
            return str(it)
        return "passes"

    def failed(self, trial, root, programs, names):
        """Returns the parts that fail each time with the bug, and never without it."""
        left = trial.failed(root, programs, names)
        for _ in range(TURNS):
            if left:
                left -= self.fails_without(trial, left)
            if left:
                left &= trial.failed(root, programs, left)
        return left

    def fails_now_and_then(self, trial, root, programs, names):
        """Returns true if these parts fail at least once with the bug, and never without it."""
        times = 0
        for _ in range(SOMETIMES):
            times += trial.failed(root, programs, names) >= names
            if self.fails_without(trial, names):
                return False
        return times > 0

    def fails_without(self, trial, names):
        """Returns those parts that fail with no bug."""
        known = trial.failed(self.root, self.sound, names) & names
        for part in sorted(known):
            print(f"not counted, since it fails with no bug: {trial.name} {part}", flush=True)
        return known


def in_order(plant, of_crate):
    """Returns the trials, each with the parts to run: the part that is expected to fail comes first, then all."""
    name, part = plant.expected_trial()
    return [*((it, {part}) for it in of_crate if it.name == name), *((it, set()) for it in of_crate)]


def is_expected(plant, found):
    """Returns true if a bug ends as ends.txt says: the same part of a trial fails, or none if it is allowed."""
    kind = plant.end.split(" ")[0]
    if kind in ("test", "sometimes"):
        name, part = plant.expected_trial()
        before, _, parts = found.partition(f"{kind} {name} ")
        return not before and part in parts.split(", ")
    if kind == "clause":
        return found == "refused"
    return kind in ("allowed", "beyond") and found == "passes"


def tried_by_proof(plants, jobs):
    """Yields each bug with the verdict of the check of its crate."""
    uses = crates.listed()
    with concurrent.futures.ThreadPoolExecutor(jobs) as pool:
        calls = {}
        for crate in sorted({it.crate for it in plants}):
            edits = {it: refused_by_prover.Edit.read(it.path) for it in plants if it.crate == crate}
            call = pool.submit(refused_by_prover.tried, crate, list(edits.values()), refused_by_prover.check_of(crate, uses))
            calls[call] = edits
        for call in concurrent.futures.as_completed(calls):
            verdicts, _ = call.result()
            yield from ((it, verdicts[edit]) for it, edit in calls[call].items())


def counted(plants_found):
    """Prints how each bug ends. Returns how many end as ends.txt says, and how many otherwise."""
    counts = {True: 0, False: 0}
    for plant, found in plants_found:
        right = is_expected(plant, found)
        news = "" if right else f", but ends.txt says: {plant.end}"
        if not right and found in ("passes", "refused"):
            news = f" NEWLY{news}"
        print(f"{plant.name}: {found}{news}", flush=True)
        counts[right] += 1
    return counts[True], counts[False]


def all_found(plants, words):
    """Yields each bug with how it ends, as that is found."""
    rest = [it for it in plants if words.files or not it.end.startswith("clause")]
    if words.proofs:
        rest = []
        for plant, verdict in tried_by_proof(plants, words.jobs):
            if verdict == "LET THROUGH":
                rest.append(plant)
            else:
                yield plant, verdict
    if not rest:
        return
    uses = crates.listed()
    with tempfile.TemporaryDirectory(prefix="caught-") as folder:
        needs = {name: crates.with_needs([name], uses) for name in uses}
        judge = Judge(pathlib.Path(folder), [] if words.alone else rest, needs)
        with concurrent.futures.ThreadPoolExecutor(words.jobs) as pool:
            left = {pool.submit(judge.found_end, it): it for it in rest}
            for ended in concurrent.futures.as_completed(left):
                yield left[ended], ended.result()


def what_is_wrong(plants, ends):
    """Yields what is wrong with the bugs and ends.txt, as far as it shows without a build."""
    for plant in plants:
        path = plant.path_in(ROOT)
        if not path.is_file() or plant.spans(path.read_text()) is None:
            yield f"{plant.name}: does not apply"
        if plant.end == "none":
            yield f"{plant.name}: ends.txt has no end for it"
        name, part = plant.expected_trial()
        if name == "runs" and not is_run(part):
            yield f"{plant.name}: tests/runs has no run {part}"
    names = {it.name for it in plants}
    yield from (f"{name}: no planted bug has this name" for name in ends if name not in names)


def is_run(name):
    """Returns true if tests/runs has a run of this name."""
    return any(f"def run_{name}(" in it.read_text() for it in (ROOT / "tests/runs").glob("*_runs.py"))


def applies(plants, ends):
    """Prints what is wrong, and how many bugs are right. Returns the status of the program."""
    wrong = list(what_is_wrong(plants, ends))
    print(*wrong, f"{len(plants) - len({it.partition(':')[0] for it in wrong})} passed, {len(wrong)} failed", sep="\n")
    return 1 if wrong else 0


def parsed():
    """Returns the parser of the command line, and what it found."""
    parser = argparse.ArgumentParser(prog="tools/caught_by_tests", description=__doc__, formatter_class=argparse.RawDescriptionHelpFormatter)
    parser.add_argument("files", metavar="FILE", nargs="*", type=pathlib.Path, help="edits to try in place of those of tools/caught_by_tests")
    parser.add_argument("--only", metavar="WORD", default="", help="the bugs that have this word in their names, as bq_line/ or nodelay")
    parser.add_argument("--jobs", type=int, metavar="N", default=PROCESSORS, help="how many bugs are tried side by side")
    parser.add_argument("--alone", action="store_true", help="build each bug by itself")
    parser.add_argument("--proofs", action="store_true", help="ask the check of its crate about each bug first, over work that is kept in out/")
    parser.add_argument("--applies", action="store_true", help="build nothing: see that each bug applies and has an end")
    words = parser.parse_args()
    if words.jobs < 1:
        parser.error("--jobs takes a number from 1 on")
    for it in words.files:
        if not it.is_file():
            parser.error(f"no file {it}")
    return parser, words


def main():
    parser, words = parsed()
    ends = listed_ends()
    plants = [Plant(it.resolve(), ends) for it in words.files or sorted(HERE.glob("*/*.edit"))]
    # Those that a test is expected to catch first: they take the shortest time.
    plants = sorted((it for it in plants if words.only in it.name), key=lambda it: it.expected_trial()[0] is None)
    if not plants:
        parser.error(f"no planted bug has {words.only!r} in its name")
    if words.applies:
        return applies(plants, ends)
    try:
        right, wrong = counted(all_found(plants, words))
    except NothingToJudgeBy as it:
        print(f"tools/caught_by_tests: with no bug {it}", file=sys.stderr)
        return 2
    print(f"{right} as expected, {wrong} otherwise")
    return 1 if wrong else 0


if __name__ == "__main__":
    sys.exit(main())
