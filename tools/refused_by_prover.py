#!/usr/bin/env python3
"""Tries planted bugs that the prover has to refuse: the pages of crates/*/must-fail.

    tools/refused_by_prover.py [CRATE ..] [--gate] [--lanes N] [--beside LOG]

--gate: only those of must-fail/gate, which the gate tries. --beside: LOG is the output of an `rt ci` that runs meanwhile;
the bugs of a crate are tried once it says that the crates below are proved. It judges the crate itself.

A page has a line 'file: src/NAME.rt', and pairs of lines 'old: TEXT' and 'new: TEXT': a text that is in that file once,
and what replaces it.

`rt ci` tries an edit by a check of its whole crate, so a crate with edits is proved twice. Here a check is asked for the
edited functions only. The others are taken by their contracts: the copy that is checked has a hole for the proof of
each, since they are proved elsewhere. All edits of a crate that are in different functions are made together and read
from one check, which says of each function why it has no proof. If a function only calls another one that the same
check refused, that does not judge it: its edit goes into the next round, which begins from what this one checked. An
edit of no function, or one that no round can judge, is tried by a check of the crate with no holes.

A function that calls itself can't have a hole. So an edit in a function that reaches one, as each insertion into a tree
does, is tried by a proof of that function too. It takes minutes: keep such an edit out of must-fail/gate.

A function counts as refused if the check fails at a goal of its own. If it fails only because a file of proofs names
what the edit removed, the edit says nothing about the contract, and fails. So does one that can't be made or read.

The libraries below have to be built: by `tools/build --warm`, `rt check` or `rt ci`. The last line is 'N passed, M failed'.
"""
import argparse
import concurrent.futures
import dataclasses
import pathlib
import re
import shutil
import subprocess
import sys
import tempfile
import threading
import time

# Nothing is left behind beside these files.
sys.dont_write_bytecode = True

import crates  # noqa: E402
from crates import ROOT  # noqa: E402
from machine import PROCESSORS, TOOLCHAIN, free_memory  # noqa: E402

PARTS = ("src", "specs", "proofs")

# The memory that a check may take, in kB.
FOR_A_CHECK = 5_000_000

# The first line of an impl or a trait.
HEAD = re.compile(r"^(?:pub )?(impl\b[^{]*|trait \w+)", re.M)

# A proof that is left open.
HOLE = """use Rattle.{path}.Statement.{{statement}}

pub {name}_spec : {{M : Type 1}} → statement M
{name}_spec = ?
"""

# What the check says at a place in a proof file whose names are gone.
NAMES_GONE = re.compile(r"(\./)?proofs/.*(has no field|is not in scope|has no `|was not admitted)")


def library(name):
    """Returns the path of a built library."""
    return crates.folder(name) / "out" / "rlib" / f"{name}.rlib"


def check_of(name, uses):
    """Returns the words of a check of a crate over the built libraries, to be run in a folder with its sources."""
    words = [str(TOOLCHAIN / "bin" / "rattle"), "check", "--crate-name", name, "src/lib.rt"]
    needed = crates.below(name, uses)
    of_toolchain = {it for crate in (name, *needed) for it in uses[crate] if it not in uses} | {"std"}
    for it in sorted(of_toolchain):
        words += ["--extern", f"{it}={TOOLCHAIN}/rlibs/{it}.rlib"]
    words += ["-L", f"dependency={TOOLCHAIN}/rlibs"]
    for it in crates.ours(name, uses):
        words += ["--extern", f"{it}={library(it)}"]
    for it in needed:
        words += ["-L", f"dependency={library(it).parent}"]
    words += ["--antt-project", f"{TOOLCHAIN}/rattle/logic/antt-project.json"]
    return [*words, "--logic-built", f"{TOOLCHAIN}/logic_built", "--jobs", "1"]


def function_at(text, place):
    """Returns the function that a place of a source file is in, by its path within the file: `Tree::height`."""
    functions = [it for it in re.finditer(r"^([ ]*)(?:pub(?:\([^)]*\))? )?fn (\w+)", text, re.M) if it.start() <= place]
    if not functions:
        return None
    indent, function = functions[-1].groups()
    heads = [it for it in HEAD.finditer(text) if it.start() < functions[-1].start()]
    if not indent or not heads:
        return function
    return f"{type_of(heads[-1][1].partition(' where')[0].partition(chr(10) + 'where')[0])}::{function}"


def homes_of(folder):
    """Returns the modules of a crate that declare a type of each name: a method's path begins with the type's, wherever it stands."""
    found = {}
    for file in sorted((folder / "src").rglob("*.rt")):
        for name in re.findall(r"^[ ]*(?:pub(?:\([^)]*\))? )?(?:struct|enum) (\w+)", file.read_text(), re.M):
            found.setdefault(name, set()).add(module_of(file.relative_to(folder / "src")))
    return found


def module_of(file):
    """Returns the module of a file below src."""
    return file.with_suffix("").as_posix().replace("/", "::")


def functions_of(folder):
    """Yields the paths of the functions in a crate's sources, without those that a trait declares."""
    homes = homes_of(folder)
    for file in sorted((folder / "src").rglob("*.rt")):
        text = file.read_text()
        module = module_of(file.relative_to(folder / "src"))
        for found in re.finditer(r"^[ ]*(?:pub(?:\([^)]*\))? )?fn \w", text, re.M):
            heads = HEAD.findall(text[: found.start()])
            if not (heads and found[0].startswith(" ") and heads[-1].startswith("trait")):
                yield path_of(module, function_at(text, found.end()), homes)


def path_of(module, function, homes):
    """Returns the path in its crate of a function that stands in this module."""
    declared = homes.get(function.partition("::")[0], ()) if "::" in function else ()
    if len(declared) == 1:
        module = min(declared)
    return function if module == "lib" else f"{module}::{function}"


def type_of(head):
    """Returns the check's name for what a head begins: a type, a trait, or a trait of a type with the type first.

    Arguments of a type or of a trait that are no parameters of the impl are part of its name.
    """
    full = head.replace("->", "  ")
    while "<" in head:
        plain = re.sub(r"<[^<>]*>", "", head.replace("->", "  "))
        if plain == head:
            break
        head = plain
    names = re.findall(r"&|\[\w+\]|[A-Za-z_]\w*", head)
    words = [it for it in names if it not in ("impl", "trait")]
    if "for" in words:
        at = words.index("for")
        return "".join(it + arguments_of(it, full) for it in (words[at + 1], words[at - 1]))
    return words[0]


def arguments_of(name, head):
    """Returns the arguments of a type or a trait in the head of an impl, without the impl's parameters, as the check writes them."""
    parameters = re.findall(r"(?:^impl<|, )(\w+)", head[: head.find("> ") + 1]) if head.startswith("impl<") else []
    given = re.findall(rf"(?<!\w){re.escape(name)}<([^<>]*)>", head.removeprefix("impl"))
    found = [it.strip() for it in given[-1].split(",")] if given else []
    own = [it for it in found if not it.startswith("'") and it not in parameters]
    return "".join("Unit" if it == "()" else it[:1].upper() + it[1:] for it in own)


@dataclasses.dataclass(frozen=True)
class Edit:
    """A page: the file of the crate that it changes, and the texts that it replaces, in their order."""

    path: pathlib.Path
    file: str
    pairs: tuple

    @staticmethod
    def read(path):
        words = {"file": [], "old": [], "new": []}
        for line in path.read_text().splitlines():
            key, _, text = line.partition(":")
            if key in words:
                words[key].append(text.removeprefix(" "))
        return Edit(path, words["file"][0].strip(), tuple(zip(words["old"], words["new"], strict=True)))

    def name(self):
        return f"{self.path.relative_to(ROOT / 'crates').parts[0]}/{self.path.stem}"

    def made(self, text):
        """Returns the text with the edit made, or None if a text to be replaced is not in it exactly once."""
        for old, new in self.pairs:
            if text.count(old) != 1:
                return None
            text = text.replace(old, new)
        return text

    def function(self, text):
        """Returns the path of the function that it changes, without the crate: `tree::Tree::height`. None: a definition or a constant."""
        found = function_at(text, text.find(self.pairs[0][0])) if self.file.startswith("src/") else None
        module = module_of(pathlib.Path(self.file.removeprefix("src/")))
        homes = homes_of(crates.folder(self.path.relative_to(ROOT / "crates").parts[0]))
        return found and path_of(module, found, homes)


class Crate:
    """A copy of a crate in which edits are made and tried."""

    def __init__(self, name, folder, words):
        self.name, self.folder, self.words = name, pathlib.Path(folder) / name, words
        for part in PARTS:
            self.restore(part)
        self.kept = pathlib.Path(folder) / "kept"

    def restore(self, part):
        """Copies a folder of the crate from the repository again."""
        shutil.rmtree(self.folder / part, ignore_errors=True)
        if (crates.folder(self.name) / part).is_dir():
            shutil.copytree(crates.folder(self.name) / part, self.folder / part)

    def leave_holes(self, but):
        """Leaves a hole for the proof of each function, except for these and those that call themselves."""
        for function in functions_of(self.folder):
            at = self.folder / "proofs" / function.replace("::", "/")
            if function in but or (at.parent / f"+{at.name}").is_dir():
                continue
            at.mkdir(parents=True, exist_ok=True)
            for file in ("Answers.antt", "Invariants.antt"):
                (at / file).unlink(missing_ok=True)
            path = ".".join((self.name, "proofs", *function.split("::")))
            (at / "Proof.antt").write_text(HOLE.format(path=path, name=at.name))

    def together(self, edits):
        """Makes as many of the edits as are in different functions, and tries them. Returns a verdict for each that was made."""
        before, taken = {}, {}
        for edit in edits:
            path = self.folder / edit.file
            text = path.read_text()
            where, changed = edit.function(before.get(path, text)), edit.made(text)
            if where and changed is not None and where not in taken.values():
                before.setdefault(path, text)
                path.write_text(changed)
                taken[edit] = where
        if taken:
            self.leave_holes(set(taken.values()))
        output = self.check(taken.values()) if taken else ""
        for part in PARTS:
            self.restore(part)
        return {edit: self.verdict(output, where) for edit, where in taken.items()}

    def alone(self, edit):
        """Makes one edit and tries it by a check of the whole crate. Returns its verdict."""
        path = self.folder / edit.file
        text = path.read_text()
        changed = edit.made(text)
        if changed is None:
            return "NOT TRIED: a text of it is not in its file exactly once"
        path.write_text(changed)
        last = self.check(()).rstrip().rpartition("\n")[2]
        path.write_text(text)
        if last.startswith("logic=not-proved"):
            return "refused"
        return "LET THROUGH" if last.startswith("logic=proved") else f"NOT TRIED: {last[:200]}"

    def check(self, functions):
        """Returns the output of a check of these functions, which allows holes, or of the whole crate if there are none."""
        words = [*self.words, "--incremental", str(self.kept), *["--allow-holes"] * bool(functions)]
        for it in sorted(set(functions)):
            words += ["--only", it]
        ran = subprocess.run(words, cwd=self.folder, stdin=subprocess.DEVNULL, stdout=subprocess.PIPE, stderr=subprocess.STDOUT, text=True)
        return ran.stdout

    def verdict(self, output, function):
        """Returns the verdict of a check on a function: 'refused', what is wrong, or None if the output does not say."""
        path = re.escape(function).replace("::", r"::\+?")
        lines = re.findall(rf"^fn {self.name}::\+?{path}: (.*)$", output, re.M)
        if not lines or not re.search(r"^only=\d+ holes=\d+$", output, re.M):
            return None
        failed = [it for it in lines if not it.startswith(("no holes", "depends on a hole"))]
        if not failed:
            return "LET THROUGH"
        own = [it for it in failed if re.search("did not prove|antt refuses", it) or not re.search("it (calls|passes)|could not tell", it)]
        if not own:
            return None
        errors = [it for it in output.splitlines() if re.match(r"(\./)?proofs/\S*:\d+:\d+: error", it)]
        of_it = [it for it in errors if f"/{function.replace('::', '/')}/" in it.replace("+", "")]
        if of_it and all(NAMES_GONE.match(it) for it in of_it) and not any("did not prove" in it for it in own):
            return f"REFUSED FOR A NAME ALONE: {of_it[0][:160]}"
        return "refused"


class Proved:
    """The crates that an `rt ci` has proved so far, by its log. Many threads ask for most of its time, so the log is read when it has grown."""

    def __init__(self, log):
        self.log, self.lock, self.size, self.found, self.has_ended = log, threading.Lock(), -1, set(), False

    def read(self):
        """Returns the crates, and whether the `rt ci` has ended."""
        with self.lock:
            size = self.log.stat().st_size
            if size != self.size:
                lines = self.log.read_text(errors="replace").splitlines()
                self.size = size
                self.found = {it[1] for line in lines if (it := re.match(r"rt: (\w+) (proved$|is kept:)", line))}
                self.has_ended = any(re.match(r"\d+ passed, \d+ failed", it) for it in lines)
            return self.found, self.has_ended

    def waits_for(self, names):
        """Waits until these crates are proved, or the `rt ci` has ended. Returns whether they are proved."""
        while True:
            found, has_ended = self.read()
            if found.issuperset(names) or has_ended:
                return found.issuperset(names)
            time.sleep(2)


def tried(name, edits, words):
    """Tries the edits of one crate in rounds. Returns the verdict of each, and how many seconds it took."""
    begun, verdicts = time.monotonic(), {}
    with tempfile.TemporaryDirectory(prefix="edits-") as folder:
        crate, judged = Crate(name, folder, words), True
        while judged:
            found = crate.together([it for it in edits if it not in verdicts])
            judged = {edit: verdict for edit, verdict in found.items() if verdict}
            verdicts.update(judged)
        for edit in edits:
            if edit not in verdicts:
                verdicts[edit] = crate.alone(edit)
    return verdicts, time.monotonic() - begun


def in_turn(lanes, beside, below, name, *given):
    """Tries the edits of a crate when a lane is free and, beside an `rt ci`, once that has proved the crates below it."""
    if beside and not beside.waits_for(below):
        return {edit: "NOT TRIED: a crate below isn't proved" for edit in given[0]}, 0
    with lanes:
        while beside and free_memory() <= FOR_A_CHECK:
            time.sleep(1)
        return tried(name, *given)


def pages_of(chosen, in_gate):
    """Returns the edits of each crate that has some, the crate with the most lines first: it takes longest."""
    found = {}
    for folder in ROOT.glob("crates/*/must-fail"):
        paths = sorted(folder.glob("gate/*.md" if in_gate else "**/*.md"))
        if paths and (not chosen or folder.parent.name in chosen):
            found[folder.parent.name] = [Edit.read(it) for it in paths]
    return dict(sorted(found.items(), key=lambda it: -crates.lines(it[0], ".rt")))


def main():
    parser = argparse.ArgumentParser(description=__doc__, formatter_class=argparse.RawDescriptionHelpFormatter)
    parser.add_argument("crates", nargs="*")
    parser.add_argument("--gate", action="store_true", help="only those of must-fail/gate")
    parser.add_argument("--lanes", type=int, default=PROCESSORS, help="how many crates side by side")
    parser.add_argument("--beside", type=pathlib.Path, metavar="LOG", help="the output of an rt ci that runs meanwhile")
    words = parser.parse_args()
    uses, pages, passed, failed = crates.listed(), pages_of(words.crates, words.gate), 0, 0
    lanes, beside = threading.Semaphore(words.lanes), words.beside and Proved(words.beside)
    with concurrent.futures.ThreadPoolExecutor(len(pages) or 1) as pool:
        calls = {}
        for name, edits in pages.items():
            calls[pool.submit(in_turn, lanes, beside, crates.below(name, uses), name, edits, check_of(name, uses))] = name
        for call in concurrent.futures.as_completed(calls):
            verdicts, seconds = call.result()
            for edit, verdict in sorted(verdicts.items(), key=lambda it: it[0].name()):
                print(f"{edit.name()}: {verdict}")
                passed += verdict == "refused"
                failed += verdict != "refused"
            print(f"{calls[call]}: {len(verdicts)} edits, {seconds:.0f} s", flush=True)
    print(f"{passed} passed, {failed} failed")
    return 1 if failed else 0


if __name__ == "__main__":
    sys.exit(main())
