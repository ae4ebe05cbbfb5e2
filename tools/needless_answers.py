#!/usr/bin/env python3
"""Lists the answers in crates/*/proofs that the prover finds by itself.

    tools/needless_answers.py CRATE ..

It checks a copy of each crate without any answers, gives back those whose goals are not proved, and goes on until the crate
is proved. Then it prints what is still left out, a file a line. The first check takes as long as the crate's first proof,
and up to half a minute more for each goal that needs its answer; those after it take what has changed.

An answer may stay all the same: where the search takes more than a few seconds, or where the answer tells a reader why the
goal holds.

The libraries below have to be built, as for tools/refused_by_prover.py. The last line is 'N of M answers are found by the
search'.
"""
import argparse
import pathlib
import re
import shutil
import subprocess
import sys
import tempfile

# Nothing is left behind beside these files.
sys.dont_write_bytecode = True

import crates  # noqa: E402
from refused_by_prover import PARTS, check_of  # noqa: E402

# The first line of an answer, with its goal.
ANSWER = re.compile(r"^pub (\S+) : goal\.", re.M)

# What the check says of a function with goals that it could not prove.
UNPROVED = re.compile(r"^fn .*: no proof: expected answers in \S*/(proofs/\S+/Answers\.antt); `\w+` did not prove ([^;\n]*)", re.M)


class Answers:
    """A file of answers: what stands before them, and each by its goal. None is in use at first."""

    def __init__(self, text):
        self.head, *found = re.split(r"^(?=pub \S+ : goal\.)", text, flags=re.M)
        self.by_goal = {ANSWER.match(it)[1]: it for it in found}
        self.used = set()

    def use(self, unproved):
        """Takes back the answers for these goals: for a goal itself, for a clause of it, or for all clauses at once."""
        for goal in self.by_goal:
            if any(goal == it or it.startswith(f"{goal}-clause-") or goal.startswith(f"{it}-clause-") for it in unproved):
                self.used.add(goal)

    def write(self, path):
        """Writes the answers that are in use. Without any there is no file."""
        path.unlink(missing_ok=True)
        if self.used:
            path.write_text(self.head + "".join(text for goal, text in self.by_goal.items() if goal in self.used))

    def spare(self):
        """Returns the goals of the others."""
        return [it for it in self.by_goal if it not in self.used]


def without_needless(name):
    """Returns the files of answers of a crate by their paths in it, with the answers in use that its proof needs."""
    with tempfile.TemporaryDirectory(prefix="needless-") as folder:
        copy = pathlib.Path(folder) / name
        for part in PARTS:
            if (crates.folder(name) / part).is_dir():
                shutil.copytree(crates.folder(name) / part, copy / part)
        files = {it.relative_to(copy).as_posix(): Answers(it.read_text()) for it in sorted(copy.rglob("Answers.antt"))}
        words = [*check_of(name, crates.listed()), "--incremental", f"{folder}/kept"]
        while True:
            for path, answers in files.items():
                answers.write(copy / path)
            ran = subprocess.run(words, cwd=copy, stdin=subprocess.DEVNULL, stdout=subprocess.PIPE, stderr=subprocess.STDOUT, text=True)
            if re.search(r"^logic=proved", ran.stdout, re.M):
                return files
            before = sum(len(it.used) for it in files.values())
            for path, goals in UNPROVED.findall(ran.stdout):
                if path in files:
                    files[path].use(re.findall(r"`([^`]+)`", goals))
            if sum(len(it.used) for it in files.values()) == before:
                sys.exit(f"{name}: no verdict: {ran.stdout.rstrip().rpartition(chr(10))[2][:200]}")


def main():
    parser = argparse.ArgumentParser(prog="tools/needless_answers.py", description=__doc__.partition("\n")[0])
    parser.add_argument("names", metavar="CRATE", nargs="+", choices=list(crates.listed()), help="the crates to check")
    total = needless = 0
    for name in parser.parse_args().names:
        for path, answers in without_needless(name).items():
            spare = answers.spare()
            total, needless = total + len(answers.by_goal), needless + len(spare)
            if spare:
                print(f"{name}/{path}: {' '.join(spare) if answers.used else 'all'}", flush=True)
    print(f"{needless} of {total} answers are found by the search")


if __name__ == "__main__":
    main()
