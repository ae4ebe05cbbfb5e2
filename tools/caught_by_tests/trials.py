"""The trials of programs with a planted bug, and which parts of them fail."""
import os
import re
import signal
import subprocess
import sys

from machine import TOOLCHAIN

# The end of the name of a crate of tests.
TEST = "_tests"

# How long a trial may take, in seconds. A program that hangs counts as caught.
LIMIT = 600

# What fails if no part of a trial does.
AS_A_WHOLE = "(as a whole)"
DID_NOT_END = "(did not end)"
WHOLE = {AS_A_WHOLE, DID_NOT_END}


class Trial:
    """A command over built programs. In the first group of the pattern is the name of a part that failed."""

    def __init__(self, name, pattern, needs, words, takes_names=False):
        self.name, self.pattern, self.needs, self.words = name, re.compile(pattern, re.M), needs, words
        self.takes_names = takes_names

    def failed(self, root, programs, names=()):
        """Returns the parts that fail, or the trial as a whole if it names none and does not end well."""
        # A whole name, and not each name that has it as a part.
        chosen = [f"run_{it}" for it in sorted(names) if it not in WHOLE] if self.takes_names else []
        try:
            status, output = ended([*self.words(programs), *chosen], root)
        except subprocess.TimeoutExpired:
            return {DID_NOT_END}
        found = set(self.pattern.findall(output))
        return found or ({AS_A_WHOLE} if status else set())


def ended(words, root):
    """Returns the status and the output of a command. One that takes too long is killed with all that it started."""
    streams = {"stdin": subprocess.DEVNULL, "stdout": subprocess.PIPE, "stderr": subprocess.DEVNULL}
    with subprocess.Popen(words, cwd=root, text=True, errors="replace", start_new_session=True, **streams) as process:
        try:
            output, _ = process.communicate(timeout=LIMIT)
        except subprocess.TimeoutExpired:
            os.killpg(process.pid, signal.SIGKILL)
            raise
    return process.returncode, output


def over(folder, *names):
    """Returns a call that gives the words of a test program, with the built programs as --bq PATH."""
    return lambda programs: [sys.executable, folder, *(it for name in names for it in (f"--{name}", str(programs[name])))]


def trials(tests):
    """Returns the trials in their order, the quickest first. `tests` are the crates with tests of the changed one."""
    # The longest test takes 15 seconds of a processor without a proof, and a minute and more on a busy computer.
    runner = [TOOLCHAIN / "bin/rattle-test", "--seconds", "300"]
    return [
        Trial("runs", r"^FAILED \w+\.run_(\w+)(?: \(\S+\))?:", ["bq", "bqd"], over("tests/runs", "bq", "bqd"), takes_names=True),
        *(Trial(it, r"^test (\S+) \.\.\. FAILED", [it], lambda built, it=it: [*runner, built[it]]) for it in tests),
        Trial(
            "memory_faults", r"^(.+): \d+ runs, (?!well$)", ["bq", "bqd", "bq_serve_tests"],
            lambda built: [*over("tests/memory_faults", "bq", "bqd")(built), "--library", built["bq_serve_tests"]],
        ),
        Trial(
            "model", r"^(.+): FAILED,", ["bq", "bqd"],
            lambda built: [*over("tests/model", "bq", "bqd")(built), "--one-in", "10"],
        ),
    ]


def tests_of(crate, needs):
    """Returns the lowest crate of tests that needs this one, and the highest, whose tests go through whole programs."""
    found = [name for name in needs if name.endswith(TEST) and crate in needs[name]]
    return list(dict.fromkeys([*found[:1], *found[-1:]]))
