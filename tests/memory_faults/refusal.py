"""Runs a program in which chosen allocations fail."""
import itertools
import os
import subprocess

MOST_RUNS = 5000


class Host:
    """The library that makes allocations fail, and a folder for its report."""

    def __init__(self, library, folder):
        self.library = library
        self.told = f"{folder}/told"

    def environment(self, **chosen):
        """Returns the environment of a run, and clears the report. chosen: at, from_, every, later, accepts."""
        open(self.told, "wb").close()
        named = {f"REFUSE_{it.strip('_').upper()}": str(value) for it, value in chosen.items()}
        # One arena, so that libc's own allocations for a thread are the same in each run.
        return {**os.environ, **named, "LD_PRELOAD": self.library, "REFUSE_TOLD": self.told, "MALLOC_ARENA_MAX": "1"}

    def was_refused(self):
        """Returns true if an allocation of the last run failed."""
        return os.path.getsize(self.told) > 0


class Program:
    """A program with that library, and the words with which each of its runs starts."""

    def __init__(self, path, host, *first):
        self.path, self.host, self.first = os.path.abspath(path), host, first

    def run(self, words, given, **chosen):
        """Runs the program on standard input: status, standard output, standard error. A hang has the status None."""
        try:
            ran = subprocess.run([self.path, *self.first, *words], input=given, capture_output=True, timeout=10, env=self.host.environment(**chosen))
        except subprocess.TimeoutExpired as late:
            return None, late.stdout or b"", late.stderr or b""
        return ran.returncode, ran.stdout, ran.stderr


def each_in_turn(run):
    """Calls run(N) for N = 1, 2, .. until one in which no allocation failed.

    run returns whether an allocation failed, and what is wrong or None. The result is the number of runs, and the first
    wrong one.
    """
    for nth in itertools.count(1):
        refused, wrong = run(nth)
        if wrong:
            return nth, f"request {nth}: {wrong}"
        if not refused:
            return nth, None
        if nth == MOST_RUNS:
            return nth, "requests without end"
