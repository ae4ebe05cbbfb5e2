"""What a command did, as a record for scripts and as lines for a person."""
import collections

# `aside` is true if standard output has jobs, so that the result goes to standard error.
Result = collections.namedtuple("Result", "record lines aside", defaults=[False])


class BadUse(Exception):
    """Words of the command line that do not fit together."""


class Unfinished(Exception):
    """A command that ended before its work was done: why, and what it had done."""

    def __init__(self, fault, result):
        self.why, self.result = str(fault) or "interrupted", result
        super().__init__(self.why)


def jobs(count, state=""):
    """Returns a number of jobs in words."""
    return " ".join(filter(None, [str(count), state, "job" if count == 1 else "jobs"]))


def by_state(counts):
    """Returns the numbers of jobs by state in words, without states that have none."""
    return ", ".join(f"{count} {state}" for state, count in counts.items() if count)
