"""Processes the jobs of a tube one after the other, until none is left or it is interrupted. clear, move and dump share
it.
"""
from queue_client import Fault
from queue_client.reading import COUNTS
from queue_client.words import LARGEST_NUMBER

from .progress import Progress
from .results import Result, by_state, jobs


class Sweep:
    """Processes jobs in the given states. `done` counts them by state."""

    def __init__(self, asked):
        self.asked = asked
        self.done = dict.fromkeys(asked.state, 0)

    def count(self):
        """Returns how many jobs were processed."""
        return sum(self.done.values())

    def one(self, state):
        """Processes the first job of a state. Returns whether there was one."""
        raise NotImplementedError

    def all(self, word, total):
        """Processes all jobs. `word` and `total` are for the progress line.

        Each state is processed until it has no job, and then all are processed again until none has any, because a
        delayed job may have become ready meanwhile.
        """
        progress = Progress(word, total)
        try:
            while any([self._all_of(it, progress) for it in self.done]):
                pass
        finally:
            progress.end()

    def _all_of(self, state, progress):
        """Processes all jobs of a state. Returns whether there was one."""
        found = False
        while self.count() < self.asked.limit and self.one(state):
            found = True
            progress.at(self.count())
            if self.asked.interrupts.came:
                raise Fault("interrupted")
        return found


def delay_of(state, about):
    """Returns the delay for a put, so that the job is not ready too early. The server rounds `time-left` down."""
    return min(about["time-left"] + 1, LARGEST_NUMBER) if state == "delayed" else 0


def give_back(server, state, about, delay):
    """Brings a job that is reserved at a server back into its state. If the connection is lost, the server makes it
    ready."""
    try:
        if state == "buried":
            server.bury(about["id"], about["pri"])
        else:
            server.release(about["id"], about["pri"], delay)
    except Fault:
        pass


def planned(about, asked):
    """Returns how many jobs of each state there are to process, from the statistics of the tube."""
    plan = {}
    for state in asked.state:
        plan[state] = min(about[COUNTS[state]], asked.limit - sum(plan.values()))
    return plan


def told(asked, word, counts, about, to=""):
    """Returns what was deleted or moved, or would be, and how many reserved jobs stay, if that is known."""
    count = sum(counts.values())
    reserved = about[COUNTS["reserved"]] if about else None
    verb = {"deleted": "would delete", "moved": "would move", "dumped": "would dump"}[word] if asked.dry_run else word
    line = f"{verb} {jobs(count)} of {asked.tube}{to}" + (f": {by_state(counts)}" if count else "")
    if reserved:
        line += f"; {jobs(reserved, 'reserved')} {'stays' if reserved == 1 else 'stay'}"
    record = {"tube": asked.tube, "dry_run": asked.dry_run, word: count, **counts, "reserved": reserved}
    return Result(record, [line])
