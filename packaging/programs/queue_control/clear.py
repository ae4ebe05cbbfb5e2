"""The command clear: deletes the jobs of a tube."""
import sys

from queue_client import Fault

from .results import Unfinished, by_state, jobs
from .show import tube_of
from .sweep import Sweep, planned, told


class Clear(Sweep):
    """Deletes jobs. The next job is requested together with the deletion of the previous one."""

    def __init__(self, server, asked):
        super().__init__(asked)
        self.server, self.next = server, {}

    def one(self, state):
        job = self.next.pop(state, None) or self.server.peek(state)
        if not job:
            return False
        deleted, self.next[state] = self.server.delete_and_peek(job.id, state)
        self.done[state] += deleted
        return True


def is_sure(question, asked):
    """Asks a person at a terminal. It is a fault if the answer is no; without a terminal, or with --yes, there is no
    question."""
    if asked.yes or not (sys.stdin.isatty() and sys.stderr.isatty()):
        return
    with asked.interrupts.at_once():
        sys.stderr.write(f"{question} [y/N] ")
        sys.stderr.flush()
        answer = sys.stdin.readline()
    if answer.strip().lower() not in ("y", "yes"):
        raise Fault("nothing was deleted")


def clear(server, asked):
    """Deletes the jobs of a tube that are in the given states."""
    about = tube_of(server, asked.tube)
    plan = planned(about, asked)
    if asked.dry_run:
        return told(asked, "deleted", plan, about)
    is_sure(f"delete {jobs(sum(plan.values()))} of {asked.tube} at {server.name}: {by_state(plan) or 'none now'}?", asked)
    server.use(asked.tube)
    work = Clear(server, asked)
    try:
        work.all("deleted", sum(plan.values()))
        return told(asked, "deleted", work.done, server.tube(asked.tube))
    except (Fault, KeyboardInterrupt) as fault:
        raise Unfinished(fault, told(asked, "deleted", work.done, None)) from None
