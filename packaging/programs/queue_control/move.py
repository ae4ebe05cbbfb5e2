"""The command move: moves the jobs of a tube to another server or to another tube, without losing any.

Each job is reserved at the source, put at the target, and deleted at the source, in this order. So if a move is
interrupted, a job is at the source or at both places, and never at neither. A buried job is put at the target with the
longest delay, so that no worker gets it before it is buried there too.
"""
import collections
import enum
import secrets
import time

from queue_client import Fault, Refused, Server
from queue_client.words import LARGEST_NUMBER

from .results import BadUse, Result, Unfinished, jobs
from .show import tube_of
from .sweep import Sweep, delay_of, give_back, planned, told


class Step(enum.Enum):
    """How far the current job is."""

    NONE = "there is no current job"
    RESERVED = "it is reserved here, or is about to be"
    SENT = "it was sent there, and no answer has come"
    COPIED = "it is there, and here too unless its deletion was carried out"


# A job that stays: its state, its statistics, and when its delay ends and its lease is to be renewed, by this clock.
Held = collections.namedtuple("Held", "state about due renew")


class Stays:
    """The jobs that the target does not take.

    A server shows only the first job of a state. So a job that stays has to be out of the way of those after it: a
    buried one goes to the end of the buried jobs, and any other one is held reserved until the move ends.
    """

    def __init__(self, source):
        self.source, self.ids, self.buried, self.held = source, [], set(), {}

    def add(self, state, about):
        """Keeps a job, which is reserved, out of the way."""
        self.ids.append(about["id"])
        if state == "buried":
            self.buried.add(about["id"])
            give_back(self.source, state, about, 0)
        else:
            self.held[about["id"]] = Held(state, about, time.monotonic() + delay_of(state, about), self._renew_at(about))

    @staticmethod
    def _renew_at(about):
        return time.monotonic() + about["ttr"] / 2

    def __contains__(self, job_id):
        return job_id in self.buried or job_id in self.held

    def again(self, job_id):
        """Puts a job that was met again out of the way again."""
        if self.source.reserve_job(job_id) and job_id in self.buried:
            self.source.bury(job_id, self.source.job(job_id)["pri"])

    def renew(self):
        """Renews the leases of the jobs that are held, before they end."""
        for job_id in [it for it, held in self.held.items() if held.renew <= time.monotonic()]:
            self.source.touch(job_id)
            self.held[job_id] = self.held[job_id]._replace(renew=self._renew_at(self.held[job_id].about))

    def end(self):
        """Brings the jobs that are held back into their states."""
        for it in self.held.values():
            left = max(0, round(it.due - time.monotonic())) if it.state == "delayed" else 0
            give_back(self.source, it.state, it.about, left)
        self.held = {}


class Move(Sweep):
    """Moves jobs. `doubled` has pairs of ids of jobs that may be at both places: the id at the source, and the one at
    the target if it is known."""

    def __init__(self, source, target, asked):
        super().__init__(asked)
        self.source, self.target = source, target
        self.doubled, self.step, self.about, self.copy = [], Step.NONE, None, None
        self.stays = Stays(source)

    def one(self, state):
        job = self._next(state)
        if not job:
            return False
        about = self.source.job(job.id)
        # A worker may have got it since it was seen.
        if about and (about["state"], about["tube"]) == (state, self.asked.tube):
            self.about, self.copy, self.step = about, None, Step.RESERVED
            held = self.source.reserve_job(job.id)
            if held:
                self._move(state, held.body)
            self.step = Step.NONE
        return True

    def _next(self, state):
        """Returns the first job of a state that does not stay here, or None."""
        self.stays.renew()
        met = 0
        while True:
            job = self.source.peek(state)
            if not job or job.id not in self.stays:
                return job
            # Once all buried jobs that stay were met in a row, there are no others.
            met += 1
            if state == "buried" and met > len(self.stays.buried):
                return None
            self.stays.again(job.id)

    def _move(self, state, body):
        """Moves a job that is reserved at the source. If that fails, the job is released, and recorded if it may be at
        both places."""
        try:
            self._copy(state, body)
            if self.source.delete(self.about["id"]):
                self.done[state] += 1
            elif not self.target.delete(self.copy):
                # Its time to run expired at the source and a worker got it, and another worker got the copy.
                self.ends()
        except Refused as fault:
            if fault.word == b"JOB_TOO_BIG" and self.asked.skip_refused:
                self.stays.add(state, self.about)
                return
            self._give_back(state)
            if fault.why and self.step == Step.RESERVED:
                raise Fault(f"{self.target.name} refused job {self.about['id']} of {self.source.name}: {fault.why}") from None
            raise
        except Fault:
            self.ends()
            self._give_back(state)
            raise

    def _copy(self, state, body):
        """Puts the job at the target, and brings it into the state that it has at the source."""
        self.step = Step.SENT
        delay = LARGEST_NUMBER if state == "buried" else delay_of(state, self.about)
        try:
            self.copy = self.target.put(self.about["pri"], delay, self.about["ttr"], body)
        except Refused:
            self.step = Step.RESERVED
            raise
        self.step = Step.COPIED
        if state == "buried":
            self.target.reserve_job(self.copy)
            self.target.bury(self.copy, self.about["pri"])

    def _give_back(self, state):
        give_back(self.source, state, self.about, delay_of(state, self.about))

    def ends(self):
        """Finishes the current job, and records it if it may be at both places."""
        if self.step in (Step.SENT, Step.COPIED):
            self.doubled.append((self.about["id"], self.copy))
        self.step = Step.NONE


def is_same(source, target):
    """Returns true if both are the same server: a tube that one connection uses exists for the other."""
    name = f"bqctl-{secrets.token_hex(16)}"
    source.use(name)
    return target.tube(name) is not None


def move(source, asked):
    """Moves the jobs of a tube that are in the given states."""
    address, to_tube = asked.to
    to_tube = to_tube or asked.tube
    about = tube_of(source, asked.tube)
    target = Server(*(address or asked.server), asked.timeout)
    if to_tube == asked.tube and is_same(source, target):
        raise BadUse(f"{to_tube} of {target.name} is the tube itself")
    work = Move(source, target, asked)
    plan = planned(about, asked)
    if asked.dry_run:
        return result_of(work, plan, about, to_tube)
    source.use(asked.tube)
    target.use(to_tube)
    try:
        try:
            work.all("moved", sum(plan.values()))
        except Fault:
            work.stays.end()
            raise
        work.stays.end()
        about = source.tube(asked.tube)
    except (Fault, KeyboardInterrupt) as fault:
        # A second signal ends the work at once, wherever it is.
        work.ends()
        raise Unfinished(fault, result_of(work, work.done, None, to_tube)) from None
    result = result_of(work, work.done, about, to_tube)
    if work.doubled:
        raise Unfinished("workers got jobs meanwhile", result)
    if work.stays.ids:
        raise Unfinished(f"{target.name} refused {jobs(len(work.stays.ids))}", result)
    return result


def result_of(work, counts, about, to_tube):
    """Returns what was moved or would be, which jobs may be at both places, and which were refused."""
    record, lines, _ = told(work.asked, "moved", counts, about, f" to {to_tube} of {work.target.name}")
    doubled = [{"source": here, "target": there} for here, there in work.doubled]
    stay = [f"job {it} of {work.source.name} stays: it is larger than {work.target.name} takes" for it in work.stays.ids]
    return Result({**record, "doubled": doubled, "refused": work.stays.ids},
                  [*lines, *(may_be_doubled(work, *it) for it in work.doubled), *stay])


def may_be_doubled(work, here, there):
    """Returns a sentence that says that a job may be at both places."""
    copy = f"as job {there} of {work.target.name}" if there else f"at {work.target.name}, which gave no id"
    return f"job {here} of {work.source.name} may be doubled, {copy}"
