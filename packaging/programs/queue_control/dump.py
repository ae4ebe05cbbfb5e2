"""The command dump: moves the jobs of tubes to standard output, as lines of JSON that load puts again.

Up to a hundred jobs are reserved at the server, written, brought to the disk, and deleted at the server, in this order.
So if a dump is interrupted, a job is at the server or at both places, and never at neither.
"""
import base64
import contextlib
import json
import os
import stat
import sys
import time

from queue_client import Fault, said

from .results import BadUse, Result, Unfinished
from .show import tube_of
from .sweep import Sweep, delay_of, give_back, planned, told

# How many jobs, how many bytes of lines, and for how many seconds jobs are held before they are written.
MOST_HELD, MOST_BYTES, LONGEST = 100, 1 << 20, 0.3


class Output:
    """Standard output: a file, or a pipe. `is_written` is true if it may have something of the last bytes."""

    def __init__(self, number):
        self.number, self.is_written = number, False
        self.is_file = stat.S_ISREG(os.fstat(number).st_mode)

    def write(self, data):
        """Writes bytes, and brings them to the disk. If that fails, a file becomes as it was."""
        size = os.fstat(self.number).st_size
        self.is_written = True
        try:
            left = memoryview(data)
            while left:
                left = left[os.write(self.number, left):]
            if self.is_file:
                os.fsync(self.number)
        except BaseException:
            if self.is_file:
                self._shorten(size)
            raise

    def _shorten(self, size):
        with contextlib.suppress(OSError):
            os.ftruncate(self.number, size)
            os.lseek(self.number, size, os.SEEK_SET)
            self.is_written = False


class Dump(Sweep):
    """Dumps the jobs of a tube. `held` has those that are reserved, by id: state, statistics and line. `doubled` has the
    ids of those that may be at the server and in the output."""

    def __init__(self, source, output, asked):
        super().__init__(asked)
        self.source, self.output = source, output
        self.held, self.size, self.since, self.doubled = {}, 0, 0.0, []

    def count(self):
        return super().count() + len(self.held)

    def one(self, state):
        job = self.source.peek(state)
        # If a job is seen again, its time to run has ended. It is deleted now, unless a worker gets it.
        if not job or job.id in self.held:
            self.settle()
        else:
            self._hold(state, job.id)
            if self._is_enough() or self.count() >= self.asked.limit:
                self.settle()
        return job is not None

    def _hold(self, state, job_id):
        about = self.source.job(job_id)
        # A worker may have got it since it was seen.
        if not about or (about["state"], about["tube"]) != (state, self.asked.tube):
            return
        job = self.source.reserve_job(job_id)
        if job:
            line = line_of(state, about, job.body)
            self.since = self.since if self.held else time.monotonic()
            self.held[job_id] = state, about, line
            self.size += len(line)

    def _is_enough(self):
        return len(self.held) >= MOST_HELD or self.size >= MOST_BYTES or time.monotonic() - self.since > LONGEST

    def settle(self):
        """Writes the jobs that are held, and then deletes them at the server."""
        if not self.held:
            return
        try:
            self.output.write(b"".join(line for _, _, line in self.held.values()))
        except OSError as fault:
            raise Fault(f"cannot write: {said(fault)}") from None
        for job_id, (state, _, _) in list(self.held.items()):
            if self.source.delete(job_id):
                self.done[state] += 1
            else:
                # Its time to run ended, and a worker got it.
                self.doubled.append(job_id)
            del self.held[job_id]
        self.output.is_written, self.size = False, 0

    def ends(self):
        """Gives back the jobs that are held after a fault, and records those that were written."""
        if self.output.is_written:
            self.doubled += self.held
        for state, about, _ in self.held.values():
            give_back(self.source, state, about, delay_of(state, about))
        self.held = {}


def line_of(state, about, body):
    """Returns a job as a line."""
    told = {"tube": about["tube"], "id": about["id"], "state": state, "priority": about["pri"],
            "delay": delay_of(state, about), "ttr": about["ttr"], "body": base64.b64encode(body).decode()}
    return json.dumps(told).encode() + b"\n"


def dump(source, asked):
    """Dumps the jobs of tubes that are in the given states."""
    if sys.stdout.isatty() and not asked.dry_run:
        raise BadUse("dump deletes the jobs that it writes: redirect its output to a file")
    output, results = Output(sys.stdout.fileno()), []
    names = sorted(source.tubes()) if asked.all else asked.tubes
    for asked.tube in names:
        # A tube may be gone since it was listed.
        if asked.all and source.tube(asked.tube) is None:
            continue
        try:
            results.append(dumped(source, output, asked))
        except Unfinished as unfinished:
            raise Unfinished(unfinished.why, joined([*results, unfinished.result])) from None
    return joined(results)


def dumped(source, output, asked):
    """Dumps the jobs of one tube."""
    about = tube_of(source, asked.tube)
    plan = planned(about, asked)
    work = Dump(source, output, asked)
    if asked.dry_run:
        return result_of(work, plan, about)
    source.use(asked.tube)
    try:
        work.all("dumped", sum(plan.values()))
        work.settle()
        about = source.tube(asked.tube)
    except (Fault, KeyboardInterrupt) as fault:
        work.ends()
        raise Unfinished(fault, result_of(work, work.done, None)) from None
    if work.doubled:
        raise Unfinished("workers got jobs meanwhile", result_of(work, work.done, about))
    return result_of(work, work.done, about)


def result_of(work, counts, about):
    """Returns what was dumped or would be, and which jobs may be at both places."""
    record, lines, _ = told(work.asked, "dumped", counts, about)
    doubled = [f"job {it} of {work.source.name} may be doubled: it is in the output too" for it in work.doubled]
    return Result({**record, "doubled": work.doubled}, [*lines, *doubled])


def joined(results):
    """Returns the results of several tubes as one."""
    return Result([it.record for it in results], [line for it in results for line in it.lines] or ["there are no tubes"], True)
