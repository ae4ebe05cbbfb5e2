"""The command load: puts the jobs that dump wrote.

The file is read to its end before the first job is put, unless it is a pipe. So a file with a malformed line changes
nothing.
"""
import base64
import binascii
import collections
import contextlib
import json

from queue_client import Fault, Refused, STATES, said
from queue_client.texts import TUBE_NAME
from queue_client.words import LARGEST_NUMBER

from .progress import Progress
from .results import Result, Unfinished, by_state, jobs

Line = collections.namedtuple("Line", "number tube state priority delay ttr body id")


class Malformed(Fault):
    """A line that is no job."""


class Cut(Malformed):
    """A last line without its end: the dump was interrupted in it, and left this job at its server."""


class Load:
    """Puts jobs. `done` counts them by state, `next` is the first line that was not loaded, and `sent` is true while that
    line was sent and no answer has come."""

    def __init__(self, server, asked):
        self.server, self.asked, self.tube = server, asked, None
        self.done, self.refused = dict.fromkeys(STATES, 0), []
        self.next, self.sent = asked.first, False

    def all(self, lines, total):
        """Puts the jobs of these lines."""
        progress = Progress("loaded", total)
        try:
            for line in lines:
                if line.number >= self.asked.first:
                    self._one(line)
                    progress.at(sum(self.done.values()))
                if self.asked.interrupts.came:
                    raise Fault("interrupted")
        finally:
            progress.end()

    def _one(self, line):
        self.next = line.number
        if self.tube != line.tube:
            self.server.use(line.tube)
            self.tube = line.tube
        job_id = self._put(line)
        if job_id is None:
            self.refused.append(line)
        else:
            if line.state == "buried":
                self.server.reserve_job(job_id)
                self.server.bury(job_id, line.priority)
            self.done[line.state] += 1
        self.next, self.sent = line.number + 1, False

    def _put(self, line):
        """Puts a job and returns its id; None if it is left out. A buried one is put with the longest delay, so that no
        worker gets it before it is buried."""
        self.sent = True
        try:
            delay = LARGEST_NUMBER if line.state == "buried" else line.delay
            return self.server.put(line.priority, delay, line.ttr, line.body)
        except Refused as fault:
            self.sent = False
            if fault.word != b"JOB_TOO_BIG" or not self.asked.skip_refused:
                why = f"line {line.number}, job {line.id} of {line.tube}: {fault.why or fault}"
                raise Fault(f"{self.server.name} refused {why}") from None
            return None


def load(server, asked):
    """Puts the jobs of a file."""
    work = Load(server, asked)
    try:
        with open(0 if asked.file == "-" else asked.file, "rb", closefd=asked.file != "-") as stream:
            total, at = 0, stream.tell() if stream.seekable() else None
            if at is not None:
                with contextlib.suppress(Cut):
                    for _ in lines_of(stream, asked.file):
                        total += 1
                stream.seek(at)
            work.all(lines_of(stream, asked.file), total)
    except OSError as fault:
        raise Unfinished(f"cannot read {asked.file}: {said(fault)}", result_of(work)) from None
    except (Fault, KeyboardInterrupt) as fault:
        raise Unfinished(fault, result_of(work, None if isinstance(fault, Malformed) else work.next)) from None
    if work.refused:
        raise Unfinished(f"{server.name} refused {jobs(len(work.refused))}", result_of(work))
    return result_of(work)


def result_of(work, go_on=None):
    """Returns what was loaded, which jobs were refused, and from which line to go on."""
    count = sum(work.done.values())
    lines = [f"loaded {jobs(count)}" + (f": {by_state(work.done)}" if count else "")]
    lines += [f"line {it.number}, job {it.id} of {it.tube}, was left out: it is larger than {work.server.name} takes" for it in work.refused]
    if go_on and work.sent:
        lines += [f"line {go_on} may be loaded, as no answer came: go on by --from {go_on + 1} if it is, else by --from {go_on}"]
    elif go_on:
        lines += [f"go on by --from {go_on}"]
    refused = [it.number for it in work.refused]
    return Result({"loaded": count, **work.done, "refused": refused, "next": go_on, "sent": work.sent}, lines)


def lines_of(stream, name):
    """Yields the lines of a file."""
    for number, text in enumerate(stream, 1):
        yield line_of(number, text, name)


def line_of(number, text, name):
    """Reads a line."""
    try:
        found = json.loads(text)
        numbers = [found[key] for key in ("priority", "delay", "ttr")]
        if not TUBE_NAME.fullmatch(found["tube"]) or found["state"] not in STATES:
            raise ValueError
        if not all(type(it) is int and 0 <= it <= LARGEST_NUMBER for it in numbers):
            raise ValueError
        return Line(number, found["tube"], found["state"], *numbers, base64.b64decode(found["body"], validate=True), found["id"])
    except (ValueError, KeyError, TypeError, RecursionError, binascii.Error):
        if not text.endswith(b"\n"):
            raise Cut(f"line {number} of {name}, the last, has no end: its job was left at its server") from None
        raise Malformed(f"line {number} of {name} is no job that bqctl dumped") from None
