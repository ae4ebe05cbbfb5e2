"""Jobs that a test puts, and what a server says of them, through the protocol alone."""
import re

TUBE = b"mail"


class Teller:
    """A client that reads complete answers."""

    def __init__(self, server):
        self.stream = server.client().stream
        self.read = self.stream.makefile("rb")

    def ask(self, line, body=None):
        """Returns the answer's first line, and what it carries."""
        self.stream.sendall(line + b"\r\n" + (b"" if body is None else body + b"\r\n"))
        head = self.read.readline()[:-2]
        found = re.fullmatch(rb"(?:FOUND [0-9]+|RESERVED [0-9]+|OK) ([0-9]+)", head)
        return head, self.read.read(int(found[1]) + 2)[:-2] if found else b""

    def put(self, body, tube=TUBE, pri=0, delay=0, ttr=60, state="ready"):
        """Puts a job, brings it into that state, and returns its id."""
        self.ask(b"use " + tube)
        head, _ = self.ask(b"put %d %d %d %d" % (pri, delay, ttr, len(body)), body)
        assert head.startswith(b"INSERTED "), head
        job_id = int(head.split()[1])
        if state == "buried":
            assert self.ask(b"reserve-job %d" % job_id)[0].startswith(b"RESERVED"), job_id
            assert self.ask(b"bury %d %d" % (job_id, pri))[0] == b"BURIED"
        return job_id

    def job(self, job_id):
        """Returns a job's tube, state, priority, remaining delay and time to run, with its body; None if it doesn't
        exist."""
        head, body = self.ask(b"peek %d" % job_id)
        if head == b"NOT_FOUND":
            return None
        _, text = self.ask(b"stats-job %d" % job_id)
        about = dict(line.split(": ") for line in text.decode().splitlines()[1:])
        tube = about["tube"].strip('"')
        return tube, about["state"], int(about["pri"]), int(about["time-left"]), int(about["ttr"]), body

    def jobs(self, first=1):
        """Returns all jobs from that id on, by id."""
        found = {it: self.job(it) for it in range(first, self.last() + 1)}
        return {job_id: about for job_id, about in found.items() if about}

    def last(self):
        """Returns the last id that was given out, if no put was rejected."""
        _, text = self.ask(b"stats")
        return int(re.search(rb"^total-jobs: ([0-9]+)$", text, re.M)[1])
