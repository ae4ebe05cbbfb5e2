"""The commands of the protocol that an operator's programs send, and what their answers mean."""
import collections
import re

from .connection import Connection
from .faults import Refused
from .texts import names_of, statistics_of
from .words import shown

# The states in which any client can peek at a job and delete it.
STATES = ("ready", "delayed", "buried")

# Texts of statistics have some hundred bytes; a list has a line of at most 203 bytes for each tube.
LARGEST_TEXT = 64 << 20

# beanstalkd can be configured to accept bodies of up to a gibibyte.
LARGEST_BODY = 1 << 30

# How many commands are sent before their answers are read: few enough that neither side's buffers fill.
TOGETHER = 50

# The words with which a server rejects a command, and what those mean that a correct command can get. The next answer
# then belongs to the next command.
REFUSALS = {
    b"OUT_OF_MEMORY": "it has no memory for it",
    b"INTERNAL_ERROR": "it has an internal error",
    b"DRAINING": "it drains, and takes no further jobs",
    b"JOB_TOO_BIG": "the job is larger than it takes",
    **dict.fromkeys([b"EXPECTED_CRLF", b"BAD_FORMAT", b"UNKNOWN_COMMAND", b"NOT_FOUND"]),
}

# A put is also rejected if the server has as many jobs as its options allow.
NO_ROOM = "it has no memory for it, or the most jobs that it may have"

Job = collections.namedtuple("Job", "id body")


class Server:
    """A server, through one connection. Each answer has to arrive within `patience` seconds."""

    def __init__(self, host, port, patience):
        self.name = shown(host, port)
        self.connection = Connection(self.name, host, port, patience)

    def close(self):
        """Closes the connection. The server releases the jobs that it reserved."""
        self.connection.close()

    def statistics(self):
        """Returns the server's statistics by key."""
        self._send("stats")
        return self._statistics("stats")

    def tubes(self):
        """Returns the names of the tubes, in the server's order."""
        self._send("list-tubes")
        names = names_of(self._text("list-tubes"))
        if names is None:
            raise self.connection.odd("list-tubes", "no list of tubes")
        return names

    def tube_statistics(self, names):
        """Returns the statistics of these tubes; None for a tube that has gone."""
        told = []
        for first in range(0, len(names), TOGETHER):
            commands = [f"stats-tube {it}" for it in names[first : first + TOGETHER]]
            self._send(*commands)
            told += [self._statistics(it, may_lack=True) for it in commands]
        return told

    def tube(self, name):
        """Returns the statistics of a tube, or None if there is no such tube."""
        return self.tube_statistics([name])[0]

    def job(self, job_id):
        """Returns the statistics of a job, or None if there is no such job."""
        command = f"stats-job {job_id}"
        self._send(command)
        return self._statistics(command, may_lack=True)

    def jobs(self, ids):
        """Returns the statistics of these jobs; None for a job that does not exist."""
        told = []
        for first in range(0, len(ids), TOGETHER):
            commands = [f"stats-job {it}" for it in ids[first : first + TOGETHER]]
            self._send(*commands)
            told += [self._statistics(it, may_lack=True) for it in commands]
        return told

    def use(self, tube):
        """Selects the tube for puts, peeks and kicks. It exists from then on."""
        self._send(f"use {tube}")
        self._answer("use", {b"USING " + tube.encode(): True})

    def peek(self, state):
        """Returns the first job in that state in the used tube, or None."""
        self._send(f"peek-{state}")
        return self._job(f"peek-{state}", b"FOUND")

    def peek_job(self, job_id):
        """Returns a job by its id, or None."""
        command = f"peek {job_id}"
        self._send(command)
        return self._job(command, b"FOUND")

    def put(self, priority, delay, ttr, body):
        """Puts a job into the used tube and returns its id."""
        self.connection.send(f"put {priority} {delay} {ttr} {len(body)}\r\n".encode() + body + b"\r\n")
        head = self.connection.head("put")
        found = re.fullmatch(rb"INSERTED ([0-9]{1,20})", head)
        if not found:
            raise self._unwanted("put", head)
        return int(found[1])

    def reserve_job(self, job_id):
        """Reserves a ready, delayed or buried job and returns it; None if it is in none of these states."""
        command = f"reserve-job {job_id}"
        self._send(command)
        return self._job(command, b"RESERVED")

    def delete(self, job_id):
        """Deletes a job. Returns whether it existed and was not reserved by another client."""
        return self._acts(f"delete {job_id}", b"DELETED")

    def delete_and_peek(self, job_id, state):
        """Deletes a job as `delete` does, and returns it with the job that `peek` finds afterwards, in one round trip.
        """
        self._send(f"delete {job_id}", f"peek-{state}")
        deleted = self._answer("delete", {b"DELETED": True, b"NOT_FOUND": False})
        return deleted, self._job(f"peek-{state}", b"FOUND")

    def bury(self, job_id, priority):
        """Buries a job that this connection reserved. Returns whether it still had it."""
        return self._acts(f"bury {job_id} {priority}", b"BURIED")

    def release(self, job_id, priority, delay):
        """Releases a job that this connection reserved. Returns whether it still had it."""
        return self._acts(f"release {job_id} {priority} {delay}", b"RELEASED")

    def kick(self, bound):
        """Kicks at most `bound` buried jobs of the used tube, or delayed ones if none is buried. Returns how many."""
        self._send(f"kick {bound}")
        head = self.connection.head("kick")
        found = re.fullmatch(rb"KICKED ([0-9]{1,20})", head)
        if not found:
            raise self._unwanted("kick", head)
        return int(found[1])

    def kick_job(self, job_id):
        """Kicks a job. Returns whether it existed and was buried or delayed."""
        return self._acts(f"kick-job {job_id}", b"KICKED")

    def touch(self, job_id):
        """Starts the time to run of a reserved job again. Returns whether this connection still had it."""
        return self._acts(f"touch {job_id}", b"TOUCHED")

    def pause(self, tube, seconds):
        """Pauses a tube, or ends its pause if `seconds` is 0. Returns whether the tube exists."""
        return self._acts(f"pause-tube {tube} {seconds}", b"PAUSED")

    def _send(self, *commands):
        self.connection.send("".join(it + "\r\n" for it in commands).encode())

    def _acts(self, command, done):
        self._send(command)
        return self._answer(command.split(" ")[0], {done: True, b"NOT_FOUND": False})

    def _answer(self, command, meanings):
        head = self.connection.head(command)
        if head not in meanings:
            raise self._unwanted(command, head)
        return meanings[head]

    def _job(self, command, word):
        """Returns the job that the next answer carries after that word; None for NOT_FOUND."""
        head = self.connection.head(command)
        if head == b"NOT_FOUND":
            return None
        found = re.fullmatch(word + rb" ([0-9]{1,20}) ([0-9]{1,10})", head)
        if not found or int(found[2]) > LARGEST_BODY:
            raise self._unwanted(command, head)
        body = self.connection.taken(int(found[2]) + 2, command)
        if not body.endswith(b"\r\n"):
            raise self.connection.odd(command, "a body without its end")
        return Job(int(found[1]), body[:-2])

    def _statistics(self, command, may_lack=False):
        text = self._text(command, may_lack)
        if text is None:
            return None
        found = statistics_of(text)
        if found is None:
            raise self.connection.odd(command, "no statistics")
        return found

    def _text(self, command, may_lack=False):
        """Returns the text of the next answer; None for NOT_FOUND, if `may_lack`."""
        head = self.connection.head(command)
        if may_lack and head == b"NOT_FOUND":
            return None
        found = re.fullmatch(rb"OK ([0-9]{1,9})", head)
        if not found or int(found[1]) > LARGEST_TEXT:
            raise self._unwanted(command, head)
        text = self.connection.taken(int(found[1]) + 2, command)
        if not text.startswith(b"---\n") or not text.endswith(b"\r\n") or not text.isascii():
            raise self.connection.odd(command, "a text that is none of its kind")
        return text[:-2].decode()

    def _unwanted(self, command, head):
        """Returns the fault that a command was answered with this head."""
        if head not in REFUSALS:
            return self.connection.odd(command, repr(head.decode("ascii", "replace")))
        why = NO_ROOM if (command, head) == ("put", b"OUT_OF_MEMORY") else REFUSALS[head]
        text = f"{self.name} refused {command}: {why}" if why else f"{self.name} answered {command} by {head.decode()!r}"
        return Refused(text, head, why)
