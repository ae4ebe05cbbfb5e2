"""Many clients of `bqd` at once, which are cut off at random: no accepted job is lost, and none is doubled.

All bodies of jobs differ. A client that was cut off doesn't know whether its last command was carried out; everything
else is counted exactly.
"""
import random
import re
import socket
import struct
import threading
import time

from . import programs, report
from .machine import PLAIN

LEASE = 2


class Cut(Exception):
    """The client cuts its connection off, or found it cut."""


class Book:
    """What all clients together know."""

    def __init__(self):
        self.lock = threading.Lock()
        self.put, self.deleted = {}, {}
        self.maybe_put, self.maybe_deleted = set(), set()
        self.faults, self.commands, self.cuts = [], 0, 0

    def fault(self, text):
        with self.lock:
            self.faults.append(text)


class Line:
    """A connection that sends one command and reads its answer."""

    def __init__(self, server, book):
        self.connection, self.book, self.kept = server.connect(), book, b""
        self.connection.settimeout(programs.PATIENCE)

    def say(self, text):
        try:
            self.connection.sendall(text)
        except OSError:
            raise Cut()
        with self.book.lock:
            self.book.commands += 1

    def up_to(self, size):
        while len(self.kept) < size:
            self.read()
        got, self.kept = self.kept[:size], self.kept[size:]
        return got

    def read(self):
        try:
            piece = self.connection.recv(65536)
        except socket.timeout:
            self.book.fault("no answer within %d seconds" % programs.PATIENCE)
            raise Cut()
        except OSError:
            raise Cut()
        if not piece:
            raise Cut()
        self.kept += piece

    def answer(self):
        """Returns the words of the answer's head, and its body."""
        while b"\r\n" not in self.kept:
            self.read()
        head = self.up_to(self.kept.index(b"\r\n") + 2)[:-2].split(b" ")
        body = self.up_to(int(head[-1]) + 2)[:-2] if head[0] in (b"RESERVED", b"FOUND", b"OK") else b""
        return head, body

    def ask(self, text):
        self.say(text)
        return self.answer()

    def cut_off(self):
        """Resets the connection; data that wasn't read or sent is lost."""
        self.connection.setsockopt(socket.SOL_SOCKET, socket.SO_LINGER, struct.pack("ii", 1, 0))
        self.connection.close()


class Worker(threading.Thread):
    """A client that puts, reserves and deletes, and is cut off now and then."""

    def __init__(self, server, book, seed, until):
        super().__init__(daemon=True)
        self.server, self.book, self.until = server, book, until
        self.random, self.name_of_bodies = random.Random(seed), seed.rpartition("/")[2]
        self.many = 0

    def run(self):
        while time.monotonic() < self.until:
            try:
                line = Line(self.server, self.book)
            except OSError as it:
                self.book.fault("a connection was refused: %s" % it)
                return
            try:
                for _ in range(self.random.randrange(1, 60)):
                    self.turn(line)
            except Cut:
                pass
            except (ValueError, IndexError) as it:
                self.book.fault("an answer that can't be read: %s" % it)
            with self.book.lock:
                self.book.cuts += 1
            line.cut_off()

    def may_cut(self, line, text):
        """Now and then, a part of a command, or a command whose answer is not read, is the last that is sent."""
        kind = self.random.random()
        if kind < 0.02:
            line.say(text[:self.random.randrange(len(text))])
            raise Cut()
        if kind < 0.05:
            line.say(text)
            time.sleep(self.random.choice((0, 0, 0.001, 0.01)))
            raise Cut()

    def turn(self, line):
        if self.random.random() < 0.5:
            self.put(line)
        else:
            self.work(line)

    def put(self, line):
        self.many += 1
        body = b"%s.%d" % (self.name_of_bodies.encode(), self.many)
        text = b"put %d 0 %d %d\r\n%s\r\n" % (self.random.randrange(3), LEASE, len(body), body)
        with self.book.lock:
            self.book.maybe_put.add(body)
        self.may_cut(line, text)
        head, _ = line.ask(text)
        with self.book.lock:
            if head[0] != b"INSERTED":
                self.book.faults.append("put: %r" % head)
                return
            number = int(head[1])
            if number in self.book.put:
                self.book.faults.append("id %d was given twice" % number)
            self.book.put[number] = body
            self.book.maybe_put.discard(body)

    def work(self, line):
        text = b"reserve-with-timeout %d\r\n" % self.random.choice((0, 0, 0, 1))
        self.may_cut(line, text)
        head, body = line.ask(text)
        if head[0] in (b"TIMED_OUT", b"DEADLINE_SOON"):
            return
        if head[0] != b"RESERVED":
            self.book.fault("reserve: %r" % head)
            return
        number, kind = int(head[1]), self.random.random()
        if kind < 0.1:
            return  # held until its lease ends, or this client does
        if kind < 0.2:
            text = b"release %d 1 0\r\n" % number
            self.may_cut(line, text)
            line.ask(text)
            return
        self.delete(line, number, body)

    def delete(self, line, number, body):
        text = b"delete %d\r\n" % number
        with self.book.lock:
            self.book.maybe_deleted.add(number)
        self.may_cut(line, text)
        head, _ = line.ask(text)
        with self.book.lock:
            if head[0] == b"DELETED":
                if number in self.book.deleted:
                    self.book.faults.append("job %d was deleted twice" % number)
                self.book.deleted[number] = body
            elif head[0] != b"NOT_FOUND":
                self.book.faults.append("delete: %r" % head)


def values(text):
    """Returns the numbers in a text of statistics."""
    return {key: int(value) for key, value in re.findall(r"^([a-z-]+): (\d+)$", text.decode(), re.M)}


def drained(line, book):
    """Deletes all jobs that are left, and returns them: ids with bodies."""
    left, until = {}, time.monotonic() + programs.PATIENCE
    while time.monotonic() < until:
        head, body = line.ask(b"reserve-with-timeout 1\r\n")
        if head[0] == b"RESERVED":
            number = int(head[1])
            if number in left:
                book.fault("job %d came twice" % number)
            left[number], until = body, time.monotonic() + programs.PATIENCE
            if line.ask(b"delete %d\r\n" % number)[0][0] != b"DELETED":
                book.fault("job %d can't be deleted by who holds it" % number)
            continue
        found = values(line.ask(b"stats\r\n")[1])
        jobs = sum(found["current-jobs-" + state] for state in ("ready", "reserved", "delayed", "buried"))
        if jobs == 0 and found["current-connections"] == 1:
            return left
    book.fault("the queue isn't empty, or clients that are gone still have seats: %r" % line.ask(b"stats\r\n")[1])
    return left


def settle(book, left, server_says, tube_says):
    """Compares what the clients know with what was left and what the server reports."""
    lost = [it for it in book.put if it not in book.maybe_deleted and it not in left]
    if lost:
        book.fault("%d accepted jobs are lost: %r" % (len(lost), sorted(lost)[:10]))
    doubled = [it for it in left if it in book.deleted]
    if doubled:
        book.fault("%d deleted jobs were there still: %r" % (len(doubled), sorted(doubled)[:10]))
    bodies = {}
    for number, body in [*book.put.items(), *book.deleted.items(), *left.items()]:
        if bodies.setdefault(body, number) != number:
            book.fault("body %r is of the jobs %d and %d" % (body, bodies[body], number))
        if book.put.get(number, body) != body:
            book.fault("job %d has the body %r, and was put with %r" % (number, body, book.put[number]))
        if number not in book.put and body not in book.maybe_put:
            book.fault("job %d has a body that nobody put: %r" % (number, body))
    total = server_says["total-jobs"]
    known = set(book.put) | set(book.deleted) | set(left)
    if not known or max(known) > total or not len(book.put) <= total <= len(book.put) + len(book.maybe_put):
        book.fault("total-jobs is %d; %d puts were answered, and %d may have been taken" % (total, len(book.put), len(book.maybe_put)))
    deletes = tube_says["cmd-delete"]
    if deletes != total or deletes < len(book.deleted) + len(left):
        book.fault("cmd-delete is %d, of %d jobs; %d deletes were answered, and %d at the end" % (
            deletes, total, len(book.deleted), len(left)))


def soak(program, seed, seconds, clients=12):
    """Runs one soak. Its report counts one, passed or failed."""
    book = Book()
    with programs.Server(program, clients + 4, PLAIN) as server:
        until = time.monotonic() + seconds
        workers = [Worker(server, book, "%s/%d" % (seed, at), until) for at in range(clients)]
        for it in workers:
            it.start()
        for it in workers:
            it.join(seconds + 4 * programs.PATIENCE)
        if any(it.is_alive() for it in workers):
            book.fault("a client didn't end")
        left = {}
        try:
            line = Line(server, book)
            left = drained(line, book)
            settle(book, left, values(line.ask(b"stats\r\n")[1]), values(line.ask(b"stats-tube default\r\n")[1]))
        except (Cut, OSError):
            book.fault("the last client was cut off")
        if not server.is_running():
            book.fault("the server ended")
    note = "%d jobs put, %d connections cut off, %d jobs left at the end" % (len(book.put), book.cuts, len(left))
    if book.faults:
        return report.failed("soak", book.commands, "seed %s: %s\n    %s" % (seed, note, "\n    ".join(book.faults[:20])))
    return report.passed("soak", 1, book.commands, note)
