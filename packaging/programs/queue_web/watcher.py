"""The only connection to the server: a thread reads the statistics once a second, and carries out tasks."""
import collections
import concurrent.futures
import os
import queue
import threading
import time
import traceback

from queue_client import Fault, Refused, STATES, Server
from queue_client.bodies import readable
from queue_client.reading import COUNTS, PUTS, TIMEOUTS, Reading
from queue_client.server import TOGETHER

from .history import History

# How often the statistics are read, in seconds.
BETWEEN = 1.0

# How long a look at a tube's first jobs is reused for other requests, in seconds.
LOOK_SERVES = 0.9

# The largest number of tasks that may wait for the connection.
MOST_TASKS = 64

# How many ids one search for buried jobs looks at, how many jobs it finds at most, and how many searches may wait.
SEARCHED, MOST_FOUND, MOST_SEARCHES = 2000, 50, 4

# What is known of the server: whether it answers, since when (by the clock) that is so, why it doesn't, and its last
# two readings. `took` is how many seconds the last one took, `seats` how many seats the server has, if that is known,
# `started` since when this run of it is known, and `restart` the last restart that was seen, if there was one.
View = collections.namedtuple("View", "up since why earlier later took seats started restart")

# A restart: when it was seen, and how many jobs the server had at the last reading before it.
Restart = collections.namedtuple("Restart", "time jobs")

# The tube that each connection starts with, and which exists as long as the connection.
DEFAULT = "default"


class Busy(Exception):
    """There are more tasks than the connection can carry out."""


class Watcher:
    """Watches a server. `view` is what is known of it; a view that was read does not change any more."""

    def __init__(self, host, port, patience, seats=None):
        self.address, self.patience = (host, port), patience
        self.server, self.last, self.searches = None, None, 0
        why = "the server has not been asked yet"
        self.view = View(False, time.time(), why, None, None, None, seats, None, None)
        self.history, self.looks = History(), {}
        self.tasks = queue.Queue(MOST_TASKS)
        self.lock = threading.Lock()
        self.thread = threading.Thread(target=self._watch, daemon=True)

    def start(self):
        """Starts watching."""
        self.thread.start()

    def ask(self, task):
        """Runs a task, a function of the server, on the connection. Returns the future of its result."""
        future = concurrent.futures.Future()
        try:
            self.tasks.put_nowait((task, future))
        except queue.Full:
            raise Busy from None
        return future

    def look(self, name):
        """Requests the first job of each state of a tube. Simultaneous requests share one look."""
        return self.ask(lambda server: self._looked(server, name))

    def search(self, name, first, until):
        """Requests the buried jobs of a tube, among the ids from `first` to `until`; by default among all from that of
        the first buried job on."""
        if self.searches >= MOST_SEARCHES:
            raise Busy
        self.searches += 1

        def search(server):
            try:
                return searched(server, name, first, until)
            finally:
                self.searches -= 1
        try:
            return self.ask(search)
        except Busy:
            self.searches -= 1
            raise

    def sparks(self):
        """Returns the sparkline of each tube."""
        with self.lock:
            return self.history.sparks()

    def points(self, name):
        """Returns the last ten minutes of a tube."""
        with self.lock:
            return self.history.of(name)

    def _watch(self):
        try:
            self._go_on()
        except BaseException:
            # An error in this program. The service manager restarts it.
            traceback.print_exc()
            os._exit(1)

    def _go_on(self):
        while True:
            begun = time.monotonic()
            self._read()
            took = time.monotonic() - begun
            # After a long reading, as of very many tubes, the server rests as long as it worked.
            self._serve(begun + max(BETWEEN, 2 * took))

    def _read(self):
        """Takes a reading. A lost connection is made anew."""
        begun, is_new = time.monotonic(), not self.server
        try:
            if not self.server:
                self.server = Server(*self.address, self.patience)
            later = Reading(self.server)
            self._is_up(later, is_new, time.monotonic() - begun)
        except Fault as fault:
            self._is_down(fault)
        with self.lock:
            self.history.add(self.view.later, time.monotonic())
        self.looks = {it: look for it, look in self.looks.items() if time.monotonic() - look[0] < LOOK_SERVES}

    def _is_up(self, later, is_new, took):
        """Records a reading, over a new connection or not."""
        view, now = self.view, time.time()
        earlier = view.later if view.up else None
        view = view._replace(up=True, since=view.since if view.up else now, why=None, took=took, later=later, started=view.started or now)
        if self.last and is_restarted(self.last, later.server, is_new):
            had = sum(self.last[it] for it in COUNTS.values())
            # Nothing of the earlier run is compared with this one.
            earlier, view = None, view._replace(started=now, restart=Restart(now, had))
        self.view, self.last = view._replace(earlier=earlier), later.server

    def _is_down(self, fault):
        if self.server:
            self.server.close()
            self.server = None
        since = time.time() if self.view.up else self.view.since
        self.view = self.view._replace(up=False, since=since, why=str(fault), earlier=None, later=None, took=None)

    def _serve(self, until):
        """Runs tasks until that moment."""
        while (left := until - time.monotonic()) > 0:
            try:
                task, future = self.tasks.get(timeout=left)
            except queue.Empty:
                return
            if future.set_running_or_notify_cancel():
                self._carry_out(task, future)

    def _carry_out(self, task, future):
        try:
            if not self.server:
                raise Refused(self.view.why)
            future.set_result(task(self.server))
        except Fault as fault:
            if not isinstance(fault, Refused):
                self._is_down(fault)
            future.set_exception(fault)
        except Exception as fault:
            future.set_exception(fault)

    def _looked(self, server, name):
        moment, found = self.looks.get(name, (0, None))
        if time.monotonic() - moment >= LOOK_SERVES:
            found = looked(server, name)
            self.looks[name] = (time.monotonic(), found)
        return found


def is_restarted(before, now, is_new):
    """Returns true if a server's statistics show that it is not the one that it was: another id, which beanstalkd has, or
    a counter that fell. A new connection must have been counted."""
    if before.get("id") != now.get("id"):
        return True
    connections = now.get("total-connections", 0) - is_new < before.get("total-connections", 0)
    return connections or any(now[it] < before[it] for it in (PUTS, TIMEOUTS))


def searched(server, name, first, until):
    """Returns buried jobs of a tube, found by looking at some of the ids: the protocol shows only the first one. `next` is
    where to go on, None if all ids were looked at, and `count` is how many buried jobs there are."""
    about = server.tube(name)
    if about is None:
        return None
    last = server.statistics()[PUTS]
    if first is None:
        server.use(name)
        try:
            job = server.peek("buried")
        finally:
            server.use(DEFAULT)
        first = job.id if job else last + 1
    until = max(last, first) if until is None else until
    found, at = [], first
    while at <= until and at < first + SEARCHED and len(found) < MOST_FOUND:
        ids = range(at, min(at + TOGETHER, until + 1, first + SEARCHED))
        found += [it for it in server.jobs(ids) if it and (it.get("tube"), it.get("state")) == (name, "buried")]
        at += len(ids)
    jobs = [(server.peek_job(it["id"]), it) for it in found]
    return {"count": about[COUNTS["buried"]], "first": str(first), "until": str(until), "next": str(at) if at <= until else None,
            "jobs": [record_of(job, told) for job, told in jobs if job]}


def looked(server, name):
    """Returns the first job of each state of a tube. This does not create a tube that has gone."""
    if server.tube(name) is None:
        return None
    server.use(name)
    try:
        return {state: first_of(server, state) for state in STATES}
    finally:
        server.use(DEFAULT)


def first_of(server, state):
    """Returns the first job of a state as a record, with the beginning of its body; None if there is none."""
    job = server.peek(state)
    if not job:
        return None
    return record_of(job, server.job(job.id) or {"id": job.id, "state": state})


def record_of(job, about):
    """Returns a job as a record, with the beginning of its body."""
    body = readable(job.body, width=8)
    return {**about, "id": str(job.id), "kind": body.kind, "text": body.text, "shown": body.shown, "size": body.size}
