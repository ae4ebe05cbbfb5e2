"""The model: one list of jobs, searched in full, with tubes and counts computed anew.

A step is a moment, a seat and an event, and gives answers to seats. Moments are in milliseconds.
"""
from collections import namedtuple

from . import texts

GREATEST = 2**64 - 1
LAST_ID = 2**64 - 2
SOON = 1000
URGENT_BELOW = 1024

READY, DELAYED, RESERVED, BURIED = "ready", "delayed", "reserved", "buried"

# The settings: the largest body, the most jobs (None: no limit), and the requeue delay in seconds.
Settings = namedtuple("Settings", "max_job_size max_jobs requeue_delay")
PLAIN = Settings(max_job_size=65535, max_jobs=None, requeue_delay=0)


def later(moment, seconds):
    """Returns the moment `seconds` later."""
    return min(moment + 1000 * seconds, GREATEST)


def raised(count):
    """Returns a count that grew by one."""
    return min(count + 1, GREATEST)


class Job:
    """A job. `until` is the due moment or the deadline, `burial` the number of a buried job. Jobs of one `due` become
    ready in the same step, since one step made them delayed for equally long."""

    __slots__ = ("id", "tube", "pri", "delay", "ttr", "body", "put_at", "state", "until", "due", "holder", "burial",
                 "reserves", "timeouts", "releases", "buries", "kicks")

    def __init__(self, number, tube, pri, delay, ttr, body, now):
        self.id, self.tube, self.pri, self.delay, self.ttr, self.body = number, tube, pri, delay, max(ttr, 1), body
        self.put_at = now
        self.reserves = self.timeouts = self.releases = self.buries = self.kicks = 0
        self.make_ready()

    def copy(self):
        """Returns a copy of the job."""
        other = object.__new__(Job)
        for slot in self.__slots__:
            setattr(other, slot, getattr(self, slot))
        return other

    def _set(self, state, until=None, holder=None, burial=None):
        self.state, self.until, self.holder, self.burial, self.due = state, until, holder, burial, self.id

    def make_ready(self):
        self._set(READY)

    def make_delayed(self, until):
        self._set(DELAYED, until=until)

    def make_ready_after(self, now, delay):
        """Makes the job ready, or delayed if the delay isn't 0."""
        if delay == 0:
            self.make_ready()
        else:
            self.make_delayed(later(now, delay))

    def reserve(self, seat, now):
        """Reserves the job for a seat from now on."""
        self._set(RESERVED, until=later(now, self.ttr), holder=seat)
        self.reserves = raised(self.reserves)

    def bury(self, number):
        self._set(BURIED, burial=number)


class Seat:
    """The place of one connection at a time. Its client waits if it has a ticket."""

    def __init__(self, number):
        self.number = number
        self.used = b"default"
        self.watched = [b"default"]
        self.ticket = None
        self.until = None
        self.ended = False

    def copy(self):
        """Returns a copy of the seat."""
        other = Seat(self.number)
        other.__dict__.update(self.__dict__)
        other.watched = list(self.watched)
        return other

    def is_waiting(self):
        return self.ticket is not None

    def stop_waiting(self):
        self.ticket = self.until = None


class Tube:
    """What is kept of a tube: its counts, and its pause as requested, with its end."""

    def __init__(self):
        self.total_jobs = self.deletes = self.pauses = 0
        self.pause, self.pause_end = 0, None

    def copy(self):
        """Returns a copy of the tube."""
        other = Tube()
        other.__dict__.update(self.__dict__)
        return other


class Machine:
    """The whole queue."""

    def __init__(self, settings=PLAIN):
        self.settings = settings
        self.now = 0
        self.jobs = {}
        self.seats = {}
        self.tubes = {}
        self.next_id = 1
        self.burials = self.tickets = 0
        self.job_timeouts = self.total_jobs = self.total_connections = 0
        self.is_draining = False

    def copy(self):
        """Returns a copy of the model, to try a step on."""
        other = object.__new__(type(self))
        other.__dict__.update(self.__dict__)
        other.jobs = {number: job.copy() for number, job in self.jobs.items()}
        other.seats = {number: seat.copy() for number, seat in self.seats.items()}
        other.tubes = {name: tube.copy() for name, tube in self.tubes.items()}
        return other

    # -- a step -----------------------------------------------------------------------------------

    def step(self, moment, seat, event, request=None):
        """Takes one step. It returns the answers as pairs of a seat's number and an answer, in order.

        The event is connect, ask (with a request), end, close, drain or tick.
        """
        self.now = max(self.now, moment)
        answers = []
        for part in (self.ripen, self.settle, self.lapse, lambda: self.act(seat, event, request), self.settle, self.lapse):
            answers += part()
        # (only the event itself removes jobs, and changes what clients use and watch)
        self.forget_tubes()
        return answers

    def ripen(self):
        """Ends delays, leases and pauses that are due."""
        for job in self.jobs.values():
            if job.state == DELAYED and job.until <= self.now:
                job.make_ready()
            elif job.state == RESERVED and job.until <= self.now:
                job.make_ready()
                self.count_timeout(job)
        for tube in self.tubes.values():
            if tube.pause_end is not None and tube.pause_end <= self.now:
                tube.pause, tube.pause_end = 0, None
        return []

    def count_timeout(self, job):
        """A lease expired."""
        job.timeouts = raised(job.timeouts)
        self.job_timeouts = raised(self.job_timeouts)

    def settle(self):
        """Hands ready jobs out to waiting clients."""
        answers = []
        while True:
            waiting = [seat for seat in self.seats.values() if seat.is_waiting()]
            looked_in = {tube for seat in waiting for tube in self.looks_in(seat)}
            fitting = [job for job in self.ready_jobs() if job.tube in looked_in and not self.is_paused(job.tube)]
            if not fitting:
                return answers
            job = min(fitting, key=self.rank)
            seat = min((it for it in waiting if job.tube in self.looks_in(it)), key=self.wait_rank)
            job.reserve(seat.number, self.now)
            seat.stop_waiting()
            answers.append((seat.number, texts.reserved(job)))

    def lapse(self):
        """Ends waits without a job."""
        answers = []
        for seat in sorted((it for it in self.seats.values() if it.is_waiting()), key=self.wait_rank):
            if any(job.until - self.now <= SOON for job in self.held_by(seat)):
                answer = texts.plain(b"DEADLINE_SOON")
            elif seat.ended or seat.until is not None and seat.until <= self.now:
                answer = texts.plain(b"TIMED_OUT")
            else:
                continue
            seat.stop_waiting()
            answers.append((seat.number, answer))
        return answers

    def act(self, number, event, request):
        """The effect of the event itself."""
        seat = self.seats.get(number)
        if event == "drain":
            self.is_draining = True
        elif event == "connect" and seat is None:
            self.seats[number] = Seat(number)
            self.total_connections = raised(self.total_connections)
        elif event == "end" and seat is not None:
            seat.ended = True
        elif event == "close" and seat is not None:
            self.give_back(seat)
            del self.seats[number]
        elif event == "ask" and seat is not None and not seat.is_waiting():
            answer = self.asked(seat, request)
            return [] if answer is None else [(number, answer)]
        return []

    def give_back(self, seat):
        """Makes the jobs of a closed connection ready or delayed."""
        held = self.held_by(seat)
        for job in held:
            job.make_ready_after(self.now, self.settings.requeue_delay)
            job.due = held[0].id

    # -- what holds of the model now ------------------------------------------------------------

    def rank(self, job):
        """The place of a ready job: the least goes first."""
        return job.pri, job.id

    def wait_rank(self, seat):
        """The place of a waiting seat: the least goes first."""
        return seat.ticket, seat.number

    def looks_in(self, seat):
        """The tubes from which a reserve of the seat takes jobs."""
        return seat.watched

    def is_paused(self, name):
        tube = self.tubes.get(name)
        return tube is not None and tube.pause_end is not None

    def is_urgent(self, job):
        return job.state == READY and job.pri < URGENT_BELOW

    def takes_puts(self):
        return not self.is_draining

    def ready_jobs(self):
        return [job for job in self.jobs.values() if job.state == READY]

    def held_by(self, seat):
        return [job for job in self.jobs.values() if job.state == RESERVED and job.holder == seat.number]

    def jobs_in(self, name, state):
        """The jobs of a tube in a state, in order."""
        order = {READY: self.rank, DELAYED: lambda job: (job.until, job.id), BURIED: lambda job: (job.burial, job.id)}
        return sorted((it for it in self.jobs.values() if it.tube == name and it.state == state), key=order[state])

    def is_tube(self, name):
        return (name == b"default" or any(job.tube == name for job in self.jobs.values())
                or any(name == seat.used or name in seat.watched for seat in self.seats.values()))

    def tube_names(self):
        """The tubes that exist, in the order of their bytes."""
        names = {b"default"} | {job.tube for job in self.jobs.values()}
        for seat in self.seats.values():
            names.add(seat.used)
            names.update(seat.watched)
        return sorted(names)

    def kept(self, name):
        """The record of a tube, for a change."""
        return self.tubes.setdefault(name, Tube())

    def forget_tubes(self):
        """Forgets the counts and pauses of tubes that no longer exist."""
        for name in set(self.tubes).difference(self.tube_names()):
            del self.tubes[name]

    def own(self, seat, number):
        """A job that the seat holds, or None."""
        job = self.jobs.get(number)
        return job if job is not None and job.state == RESERVED and job.holder == seat.number else None

    def moments(self):
        """All moments at which something may happen by itself, or an answer may change."""
        found = [*{job.due: job.until for job in self.jobs.values() if job.until is not None}.values()]
        found += [job.until - SOON for job in self.jobs.values() if job.state == RESERVED]
        found += [seat.until for seat in self.seats.values() if seat.until is not None]
        return found + [tube.pause_end for tube in self.tubes.values() if tube.pause_end is not None]

    def next_due(self):
        """The earliest moment before which a tick changes nothing, or None."""
        found = [job.until for job in self.jobs.values() if job.until is not None]
        found += [tube.pause_end for tube in self.tubes.values() if tube.pause_end is not None]
        for seat in self.seats.values():
            if seat.is_waiting():
                found += [job.until - SOON for job in self.held_by(seat)]
                found += [] if seat.until is None else [seat.until]
        return min(found, default=None)

    # -- the commands -----------------------------------------------------------------------------

    def asked(self, seat, request):
        """Carries out a command. Returns its answer, or None if it has none yet."""
        if request.command == b"refused":
            return texts.plain(request.arguments[0])
        method = "do_" + request.command.decode().replace("-", "_")
        return getattr(self, method)(seat, *request.arguments)

    def do_put(self, seat, pri, delay, ttr, body):
        if not self.takes_puts():
            return texts.plain(b"DRAINING")
        if self.settings.max_jobs is not None and len(self.jobs) >= self.settings.max_jobs:
            return texts.plain(b"OUT_OF_MEMORY")
        job = Job(self.next_id, seat.used, pri, delay, ttr, body, self.now)
        job.make_ready_after(self.now, delay)
        self.jobs[job.id] = job
        if job.id == LAST_ID:
            self.is_draining = True
        self.next_id += 1
        self.kept(seat.used).total_jobs = raised(self.kept(seat.used).total_jobs)
        self.total_jobs = raised(self.total_jobs)
        return texts.plain(b"INSERTED %d" % job.id)

    def do_reserve(self, seat):
        self.tickets = raised(self.tickets)
        seat.ticket, seat.until = self.tickets, None

    def do_reserve_with_timeout(self, seat, seconds):
        self.do_reserve(seat)
        seat.until = later(self.now, seconds)

    def do_reserve_job(self, seat, number):
        job = self.jobs.get(number)
        if job is None or job.state == RESERVED:
            return texts.plain(b"NOT_FOUND")
        job.reserve(seat.number, self.now)
        return texts.reserved(job)

    def do_delete(self, seat, number):
        job = self.jobs.get(number)
        if job is None or job.state == RESERVED and job.holder != seat.number:
            return texts.plain(b"NOT_FOUND")
        del self.jobs[number]
        self.kept(job.tube).deletes = raised(self.kept(job.tube).deletes)
        return texts.plain(b"DELETED")

    def do_release(self, seat, number, pri, delay):
        job = self.own(seat, number)
        if job is None:
            return texts.plain(b"NOT_FOUND")
        job.pri, job.delay, job.releases = pri, delay, raised(job.releases)
        job.make_ready_after(self.now, delay)
        self.released(job)
        return texts.plain(b"RELEASED")

    def released(self, job):
        """Called after each release: the job stays the same one."""

    def do_bury(self, seat, number, pri):
        job = self.own(seat, number)
        if job is None:
            return texts.plain(b"NOT_FOUND")
        self.burials = raised(self.burials)
        job.pri, job.buries = pri, raised(job.buries)
        job.bury(self.burials)
        return texts.plain(b"BURIED")

    def do_touch(self, seat, number):
        job = self.own(seat, number)
        if job is None:
            return texts.plain(b"NOT_FOUND")
        job.until = later(self.now, job.ttr)
        return texts.plain(b"TOUCHED")

    def kicked_first(self, name):
        """The jobs of a tube that a kick would take, in order."""
        return self.jobs_in(name, BURIED) or self.jobs_in(name, DELAYED)

    def do_kick(self, seat, bound):
        kicked = self.kicked_first(seat.used)[:bound]
        for job in kicked:
            self.kick(job)
        return texts.plain(b"KICKED %d" % len(kicked))

    def do_kick_job(self, _seat, number):
        job = self.jobs.get(number)
        if job is None or job.state not in (BURIED, DELAYED):
            return texts.plain(b"NOT_FOUND")
        self.kick(job)
        return texts.plain(b"KICKED")

    @staticmethod
    def kick(job):
        job.make_ready()
        job.kicks = raised(job.kicks)

    def do_use(self, seat, name):
        seat.used = name
        return texts.plain(b"USING " + name)

    def do_list_tube_used(self, seat):
        return texts.plain(b"USING " + seat.used)

    def do_watch(self, seat, name):
        if name not in seat.watched:
            seat.watched.append(name)
        return texts.plain(b"WATCHING %d" % len(seat.watched))

    def do_ignore(self, seat, name):
        if seat.watched == [name]:
            return texts.plain(b"NOT_IGNORED")
        if name in seat.watched:
            seat.watched.remove(name)
        return texts.plain(b"WATCHING %d" % len(seat.watched))

    def do_peek(self, _seat, number):
        return texts.found(self.jobs.get(number))

    def peek_first(self, seat, state):
        return texts.found(next(iter(self.jobs_in(seat.used, state)), None))

    def do_peek_ready(self, seat):
        return self.peek_first(seat, READY)

    def do_peek_delayed(self, seat):
        return self.peek_first(seat, DELAYED)

    def do_peek_buried(self, seat):
        return self.peek_first(seat, BURIED)

    def do_pause_tube(self, _seat, name, seconds):
        if not self.is_tube(name):
            return texts.plain(b"NOT_FOUND")
        tube = self.kept(name)
        tube.pauses = raised(tube.pauses)
        tube.pause, tube.pause_end = seconds, later(self.now, seconds) if seconds else None
        return texts.plain(b"PAUSED")

    def do_stats_job(self, _seat, number):
        job = self.jobs.get(number)
        return texts.plain(b"NOT_FOUND") if job is None else texts.job_statistics(self, job)

    def do_stats_tube(self, _seat, name):
        return texts.tube_statistics(self, name) if self.is_tube(name) else texts.plain(b"NOT_FOUND")

    def do_stats(self, _seat):
        return texts.statistics(self)

    def do_list_tubes(self, _seat):
        return texts.names(self.tube_names())

    def do_list_tubes_watched(self, seat):
        return texts.names(sorted(seat.watched))

    def do_quit(self, _seat):
        """Does nothing: the connection's close follows."""
