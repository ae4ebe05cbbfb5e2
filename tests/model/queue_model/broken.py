"""Models with one rule changed. Each must be found to differ from the programs."""
from .machine import BURIED, DELAYED, READY, URGENT_BELOW, Machine


class LeastById(Machine):
    """The least ready job is the one with the lowest id, whatever its priority."""

    def rank(self, job):
        return job.id


class NewIdAtRelease(Machine):
    """A released job gets the next id."""

    def released(self, job):
        del self.jobs[job.id]
        job.id = self.next_id
        self.next_id += 1
        self.jobs[job.id] = job


class LeaseUncounted(Machine):
    """A lease that expires isn't counted."""

    def count_timeout(self, job):
        pass


class PutWhileDraining(Machine):
    """Puts are accepted while draining."""

    def takes_puts(self):
        return True


class PauseIgnored(Machine):
    """Jobs of a paused tube are handed out."""

    def is_paused(self, name):
        return False


class LastWaiterFirst(Machine):
    """A job goes to the client that has waited for the shortest time."""

    def wait_rank(self, seat):
        return -seat.ticket, seat.number


class DelayedKickedFirst(Machine):
    """A kick takes delayed jobs before buried ones."""

    def kicked_first(self, name):
        return self.jobs_in(name, DELAYED) or self.jobs_in(name, BURIED)


class UrgentAtTheLimit(Machine):
    """A ready job with the first priority that isn't urgent is counted as urgent."""

    def is_urgent(self, job):
        return job.state == READY and job.pri <= URGENT_BELOW


class FirstWatchedOnly(Machine):
    """A reserve looks only into the tube that the client has watched for the longest time."""

    def looks_in(self, seat):
        return seat.watched[:1]


class CloseKeepsJobs(Machine):
    """The jobs of a connection that was closed stay reserved."""

    def give_back(self, seat):
        pass


BROKEN = {
    "least-by-id": LeastById,
    "new-id-at-release": NewIdAtRelease,
    "lease-uncounted": LeaseUncounted,
    "put-while-draining": PutWhileDraining,
    "pause-ignored": PauseIgnored,
    "last-waiter-first": LastWaiterFirst,
    "delayed-kicked-first": DelayedKickedFirst,
    "urgent-at-the-limit": UrgentAtTheLimit,
    "first-watched-only": FirstWatchedOnly,
    "close-keeps-jobs": CloseKeepsJobs,
}
