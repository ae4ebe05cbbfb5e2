"""Runs of bqd with especially many clients: many answers by one command, many requests at the same moment, and a client
at each seat for each kind of event that is due."""
import concurrent.futures
import time

from faults import faults
from programs import same
from servers import Server, all_wait
from waiting_runs import ANSWER, ASK, all_ask_at_one_moment, often

# How late an answer may come, in seconds. A seat that isn't woken up polls again only after it has slept, which after
# some time is a second.
LATE = 0.2
LONG_WAIT = 1.6


def run_kick_for_many(bqd):
    """One kick for 120 clients that have waited for some time answers all of them at once."""
    many = 120
    ids = range(1, many + 1)

    def tried():
        with Server(bqd, "--seats", str(many + 1)) as server:
            kicks, *waiting = [server.client() for _ in range(many + 1)]
            kicks.asks(
                b"".join(b"put 0 0 60 1\r\nx\r\nreserve\r\nbury %d 0\r\n" % it for it in ids),
                b"".join(b"INSERTED %d\r\nRESERVED %d 1\r\nx\r\nBURIED\r\n" % (it, it) for it in ids),
            )
            for client in waiting:
                client.sends(b"reserve\r\n")
            all_wait(kicks, many)
            time.sleep(LONG_WAIT)
            begun = time.monotonic()
            kicks.asks(b"kick %d\r\n" % many, b"KICKED %d\r\n" % many)
            heard = set()
            for client in waiting:
                client.hears(b"RESERVED ")
                heard.add(int(client.stream.makefile("rb", buffering=0).readline().split()[0]))
            took = time.monotonic() - begun
            same(heard, set(ids))
            return None if took <= LATE else took

    often(tried)


def run_many_ask_at_one_moment(bqd):
    """Of 250 clients that make a request at the same moment, and then all wait, each is answered."""
    all_ask_at_one_moment(bqd, 250, 250, 20)


def run_delay_after_an_hour(bqd):
    """After more than an hour of silence, a delay of ten seconds ends in time, in each of several servers."""
    # How many times as fast the clock runs; and by that clock the silence, and how late a job may come, in seconds.
    speed, silence, late, servers = 2000, 5400, 300, 6

    def took(_):
        with Server(bqd, "--seats", "2", env=faults(clock=speed)) as server:
            waits, puts = server.client(), server.client()
            for client in (waits, puts):
                client.asks(ASK, ANSWER)
            time.sleep(silence / speed)
            begun = time.monotonic()
            puts.asks(b"put 0 10 60000 1\r\nx\r\n", b"INSERTED 1\r\n")
            waits.asks(b"reserve\r\n", b"RESERVED 1 1\r\nx\r\n")
            return (time.monotonic() - begun) * speed

    def tried():
        with concurrent.futures.ThreadPoolExecutor(servers) as pool:
            found = list(pool.map(took, range(servers)))
        return None if max(found) <= 10 + late else found

    often(tried)


class Round:
    """Clients that each wait in a tube of their own, and equally many others."""

    def __init__(self, number, waiting, others):
        self.waiting, self.others = waiting, others
        self.tubes = [b"round%d-%d" % (number, it) for it in range(len(waiting))]

    def each_watches(self, clients):
        for client, tube in zip(clients, self.tubes):
            client.sends(b"watch %s\r\nignore default\r\n" % tube)
            next_line(client)
            next_line(client)

    def each_waits(self):
        for client in self.waiting:
            client.sends(b"reserve\r\n")

    def put_into_each(self, put):
        """The others put a job into each tube."""
        for client, tube in zip(self.others, self.tubes):
            client.asks(b"use %s\r\n" % tube, b"USING %s\r\n" % tube)
            client.sends(put)
            next_line(client)

    def others_reserve(self):
        """Each of the others reserves the job of a tube."""
        self.each_watches(self.others)
        for client in self.others:
            client.sends(b"reserve\r\n")
            job(client)


def next_line(client):
    with client.stream.makefile("rb", buffering=0) as lines:
        return lines.readline()


def job(client):
    """Returns the id of the job that a client gets."""
    number = int(next_line(client).split()[1])
    client.hears(b"x\r\n")
    return number


# Each of these makes something due after a second.
def reserves(it):
    for client in it.waiting:
        client.sends(b"reserve-with-timeout 1\r\n")


def leases(it):
    it.put_into_each(b"put 0 0 1 1\r\nx\r\n")
    it.others_reserve()
    it.each_waits()


def delays(it):
    it.each_waits()
    it.put_into_each(b"put 0 1 60 1\r\nx\r\n")


def pauses(it):
    it.put_into_each(b"put 0 0 60 1\r\nx\r\n")
    for client, tube in zip(it.others, it.tubes):
        client.asks(b"pause-tube %s 1\r\n" % tube, b"PAUSED\r\n")
    it.each_waits()


def warnings(it):
    it.put_into_each(b"put 0 0 2 1\r\nx\r\n")
    for client in it.waiting:
        client.sends(b"reserve\r\n")
        job(client)
    it.each_waits()


def requeues(it):
    it.put_into_each(b"put 0 0 60 1\r\nx\r\n")
    it.others_reserve()
    it.each_waits()
    for client in it.others:
        client.close()


# Each with the answer that is due, or None if it is a job.
DUE = [(reserves, b"TIMED_OUT\r\n"), (leases, None), (delays, None), (pauses, None), (warnings, b"DEADLINE_SOON\r\n"), (requeues, None)]


def lateness(bqd, begin, told):
    """Returns how late the last of the clients gets the answer that is due, in seconds: first half of the seats have a
    waiting client, and then the other half."""
    half, worst = 4, 0
    with Server(bqd, "--seats", str(2 * half), "--requeue-delay", "1") as server:
        first, second = ([server.client() for _ in range(half)] for _ in range(2))
        for number, (waiting, others) in enumerate([(first, second), (second, first)]):
            # The only free seats are those of the clients that closed.
            waiting = [server.client() if it.stream.fileno() < 0 else it for it in waiting]
            now = Round(number, waiting, others)
            now.each_watches(waiting)
            begin(now)
            begun = time.monotonic()
            for client in waiting:
                if told:
                    client.hears(told)
                else:
                    client.asks(b"delete %d\r\n" % job(client), b"DELETED\r\n")
            worst = max(worst, time.monotonic() - begun - 1)
    return worst


def run_due_on_each_seat(bqd):
    """Whichever seat serves a waiting client, the client gets in time what is due: the end of its wait, of another
    client's lease, of a delay and of a pause, a warning, and the job of a client that disconnected."""
    def tried():
        with concurrent.futures.ThreadPoolExecutor(len(DUE)) as pool:
            found = list(pool.map(lambda it: (it[0].__name__, lateness(bqd, *it)), DUE))
        return None if all(late <= LATE for _, late in found) else found

    often(tried)
