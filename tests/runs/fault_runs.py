"""Runs of bqd in which system calls fail, or clients misbehave."""
import errno
import os
import select
import socket
import time

from faults import faults
from programs import Ended, limits, same
from queue_model.engines import of_loop, of_threads
from servers import OTHERS, TAKEN, Server, awaits, threads_with, value
from waiting_runs import often

# How long a seat sleeps that could not get a resource for a connection, in seconds.
REST = 0.1

# How many seconds an operation of a tenth of a second may take on a busy computer.
LONG = 5.0

# How late the end of a lease may be, in seconds, and how often it is tried, since a busy computer can be late by itself.
LATE = 0.05
TRIES = 8

ASK, ANSWER = b"list-tube-used\r\n", b"USING default\r\n"


def run_peers_that_are_gone(bqd):
    """A connection that is gone before it is accepted is skipped without a report."""
    for code in [errno.ECONNABORTED, errno.EINTR]:
        with Server(bqd, "--seats", "1", "--sessions", "1", env=faults(accepts=code, times=3)) as server:
            client = server.client()
            client.asks(ASK, ANSWER)
            client.close()
            same(server.end(), Ended(0, b"", b""))


def run_many_peers_that_are_gone(bqd):
    """The next client is served, however many before it are gone, and at once if it is only some. An event loop reports
    that 64 in a row were gone, after which it sleeps."""
    for many, most in [(20, 0.5), (64, LONG), (200, LONG)]:
        def tried():
            with Server(bqd, "--seats", "1", env=faults(accepts=errno.ECONNABORTED, times=many, after=1)) as server:
                # An event loop has found no client by now.
                time.sleep(0.1)
                begun = time.monotonic()
                client = server.client()
                client.stream.settimeout(2 * LONG)
                client.asks(ASK, ANSWER)
                took = time.monotonic() - begun
                if bqd.is_loop and many >= 64:
                    server.tells(b"bqd: no connection can be accepted: connection aborted\n")
            return None if took <= most else took
        often(tried)


def run_connection_that_would_hold_back(bqd):
    """A connection that can't be set to send each write at once is closed unserved, and the next one is accepted."""
    with Server(bqd, "--seats", "1", "--sessions", "1", env=faults(nodelay=errno.EINVAL, times=1)) as server:
        first = server.client()
        first.hears_end()
        client = server.client()
        client.asks(ASK, ANSWER)
        client.close()
        same(server.end(), Ended(0, b"", b""))


@of_loop
def run_connection_that_cannot_be_watched(bqd):
    """A connection that can't be watched is closed unserved, which is reported once, and the next one is accepted."""
    for code in [errno.ENOSPC, errno.ENOMEM]:
        with Server(bqd, "--seats", "1", "--sessions", "1", env=faults(watches=code, times=2)) as server:
            for _ in range(2):
                server.client().hears_end()
            client = server.client()
            client.asks(ASK, ANSWER)
            client.close()
            same(server.end(), Ended(0, b"", told_of(code)))


# The resources that a connection can lack, and the errors that Linux returns for a connection that the network or a
# firewall broke (accept(2)).
SHORTAGES = [errno.EMFILE, errno.ENFILE, errno.ENOBUFS, errno.ENOMEM]
OF_THE_NETWORK = [
    errno.EPROTO, errno.ENETDOWN, errno.ENOPROTOOPT, errno.EHOSTDOWN, errno.ENONET, errno.EHOSTUNREACH, errno.EOPNOTSUPP,
    errno.ENETUNREACH, errno.EPERM, errno.ETIMEDOUT,
]

# The errors that mean that the listener itself is broken.
OF_THE_LISTENER = [errno.EINVAL, errno.EBADF, errno.ENOTSOCK, errno.EFAULT]
AT_THE_END = b"bqd: a connection could not be accepted\n"


def told_of(code):
    """The message for an error of accept."""
    return f"bqd: no connection can be accepted: {os.strerror(code)} (os error {code})\n".encode()


def run_shortages(bqd):
    """After an error of one connection, or if a resource is lacking, the seat sleeps and tries again. That is reported
    once."""
    tries = 2
    for code in SHORTAGES + OF_THE_NETWORK:
        begun = time.monotonic()
        with Server(bqd, "--seats", "1", "--sessions", "1", env=faults(accepts=code, times=tries)) as server:
            client = server.client()
            client.asks(ASK, ANSWER)
            same(time.monotonic() - begun >= tries * REST, True)
            client.close()
            same(server.end(), Ended(0, b"", told_of(code)))


def run_shortage_ends_beside_a_due_moment(bqd):
    """After a shortage a connection is soon accepted, even if the next moment at which something is due is far away."""
    with Server(bqd, "--seats", "2", before=limits(NOFILE=(5 + bqd.is_loop, 64))) as server:
        first, second = server.client(), server.client()
        first.sends(b"reserve-with-timeout 15\r\n")
        server.tells(told_of(errno.EMFILE))
        second.sends(ASK)
        server.may_open(64)
        second.stream.settimeout(LONG)
        second.hears(ANSWER)


def run_rest_that_ends_within_a_round(bqd):
    """The sleep after a shortage ends even if its time has passed before the server waits: the clock runs 5,000 times as
    fast."""
    for _ in range(5):
        with Server(bqd, "--seats", "1", env=faults(accepts=errno.EMFILE, times=3, after=1, clock=5000)) as server:
            client = server.client()
            client.stream.settimeout(LONG)
            client.asks(ASK, ANSWER)


def run_faults_of_a_listener(bqd):
    """A fault of the listener itself ends a seat for good, which is reported; another seat continues. It is reported at
    the end too, with status 1."""
    for code in OF_THE_LISTENER:
        with Server(bqd, "--seats", "2", "--sessions", "1", env=faults(accepts=code, times=1)) as server:
            server.tells(told_of(code))
            awaits(lambda: server.threads() == threads_with(bqd, 1))
            client = server.client()
            client.asks(ASK, ANSWER)
            # A seat that has ended isn't free.
            server.tells(TAKEN)
            client.close()
            # The last seat ended normally: the server waits for the end of the control line.
            same(server.goes_on(2 * REST), True)
            same(server.end(), Ended(1, b"", AT_THE_END))


def run_last_seat_fails(bqd):
    """Once the last seat has ended because of a fault of the listener, the server reports it and ends with status 1,
    whether or not the control line is open."""
    for seats, words in [(1, []), (2, []), (2, ["--sessions", "1"])]:
        for is_open in [True, False]:
            code = errno.EINVAL
            with Server(bqd, "--seats", str(seats), *words, env=faults(accepts=code, times=seats)) as server:
                same(server.ended() if is_open else server.end(), Ended(1, b"", told_of(code) + AT_THE_END))


@of_threads
def run_last_seat_fails_behind_a_client(bqd):
    """It also does so after the client of the last seat has disconnected, and if the other seat has served all that it
    may."""
    code = errno.EBADF
    with Server(bqd, "--seats", "1", env=faults(accepts=code, after=1, times=1)) as server:
        client = server.client()
        client.asks(ASK, ANSWER)
        same(server.goes_on(2 * REST), True)
        client.asks(ASK, ANSWER)
        client.close()
        same(server.ended(), Ended(1, b"", TAKEN + told_of(code) + AT_THE_END))
    with Server(bqd, "--seats", "2", "--sessions", "2", env=faults(accepts=code, after=3, times=1)) as server:
        last = server.client()
        last.asks(ASK, ANSWER)
        for _ in range(2):
            client = server.client()
            client.asks(ASK + b"quit\r\n", ANSWER)
            client.hears_end()
        # The other seat's thread has ended.
        awaits(lambda: server.threads() == threads_with(bqd, 1))
        last.asks(ASK, ANSWER)
        last.close()
        same(server.ended(), Ended(1, b"", TAKEN + told_of(code) + AT_THE_END))


@of_threads
def run_each_thread_refused(bqd):
    """Whichever thread can't be started, no client is served, and the status is 1."""
    with Server(bqd, "--seats", "256", env=faults(thread=200)) as server:
        same(server.end(), Ended(1, b"", b"bqd: a thread was refused\n"))
    seats = 2
    # The first thread already exists.
    threads = seats + OTHERS - 1
    for nth in range(1, threads + 1):
        with Server(bqd, "--seats", str(seats), env=faults(thread=nth)) as server:
            same(server.end(), Ended(1, b"", b"bqd: a thread was refused\n"))
    with Server(bqd, "--seats", str(seats), env=faults(thread=threads + 1)) as server:
        server.client().asks(ASK, ANSWER)


@of_loop
def run_one_thread_alone(bqd):
    """An event loop has no other thread beside it, whatever it reports."""
    with Server(bqd, "--seats", "2") as server:
        for _ in range(2):
            server.client().asks(ASK, ANSWER)
        same(server.told_next(), TAKEN)
        server.control(b"drain\n")
        server.tells(b"bqd: draining\n")
        same(server.threads(), 1)


def passing_errors(bqd):
    """The errors of a call that is repeated soon. An event loop repeats a call that found nothing only once the system
    reports more, which it does if it really had found nothing."""
    return [errno.EINTR] if bqd.is_loop else [errno.EINTR, errno.EAGAIN]


def run_reads_that_are_tried_again(bqd):
    """A read that was interrupted, or that has nothing yet, is repeated soon."""
    for code in passing_errors(bqd):
        with Server(bqd, "--seats", "1", "--sessions", "1", env=faults(reads=code, times=2)) as server:
            client = server.client()
            client.stream.settimeout(LONG)
            client.asks(ASK, ANSWER)
            client.close()
            same(server.end(), Ended(0, b"", b""))


def run_writes_that_are_tried_again(bqd):
    """A write that was interrupted, or that found no room, is repeated, also for the rest of an answer. Every byte
    arrives once."""
    puts = 8
    answers = b"".join(b"INSERTED %d\r\n" % put for put in range(1, puts + 1))
    for code in passing_errors(bqd):
        for nth, cut in [(1, 0), (2, 0), (2, 3), (puts, 0), (puts, 11)]:
            with Server(bqd, "--seats", "1", "--sessions", "1", env=faults(writes=code, nth=nth, cut=cut)) as server:
                client = server.client()
                client.stream.settimeout(LONG)
                client.sends(b"put 0 0 9 1\r\nx\r\n" * puts)
                client.hears(answers)
                client.close()
                same(server.end(), Ended(0, b"", b""))


def run_writes_that_fail(bqd):
    """After any other error of a write, the answer before it is the last that counts, or was cut off there. No later
    command of the client is carried out, and the seat serves the next client."""
    puts = 8
    for code in [errno.EPIPE, errno.ECONNRESET, errno.ENOBUFS]:
        for nth, cut in [(1, 0), (2, 0), (2, 3), (puts, 0), (puts, 11)]:
            # If the previous answer was cut, the write that fails is that of its rest.
            carried_out = nth - 1 if cut else nth
            answers = b"".join(b"INSERTED %d\r\n" % put for put in range(1, carried_out + 1))
            written = answers[: len(b"INSERTED 1\r\n") * (carried_out - 1) + cut]
            with Server(bqd, "--seats", "1", "--sessions", "2", env=faults(writes=code, nth=nth, cut=cut)) as server:
                client = server.client()
                client.sends(b"put 0 0 9 1\r\nx\r\n" * puts)
                client.hears(written)
                client.hears_end()
                other = server.client()
                same(value(other, b"total-jobs"), carried_out)


def run_gone_while_it_waits(bqd):
    """If a client disconnects while it waits, its seat is soon free for another client."""
    with Server(bqd, "--seats", "1") as server:
        first = server.client()
        first.asks(ASK + b"reserve\r\n", ANSWER)
        # Its seat sleeps by now.
        time.sleep(0.15)
        first.close()
        other = server.client()
        other.stream.settimeout(LONG)
        other.asks(ASK, ANSWER)


def run_large_answers_behind_a_wait(bqd):
    """Answers larger than what the system takes at once are complete, also after a wait."""
    size, peeks = 1 << 20, 12
    body = bytes(at * 7 % 251 for at in range(size))
    with Server(bqd, "--seats", "2", "--max-job-size", str(size)) as server:
        waits, puts = server.client(), server.client()
        waits.sends(b"reserve\r\n")
        # Meanwhile its seat checks with reads that don't wait whether it has disconnected.
        time.sleep(0.15)
        waits.sends(b"peek 1\r\n" * peeks)
        time.sleep(0.15)
        puts.asks(b"put 0 0 60 %d\r\n%s\r\n" % (size, body), b"INSERTED 1\r\n")
        time.sleep(0.15)
        waits.hears(b"RESERVED 1 %d\r\n%s\r\n" % (size, body))
        for _ in range(peeks):
            waits.hears(b"FOUND 1 %d\r\n%s\r\n" % (size, body))


def run_answers_that_nobody_reads(bqd):
    """Answers that a client doesn't read take no memory: the server waits for the client."""
    size, peeks = 65535, 200
    answer = b"FOUND 1 %d\r\n%s\r\n" % (size, b"x" * size)
    with Server(bqd, "--seats", "1") as server:
        client = server.client()
        client.asks(b"put 0 0 60 %d\r\n%s\r\n" % (size, b"x" * size), b"INSERTED 1\r\n")
        before = server.memory()
        client.sends(b"peek 1\r\n" * peeks)
        time.sleep(0.2)
        same(server.memory() - before < 20 * size, True)
        for _ in range(peeks):
            client.hears(answer)


def run_time_goes_as_it_does(bqd):
    """A lease of one second ends one second later and not earlier, even while steps are taken all the time, whatever the
    moment at which it begins."""
    with Server(bqd, "--seats", "3") as server:
        holds, waits, asks = server.client(), server.client(), server.client()
        least = 3
        for number in range(1, TRIES + 1):
            time.sleep(0.3)
            begun = time.monotonic()
            holds.asks(
                b"put 0 0 1 1\r\nx\r\nreserve\r\n",
                b"INSERTED %d\r\nRESERVED %d 1\r\nx\r\n" % (number, number),
            )
            waits.sends(b"reserve\r\n")
            while not select.select([waits.stream], [], [], 0.005)[0]:
                asks.asks(ASK, ANSWER)
            took = time.monotonic() - begun
            waits.asks(b"delete %d\r\n" % number, b"RESERVED %d 1\r\nx\r\nDELETED\r\n" % number)
            # The server counts whole milliseconds.
            same(took >= 0.999, True)
            if took <= 1 + LATE and number >= least:
                return
    raise AssertionError("the lease was passed on late each time")


def run_wall_clock_is_set(bqd):
    """If the clock of the date is set an hour ahead, no lease ends."""
    with Server(bqd, "--seats", "2", env=faults(step=3600)) as server:
        holds, other = server.client(), server.client()
        holds.asks(b"put 0 0 600 1\r\nx\r\nreserve\r\n", b"INSERTED 1\r\nRESERVED 1 1\r\nx\r\n")
        time.sleep(2.1)
        other.asks(b"reserve-with-timeout 0\r\n", b"TIMED_OUT\r\n")


def run_serves_without_end(bqd):
    """Without a chosen number, a seat serves one client after another without limit."""
    with Server(bqd, "--seats", "1") as server:
        for _ in range(1200):
            client = server.client()
            client.asks(ASK, ANSWER)
            client.close()
        server.clients.clear()


def run_answers_go_out_at_once(bqd):
    """An answer is sent at once, even if its client has not acknowledged the previous one."""
    with Server(bqd, "--seats", "2") as server:
        one, other = server.client(), server.client()
        took = []
        for number in range(1, 5 * TRIES + 1):
            # The client's system does not acknowledge within 40 milliseconds.
            one.stream.setsockopt(socket.IPPROTO_TCP, socket.TCP_QUICKACK, 0)
            one.asks(ASK + b"reserve\r\n", ANSWER)
            begun = time.monotonic()
            other.sends(b"put 0 0 60 1\r\nx\r\n")
            one.hears(b"RESERVED %d 1\r\nx\r\n" % number)
            took.append(time.monotonic() - begun)
            other.hears(b"INSERTED %d\r\n" % number)
            one.asks(b"delete %d\r\n" % number, b"DELETED\r\n")
            if number >= 5 and min(took) < 0.02:
                return
    raise AssertionError(f"it took {took}")
