"""Runs of bqd in which something is due while all clients are silent, a client blocks its seat, or many make requests
at once."""
import contextlib
import select
import socket
import threading
import time

from faults import faults
from programs import Ended, same
from queue_model.engines import of_loop
from servers import TAKEN, Server, value_told

# Within how many seconds an answer comes after it is due, unless the computer is busy: then it is tried again.
SOON = 0.005
TRIES = 8

# Within how many seconds draining is reported. Three threads act one after another, and on a busy computer each waits for
# a processor. A core that is not woken would sleep for an hour.
SOON_BY_THREE = 0.1

# After how many seconds all of these events are due. The server counts whole milliseconds.
SECOND = 1
MILLISECOND = 0.001

# Between two checks for a client that has disconnected, a seat sleeps a tenth of a second at first, and a second at
# most.
LONGEST_REST = 1

ASK = b"list-tube-used\r\n"
ANSWER = b"USING default\r\n"
PUT = b"put 0 0 60 1\r\nx\r\n"
JOB = b"RESERVED 1 1\r\nx\r\n"


def between(act):
    """Returns the moments just before and just after an act."""
    before = time.monotonic()
    act()
    return before, time.monotonic()


def often(tried):
    """Checks that something succeeds once. `tried` does it, and returns what was found if it failed."""
    found = []
    for _ in range(TRIES):
        found.append(tried())
        if found[-1] is None:
            return
    raise AssertionError(f"found {found}")


def is_due_in_time(bqd, begin, answer, *words):
    """Checks that a waiting client gets an answer a second after what `begin` does, never earlier, and at least once on
    time.

    `begin` gets three clients, makes something due, returns the moments before and after that, and leaves all clients
    silent or waiting: the first one for the answer.
    """
    def tried():
        with Server(bqd, "--seats", "3", *words) as server:
            clients = [server.client() for _ in range(3)]
            # Another client that waits, for a job of a tube that has none.
            clients[2].asks(b"watch none\r\nignore default\r\n", b"WATCHING 2\r\nWATCHING 1\r\n")
            clients[2].sends(b"reserve\r\n")
            time.sleep(0.15)
            before, after = begin(*clients)
            clients[0].hears(answer)
            heard = time.monotonic()
        same(heard - before >= SECOND - MILLISECOND, True)
        return None if heard - after <= SECOND + SOON else heard - after
    often(tried)


def run_lease_ends_while_all_sleep(bqd):
    """A job whose lease ends goes to a waiting client, in time."""
    def begin(waits, holds, _):
        holds.asks(b"put 0 0 1 1\r\nx\r\n", b"INSERTED 1\r\n")
        moments = between(lambda: holds.asks(b"reserve\r\n", JOB))
        waits.sends(b"reserve\r\n")
        return moments
    is_due_in_time(bqd, begin, JOB)


def run_delay_ends_while_all_sleep(bqd):
    """A job whose delay ends goes to a waiting client, in time."""
    def begin(waits, puts, _):
        waits.sends(b"reserve\r\n")
        time.sleep(0.05)
        return between(lambda: puts.asks(b"put 0 1 60 1\r\nx\r\n", b"INSERTED 1\r\n"))
    is_due_in_time(bqd, begin, JOB)


def run_pause_ends_while_all_sleep(bqd):
    """A job of a tube whose pause ends goes to a waiting client, in time."""
    def begin(waits, pauses, _):
        pauses.asks(PUT, b"INSERTED 1\r\n")
        moments = between(lambda: pauses.asks(b"pause-tube default 1\r\n", b"PAUSED\r\n"))
        waits.sends(b"reserve\r\n")
        return moments
    is_due_in_time(bqd, begin, JOB)


def run_reserve_ends_while_all_sleep(bqd):
    """A reserve that times out is answered in time."""
    def begin(waits, *_):
        return between(lambda: waits.sends(b"reserve-with-timeout 1\r\n"))
    is_due_in_time(bqd, begin, b"TIMED_OUT\r\n")


def run_deadline_nears_while_all_sleep(bqd):
    """A client that waits and holds a job whose lease ends a second later gets its warning in time."""
    def begin(waits, *_):
        waits.asks(b"put 0 0 2 1\r\nx\r\n", b"INSERTED 1\r\n")
        moments = between(lambda: waits.asks(b"reserve\r\n", JOB))
        waits.sends(b"reserve\r\n")
        return moments
    is_due_in_time(bqd, begin, b"DEADLINE_SOON\r\n")


def run_requeue_delay_ends_while_all_sleep(bqd):
    """A job of a client that disconnected goes to a waiting client once its requeue delay ends, in time."""
    def begin(waits, holds, _):
        holds.asks(PUT + b"reserve\r\n", b"INSERTED 1\r\n" + JOB)
        waits.sends(b"reserve\r\n")
        time.sleep(0.05)
        return between(holds.close)
    is_due_in_time(bqd, begin, JOB, "--requeue-delay", "1")


def run_earlier_moment_while_all_sleep(bqd):
    """What is due before the known next moment comes in time: the core, which sleeps until that moment, is woken up."""
    def begin(waits, puts, _):
        waits.sends(b"reserve-with-timeout 3\r\n")
        time.sleep(0.05)
        puts.asks(b"put 0 2 60 1\r\ny\r\n", b"INSERTED 1\r\n")
        return between(lambda: puts.asks(b"put 0 1 60 1\r\nx\r\n", b"INSERTED 2\r\n"))
    is_due_in_time(bqd, begin, b"RESERVED 2 1\r\nx\r\n")


def run_drain_while_all_sleep(bqd):
    """Draining begins as soon as it is requested, even if no client sends a command."""
    def tried():
        with Server(bqd, "--seats", "4") as server:
            puts = server.client()
            puts.asks(ASK, ANSWER)
            for _ in range(3):
                server.client().sends(b"reserve\r\n")
            time.sleep(0.15)
            before = time.monotonic()
            server.control(b"drain\n")
            server.tells(b"bqd: draining\n")
            took = time.monotonic() - before
            puts.asks(PUT, b"DRAINING\r\n")
        return None if took <= SOON_BY_THREE else took
    often(tried)


def works(client, rounds):
    """A client that puts jobs into a tube of its own, reserves and deletes them, this many times."""
    for _ in range(rounds):
        client.sends(PUT)
        number = int(client.stream.recv(64).split()[1])
        client.asks(b"reserve\r\ndelete %d\r\n" % number, b"RESERVED %d 1\r\nx\r\nDELETED\r\n" % number)


def run_others_beside_one_that_does_not_read(bqd):
    """A client that doesn't read its answers does not block other clients, and gets all of its answers when it reads.
    """
    size, peeks = 65535, 300
    body = b"y" * size
    with Server(bqd, "--seats", "3") as server:
        stopped, *others = [server.client() for _ in range(3)]
        stopped.asks(b"use big\r\nput 0 0 60 %d\r\n%s\r\n" % (size, body), b"USING big\r\nINSERTED 1\r\n")
        stopped.sends(b"peek 1\r\n" * peeks)
        # Its seat's thread is blocked in a write by now.
        time.sleep(0.1)
        for client in others:
            works(client, 200)
        others[0].sends(b"reserve\r\n")
        time.sleep(0.05)
        others[1].sends(PUT)
        others[0].hears(b"RESERVED 402 1\r\nx\r\n")
        for _ in range(peeks):
            stopped.hears(b"FOUND 1 %d\r\n%s\r\n" % (size, body))


def all_ask_at_one_moment(bqd, seats, number, rounds):
    """Fails unless all of some clients are answered that make a request at the same moment, and then all wait."""
    with Server(bqd, "--seats", str(seats)) as server:
        clients = [server.client() for _ in range(number)]
        for _ in range(rounds):
            for client in clients:
                client.sends(ASK)
            for client in clients:
                client.hears(ANSWER)


def served_before_a_lone_command(bqd, most, **chosen):
    """Checks that of 1,000 puts that one client sends at once, an event loop serves up to this many before the command of
    another client."""
    puts = 1000
    with Server(bqd, "--seats", "2", **chosen) as server:
        many, other = server.client(), server.client()
        for client in (many, other):
            client.asks(ASK, ANSWER)
        # Both are ready when it goes on.
        with server.stopped():
            many.sends(PUT * puts)
            other.sends(ASK + b"stats\r\n")
        other.hears(ANSWER)
        same(value_told(other, b"total-jobs") <= most, True)
        many.hears(b"".join(b"INSERTED %d\r\n" % it for it in range(1, puts + 1)))


@of_loop
def run_batch_beside_a_lone_command(bqd):
    """A client that sends many commands at once has an event loop for some 64 of them, and then another client has its
    turn. On a busy machine that turn may end by the clock before the other client's second command, `stats`: then the
    first client has one more turn."""
    served_before_a_lone_command(bqd, 2 * 72)


@of_loop
def run_heavy_commands_beside_a_lone_one(bqd):
    """A client whose commands take long has an event loop for one of them, or two, and then another client has its turn.
    The other client's `stats` is its second command: three are served before it. The clock runs 200 times as fast, so
    that each command takes long."""
    served_before_a_lone_command(bqd, 3, env=faults(clock=200))


@of_loop
def run_puts_beside_heavy_commands(bqd):
    """While a client sends many commands at once that take long, an event loop serves two of them, and then a put of
    another client. Each of them looks at 8,000 tubes."""
    tubes, heavy, puts = 8000, 400, 40

    def tried():
        with Server(bqd, "--seats", "2") as server:
            many, other = server.client(), server.client()
            many.asks(
                b"".join(b"watch t%d\r\n" % it for it in range(tubes)),
                b"".join(b"WATCHING %d\r\n" % (it + 2) for it in range(tubes)),
            )
            other.asks(b"use t\r\n", b"USING t\r\n")
            many.sends(b"reserve-with-timeout 0\r\n" * heavy)
            left, between = heavy, []
            while left > 0 and len(between) < puts:
                other.asks(PUT, b"INSERTED %d\r\n" % (len(between) + 1))
                arrived = lines_arrived(many)
                left -= arrived
                between.append(arrived)
            middle = sorted(between)[len(between) // 2]
        return None if middle <= 3 else middle
    often(tried)


def lines_arrived(client):
    """Returns how many lines have arrived at a client."""
    lines = 0
    while select.select([client.stream], [], [], 0)[0]:
        lines += client.stream.recv(1 << 16).count(b"\n")
    return lines


@of_loop
def run_new_client_beside_two_streams(bqd):
    """While two clients send commands without a pause and read the answers, a new client is served soon."""
    def tried():
        with Server(bqd, "--seats", "4") as server:
            busy = [server.client() for _ in range(2)]
            for it in busy:
                it.asks(ASK, ANSWER)
            with streaming(busy, 4):
                time.sleep(0.5)
                took = []
                for _ in range(3):
                    begun = time.monotonic()
                    client = server.client()
                    client.asks(ASK, ANSWER)
                    client.close()
                    took.append(time.monotonic() - begun)
        return None if sorted(took)[1] <= 0.25 else took
    often(tried)


@contextlib.contextmanager
def streaming(clients, seconds):
    """These clients send commands and read the answers meanwhile, for this many seconds at most."""
    end = time.monotonic() + seconds

    def sends(client):
        with contextlib.suppress(OSError):
            while time.monotonic() < end:
                client.stream.sendall(ASK * 4000)

    def reads(client):
        with contextlib.suppress(OSError):
            while time.monotonic() < end and client.stream.recv(1 << 20):
                pass

    threads = [threading.Thread(target=work, args=[it], daemon=True) for it in clients for work in (sends, reads)]
    for it in threads:
        it.start()
    yield
    # Not at the end of their time: their connections are broken.
    end = 0
    for it in clients:
        it.stream.shutdown(socket.SHUT_RDWR)
    for it in threads:
        it.join()


def run_client_that_does_not_read_takes_no_time(bqd):
    """While a client does not read its answers, the server takes no processor time."""
    size = 60000
    with Server(bqd, "--seats", "1") as server:
        client = server.client()
        client.asks(b"put 0 0 60 %d\r\n%s\r\n" % (size, b"x" * size), b"INSERTED 1\r\n")
        client.sends(b"peek 1\r\n" * 400)
        time.sleep(0.5)
        often(lambda: time_in_a_second(server))


def run_end_of_the_control_line_takes_no_time(bqd):
    """Once the control line, a pipe, has ended, the server takes no processor time."""
    with Server(bqd, "--seats", "2") as server:
        server.client().asks(ASK, ANSWER)
        server.end_control()
        time.sleep(0.3)
        often(lambda: time_in_a_second(server))


@of_loop
def run_gone_at_once(bqd):
    """An event loop frees the seat of a client that goes while it waits as soon as it has gone."""
    def tried():
        with Server(bqd, "--seats", "1") as server:
            first, other = server.client(), server.client()
            first.asks(ASK + b"reserve\r\n", ANSWER)
            other.sends(ASK)
            other.hears_nothing(0.15)
            begun = time.monotonic()
            first.close()
            other.hears(ANSWER)
            took = time.monotonic() - begun
        return None if took <= SOON else took
    often(tried)


def run_no_step_is_left_over(bqd):
    """Of clients that make a request at the same moment, and then all wait, each is answered."""
    for number, rounds in ((2, 3000), (4, 2000), (16, 300)):
        all_ask_at_one_moment(bqd, 16, number, rounds)


def run_ends_while_seats_are_busy(bqd):
    """Once it has served its connections it ends at once, even if seats were busy up to the last moment."""
    def tried():
        with Server(bqd, "--seats", "4", "--sessions", "2") as server:
            server.process.stdin.close()

            def serves_two(number):
                for _ in range(2):
                    client = server.client()
                    client.asks(b"use t%d\r\nwatch t%d\r\n" % (number, number), b"USING t%d\r\nWATCHING 2\r\n" % number)
                    works(client, 100)
                    client.asks(b"list-tube-used\r\nquit\r\n", b"USING t%d\r\n" % number)
                    client.hears_end()

            threads = [threading.Thread(target=serves_two, args=[number]) for number in range(4)]
            for it in threads:
                it.start()
            for it in threads:
                it.join()
            begun = time.monotonic()
            same(server.process.wait(20), 0)
            took = time.monotonic() - begun
            # It is reported if all four were served at the same time.
            same(server.process.stderr.read().replace(TAKEN, b""), b"")
        return None if took <= 0.1 else took
    often(tried)


def measured_at_rest(bqd, silent, waiting, rest, measure):
    """Measures a server with some silent clients and others that wait, after some seconds.

    `measure` returns None, or what is wrong.
    """
    with Server(bqd, "--seats", str(silent + waiting + 1)) as server:
        for _ in range(silent):
            server.client().asks(ASK, ANSWER)
        for _ in range(waiting):
            server.client().sends(b"reserve\r\n")
        time.sleep(rest)
        often(lambda: measure(server))


def woken(server, seconds, most):
    """Returns how often the threads of the server wake in some seconds, or None if that is at most `most` times."""
    before = server.times_woken()
    time.sleep(seconds)
    times = server.times_woken() - before
    return None if times <= most else times


def time_in_a_second(*servers):
    """Returns how much processor time the servers take in a second, and how much they want, each in seconds, or None if
    none takes more than a twentieth or wants more than half of it.

    On a busy computer a server that never sleeps may get little. It still wants all of the time.
    """
    def times():
        return [(it.time_worked(), it.time_wanted()) for it in servers]

    before = times()
    time.sleep(1)
    took = [(now[0] - then[0], now[1] - then[1]) for now, then in zip(times(), before)]
    return None if all(worked <= 0.05 and wanted <= 0.5 for worked, wanted in took) else took


def run_idle_server_is_not_woken(bqd):
    """While 200 clients are silent, no thread of the server wakes up."""
    measured_at_rest(bqd, 200, 0, 0.2, lambda server: woken(server, 1, 0))


def run_idle_server_takes_no_time(bqd):
    """While 200 clients are silent, the server takes no processor time."""
    measured_at_rest(bqd, 200, 0, 0.2, time_in_a_second)


def run_those_who_wait_are_seldom_woken(bqd):
    """While 50 clients have waited for some time, the server's threads wake up at most 60 times a second in total."""
    measured_at_rest(bqd, 0, 50, 2, lambda server: woken(server, 2, 120))


@of_loop
def run_loop_is_not_woken(bqd):
    """While 200 clients are silent and 50 wait, an event loop does not wake up at all."""
    measured_at_rest(bqd, 200, 50, 0.5, lambda server: woken(server, 2, 0))


def run_gone_after_a_long_wait(bqd):
    """If a client disconnects after it has waited for long, the job that it held is soon available to another client.
    """
    with Server(bqd, "--seats", "2") as server:
        goes, waits = server.client(), server.client()
        goes.asks(PUT + b"reserve\r\n", b"INSERTED 1\r\n" + JOB)
        goes.sends(b"reserve\r\n")
        waits.sends(b"reserve\r\n")
        time.sleep(3.3)
        begun = time.monotonic()
        goes.close()
        waits.hears(JOB)
        same(time.monotonic() - begun < LONGEST_REST + 0.5, True)
