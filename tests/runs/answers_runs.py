"""Runs of bqd whose clients send many commands together: each answer is complete, in order, and sent at once."""
import os
import socket
import statistics
import struct
import subprocess
import time

from programs import Ended, same
from servers import Server, awaits, value

# Within how many seconds the last answer of a batch has to come. A system that waits for an acknowledgement of what it
# sent before would delay it by 0.04.
SOON = 0.025

# How often it is tried, since a busy computer can be late without the server's fault, and how often it has to be soon.
TRIES = 40
SOON_TRIES = 4
WARM_UP = 10

# How many batches are sent beside busy programs. Half of them have to be soon, at each of several servers: a server that
# yields too often is quick now and then.
BUSY_TRIES = 20
BUSY_SERVERS = 3

LARGE = 60000
SMALL = b"USING default\r\n"


def body_of(size):
    """Returns a body in which no byte equals its neighbours."""
    return bytes(at * 7 % 251 for at in range(size))


def with_job(server, size):
    """Returns a client, and the answer to a peek at job 1, which has this many bytes."""
    client = server.client()
    client.asks(b"put 0 0 600 %d\r\n" % size + body_of(size) + b"\r\n", b"INSERTED 1\r\n")
    return client, b"FOUND 1 %d\r\n" % size + body_of(size) + b"\r\n"


def resets(client):
    """Resets the connection, which drops the data in it."""
    client.stream.setsockopt(socket.SOL_SOCKET, socket.SO_LINGER, struct.pack("ii", 1, 0))
    client.stream.close()


def is_soon(tried):
    """Checks that something is often quick. `tried` does it once and returns how long it took."""
    # The system acknowledges the first packets at once, whatever the server does.
    for _ in range(WARM_UP):
        tried()
    took = []
    for _ in range(TRIES):
        took.append(tried())
        if sum(it <= SOON for it in took) == SOON_TRIES:
            return
    raise AssertionError(f"it took {took}")


def run_thousand_at_once(bqd):
    """A thousand commands in one send are answered completely and in order, with answers of 16 KB, 64 KB and 20 MB in
    total, even if the client stops reading for three seconds."""
    for size, share, rest in [(0, 1000, 0), (47, 1, 0), (LARGE, 3, 0), (LARGE, 3, 3)]:
        with Server(bqd, "--seats", "1") as server:
            client, found = with_job(server, size)
            peeked = [at % share == 0 for at in range(1000)]
            client.sends(b"".join(b"peek 1\r\n" if it else b"list-tube-used\r\n" for it in peeked))
            time.sleep(rest)
            client.hears(b"".join(found if it else SMALL for it in peeked))
            client.hears_nothing(0.05)


def run_batch_byte_by_byte(bqd):
    """A batch that arrives byte by byte is answered like one that arrives at once."""
    with Server(bqd, "--seats", "1") as server:
        client, found = with_job(server, 3)
        client.stream.setsockopt(socket.IPPROTO_TCP, socket.TCP_NODELAY, 1)
        for byte in b"peek 1\r\nput 0 0 600 2\r\nab\r\nlist-tube-used\r\n" * 5 + b"quit\r\n":
            client.sends(bytes([byte]))
        client.hears(b"".join(found + b"INSERTED %d\r\n" % number + SMALL for number in range(2, 7)))
        client.hears_end()


def run_batch_with_a_wait(bqd):
    """Puts followed by a waiting reserve are answered before it is, even if more commands follow than one read takes;
    what it waits for comes as soon as it is put, and then the other answers."""
    behind = 600
    with Server(bqd, "--seats", "2") as server:
        client, other = server.client(), server.client()
        client.asks(b"use far\r\n", b"USING far\r\n")
        numbers = iter(range(1, 10000))

        def answered():
            ids = [next(numbers) for _ in range(20)]
            begun = time.monotonic()
            client.sends(b"put 0 0 600 1\r\nx\r\n" * 20 + b"reserve\r\n" + b"list-tube-used\r\n" * behind)
            client.hears(b"".join(b"INSERTED %d\r\n" % it for it in ids))
            took = time.monotonic() - begun
            client.hears_nothing(0.01)
            number = next(numbers)
            other.sends(b"put 0 0 600 1\r\ny\r\n")
            client.hears(b"RESERVED %d 1\r\ny\r\n" % number + b"USING far\r\n" * behind)
            other.hears(b"INSERTED %d\r\n" % number)
            return took

        is_soon(answered)


def run_hand_out_behind_a_batch(bqd):
    """A reserve at the end of a batch that waits is answered at once when its job comes, and so is one whose job is
    already there."""
    with Server(bqd, "--seats", "2") as server:
        client, other = server.client(), server.client()
        numbers = iter(range(1, 10000))

        def waited():
            client.asks(b"list-tube-used\r\n" * 20 + b"reserve\r\n", SMALL * 20)
            number = next(numbers)
            begun = time.monotonic()
            other.sends(b"put 0 0 600 1\r\ny\r\n")
            client.hears(b"RESERVED %d 1\r\ny\r\n" % number)
            other.hears(b"INSERTED %d\r\n" % number)
            return time.monotonic() - begun

        def ready():
            number = next(numbers)
            begun = time.monotonic()
            client.sends(b"list-tube-used\r\n" * 20 + b"put 0 0 600 1\r\ny\r\nreserve\r\n")
            client.hears(SMALL * 20 + b"INSERTED %d\r\nRESERVED %d 1\r\ny\r\n" % (number, number))
            return time.monotonic() - begun

        is_soon(waited)
        is_soon(ready)


def run_last_answer_at_once(bqd):
    """The last answer of a batch comes at once, and so does that of a single command and of one in two packets."""
    with Server(bqd, "--seats", "1") as server:
        client, found = with_job(server, 500)

        def answered(*texts, count):
            def once():
                begun = time.monotonic()
                for text in texts:
                    client.sends(text)
                client.hears((SMALL + found) * count)
                return time.monotonic() - begun
            return once

        both = b"list-tube-used\r\npeek 1\r\n"
        for count in [1, 2, 25]:
            is_soon(answered(both * count, count=count))
        is_soon(answered(both * 25 + b"list-tube", b"-used\r\npeek 1\r\n", count=26))


def run_answers_before_a_long_body(bqd):
    """Answers to commands that arrive with the beginning of a put come at once, although the rest of its body has not
    arrived."""
    with Server(bqd, "--seats", "1") as server:
        client, body = server.client(), body_of(LARGE)
        numbers = iter(range(1, 10000))

        def answered():
            begun = time.monotonic()
            client.sends(b"list-tube-used\r\n" * 20 + b"put 0 0 600 %d\r\n" % LARGE + body[:1000])
            client.hears(SMALL * 20)
            took = time.monotonic() - begun
            client.asks(body[1000:] + b"\r\n", b"INSERTED %d\r\n" % next(numbers))
            return took

        is_soon(answered)


class BusyPrograms:
    """Programs that keep all processors busy meanwhile: two for each processor that this one may use."""

    def __enter__(self):
        # Each ends by itself if this process can't end it.
        loop = ["sh", "-c", "ulimit -t 60; while :; do :; done"]
        self.all = [subprocess.Popen(loop) for _ in range(2 * len(os.sched_getaffinity(0)))]

    def __exit__(self, *why):
        for it in self.all:
            it.kill()
            it.wait()


def batches_beside_busy_programs(bqd):
    """Checks that half of a new server's batches are answered at once beside busy programs."""
    with Server(bqd, "--seats", "1") as server, BusyPrograms():
        client = server.client()
        took = []
        for _ in range(BUSY_TRIES):
            begun = time.monotonic()
            client.asks(b"list-tube-used\r\n" * 25, SMALL * 25)
            took.append(time.monotonic() - begun)
    if statistics.median(took) > SOON:
        raise AssertionError(f"it took {took}")


def run_batch_beside_busy_programs(bqd):
    """Most batches are answered at once even if other programs keep all processors busy."""
    for _ in range(BUSY_SERVERS):
        batches_beside_busy_programs(bqd)


def run_batch_then_half_a_put(bqd):
    """The commands before half a put are answered at once, and the put once the rest of it has come."""
    with Server(bqd, "--seats", "1") as server:
        client = server.client()
        numbers = iter(range(1, 10000))

        def answered():
            begun = time.monotonic()
            client.asks(b"list-tube-used\r\n" * 50 + b"put 0 0 600 5\r\nab", SMALL * 50)
            took = time.monotonic() - begun
            client.asks(b"cde\r\n", b"INSERTED %d\r\n" % next(numbers))
            return took

        is_soon(answered)


def run_batch_then_the_end(bqd):
    """A batch followed by a half-close is answered completely, and then the server closes."""
    with Server(bqd, "--seats", "1", "--sessions", "1") as server:
        client, found = with_job(server, LARGE)
        client.sends(b"peek 1\r\nlist-tube-used\r\n" * 50)
        client.stream.shutdown(socket.SHUT_WR)
        client.hears((found + SMALL) * 50)
        client.hears_end()
        client.close()
        same(server.end(), Ended(0, b"", b""))


def run_batch_then_a_quit_and_more(bqd):
    """A batch followed by a quit is answered completely, and then the server closes, even if more bytes follow the quit
    than one read takes; nobody reads these."""
    with Server(bqd, "--seats", "1") as server:
        for more in [b"", SMALL, b"x" * 1000, b"x" * 70000, b"x" * 200000]:
            for _ in range(10):
                client = server.client()
                client.sends_while_read(b"list-tube-used\r\n" * 50 + b"quit\r\n" + more)
                same(client.all_that_comes(), SMALL * 50)
                client.close()


def run_reset_while_answers_are_written(bqd):
    """Once a write of an answer has failed, no later command of that client is carried out. The job that the client
    held is ready again, and its seat serves another client."""
    with Server(bqd, "--seats", "2") as server:
        client, found = with_job(server, LARGE)
        client.asks(b"reserve\r\n", found.replace(b"FOUND", b"RESERVED", 1))
        other = server.client()
        client.sends(b"put 9 0 600 1\r\nz\r\npeek 1\r\n" * 400)
        # It is blocked in a write once no more is put, because the client doesn't read.
        puts = [0]
        awaits(lambda: puts.append(value(other, b"total-jobs")) or len(puts) > 50 and puts[-50] == puts[-1] > 1)
        same(puts[-1] < 400, True)
        other.asks(b"reserve-job 1\r\n", b"NOT_FOUND\r\n")
        resets(client)
        awaits(lambda: value(other, b"current-connections") == 1)
        same(value(other, b"total-jobs"), puts[-1])
        other.asks(b"reserve\r\n", found.replace(b"FOUND", b"RESERVED", 1))
        server.client().asks(b"list-tube-used\r\n", SMALL)
