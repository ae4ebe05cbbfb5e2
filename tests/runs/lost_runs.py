"""Runs of bqd in which the event loop could lose a seat, a listener or bytes for good."""
import errno
import itertools
import socket
import time

from fault_runs import LONG
from faults import faults
from programs import same
from queue_model.engines import of_loop
from servers import Server, all_wait, awaits, value
from waiting_runs import ANSWER, ASK


def run_waiting_client_whose_read_fails(bqd):
    """If the read that would find the end of a waiting client fails or is interrupted, its seat is soon free and it no
    longer counts as waiting."""
    for code in [errno.ETIMEDOUT, errno.EINTR]:
        with Server(bqd, "--seats", "2", env=faults(ends=code, times=1)) as server:
            waits, other = server.client(), server.client()
            waits.sends(b"reserve\r\n")
            all_wait(other, 1)
            waits.close()
            # Meanwhile nothing else happens by which the server would notice it.
            time.sleep(0.5)
            all_wait(other, 0)
            awaits(lambda: value(other, b"current-connections") == 1)
            server.client().asks(ASK, ANSWER)


@of_loop
def run_listener_that_cannot_be_watched(bqd):
    """An event loop that can't watch its listener, or a pipe as its control line, says so and ends with status 1."""
    told = b"bqd: epoll was refused\nbqd: could not watch the listener and standard input\n"
    for watched, code in itertools.product(["listener", "input"], [errno.ENOSPC, errno.ENOMEM]):
        with Server(bqd, "--seats", "2", env=faults(watches=code, watched=watched, times=1000)) as server:
            found = server.ended()
            same((found.status, found.errors), (1, told))


def run_urgent_data(bqd):
    """Commands before and after urgent data are answered, and so is a put whose body was sent in both parts."""
    for texts, answers in [
        ([ASK, ASK], ANSWER * 2),
        ([b"put 0 0 60 4\r\nab", b"cd\r\nreserve\r\n"], b"INSERTED 1\r\nRESERVED 1 4\r\nabcd\r\n"),
    ]:
        with Server(bqd, "--seats", "1") as server:
            client = server.client()
            client.asks(ASK, ANSWER)
            # Both parts are there when it goes on. The last byte that is sent as urgent is no part of the stream.
            with server.stopped():
                client.stream.send(texts[0] + b"!", socket.MSG_OOB)
                client.sends(texts[1])
            client.stream.settimeout(LONG)
            client.hears(answers)
