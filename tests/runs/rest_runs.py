"""Runs of bqd whose seats wait for clients, or whose clients send nothing."""
import os
import time

from programs import Ended, same
from queue_model.engines import of_loop
from servers import Server, awaits, threads_with
from waiting_runs import ANSWER, ASK, PUT, often, time_in_a_second

# How many bytes of memory a seat without a client may take: fewer than its read buffer has, or the buffer from which it
# writes large answers.
OF_A_SEAT = 64 << 10


def at_rest(bqd, seats):
    """Returns how much memory a server takes that has served one client at one of its seats."""
    with Server(bqd, "--seats", str(seats)) as server:
        awaits(lambda: server.threads() == threads_with(bqd, seats))
        server.client().asks(b"list-tube-used\r\n", b"USING default\r\n")
        time.sleep(0.3)
        return server.memory()


def run_seats_without_clients(bqd):
    """Seats without a client take less memory than either of their buffers has room for."""
    more = 64
    same(at_rest(bqd, 1 + more) - at_rest(bqd, 1) < more * OF_A_SEAT, True)


def run_control_line_that_does_not_wait(bqd):
    """If reads of standard input don't wait, the server sleeps between two of them, and notices a drain and the end."""
    with Server(bqd, "--seats", "1", "--sessions", "1", before=lambda: os.set_blocking(0, False)) as server:
        client = server.client()
        client.asks(ASK, ANSWER)
        often(lambda: time_in_a_second(server))
        server.control(b"drain\n")
        server.tells(b"bqd: draining\n")
        client.asks(PUT, b"DRAINING\r\n")
        client.close()
        same(server.end(), Ended(0, b"", b""))


# How many bytes of memory an event loop without clients may take, and how many more for a silent client.
OF_ALL_SEATS = 4 << 20
OF_A_CLIENT = 2 << 10


@of_loop
def run_loop_without_clients(bqd):
    """An event loop takes little memory for the largest number of seats."""
    with Server(bqd, "--seats", "256") as server:
        time.sleep(0.3)
        same(server.memory() <= OF_ALL_SEATS, True)


@of_loop
def run_loop_with_silent_clients(bqd):
    """A silent connection takes little memory, however often it sent something before, and so do many one after another.
    """
    many = 200
    # Two exchanges of a buffer undo each other, so each number of commands is another case.
    for asked in (1, 2, 3):
        with Server(bqd, "--seats", str(many + 1)) as server:
            for _ in range(2 * many):
                client = server.client()
                client.asks(ASK + b"quit\r\n", ANSWER)
                client.hears_end()
                client.close()
            before = server.memory()
            for client in [server.client() for _ in range(many)]:
                for _ in range(asked):
                    client.asks(ASK, ANSWER)
            same(server.memory() - before <= many * OF_A_CLIENT, True)


@of_loop
def run_loop_behind_clients_that_ended(bqd):
    """Connections that have ended leave no read buffer at their seats, also if each had filled one with its last bytes."""
    many, size = 100, 65536
    too_big = b"put 0 0 9 %d\r\n" % size + b"x" * size + b"\r\nquit\r\n"

    def ends(client):
        client.asks(too_big, b"JOB_TOO_BIG\r\n")
        client.hears_end()
        client.close()

    with Server(bqd, "--seats", str(many)) as server:
        ends(server.client())
        clients = [server.client() for _ in range(many)]
        for client in clients:
            client.asks(ASK, ANSWER)
        before = server.memory()
        for client in clients:
            ends(client)
        same(server.memory() - before <= many * OF_A_CLIENT, True)
