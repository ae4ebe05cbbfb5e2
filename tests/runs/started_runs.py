"""Runs of bqd about what it finds at its start: a terminal, standard descriptors that are closed, a listener."""
import contextlib
import fcntl
import itertools
import os
import pathlib
import signal
import socket
import termios
import time

from fault_runs import LONG
from programs import PATIENCE, same
from queue_model.engines import of_loop
from servers import Server, awaits, free_port
from waiting_runs import ANSWER, ASK


class AtATerminal:
    """A server that is a background job at a terminal, as after `bqd .. &` at a shell."""

    def __init__(self, bqd, *words):
        self.main, terminal = os.openpty()
        port = free_port()
        try:
            self.server = Server(bqd, *words, stdin=terminal, port=port, before=in_the_background)
        finally:
            os.close(terminal)

    def __enter__(self):
        return self

    def __exit__(self, *why):
        for job in self.jobs():
            with contextlib.suppress(ProcessLookupError):
                os.kill(job, signal.SIGKILL)
        self.server.process.wait(PATIENCE)
        self.server.__exit__()
        os.close(self.main)

    def jobs(self):
        """Returns the processes that the leader of the terminal's session has started: the server."""
        leader = self.server.process.pid
        with contextlib.suppress(FileNotFoundError):
            return [int(it) for it in pathlib.Path(f"/proc/{leader}/task/{leader}/children").read_text().split()]
        return []

    def states(self):
        """Returns the state of each of these processes: T if it is stopped."""
        return [pathlib.Path(f"/proc/{it}/stat").read_text().rsplit(")", 1)[1].split()[0] for it in self.jobs()]


def in_the_background():
    """Makes a process the background job of a new session, whose terminal is its standard input. The session's leader
    waits for the job."""
    os.setsid()
    fcntl.ioctl(0, termios.TIOCSCTTY, 0)
    job = os.fork()
    if job:
        os.closerange(0, 1024)
        os.waitpid(job, 0)
        os._exit(0)
    os.setpgid(0, 0)


def run_background_job_at_a_terminal(bqd):
    """A server in the background of a terminal is not stopped, and serves clients, before and after something is typed.
    """
    with AtATerminal(bqd, "--seats", "2") as job:
        client = job.server.client()
        client.stream.settimeout(LONG)
        for typed in [b"", b"\n", b"other\ndrain\n"]:
            os.write(job.main, typed)
            time.sleep(0.3)
            client.asks(ASK, ANSWER)
            same([it for it in job.states() if it == "T"], [])
        same(len(job.jobs()), 1)


def run_standard_descriptors_closed(bqd):
    """Whichever of its three standard descriptors are closed when it starts, clients hear nothing but their answers,
    while seats are taken and draining begins."""
    seats = 3
    with contextlib.ExitStack() as stack:
        servers = []
        for closed in [it for count in (1, 2, 3) for it in itertools.combinations((0, 1, 2), count)]:
            def close(closed=closed):
                for it in closed:
                    os.close(it)
            server = stack.enter_context(Server(bqd, "--seats", str(seats), port=free_port(), before=close))
            for _ in range(seats):
                server.client().asks(ASK, ANSWER)
            if 0 not in closed:
                server.control(b"drain\n")
            servers.append(server)
        time.sleep(0.5)
        for server in servers:
            for client in server.clients:
                client.hears_nothing(0)
                client.asks(ASK, ANSWER)


def run_many_wait_to_connect(bqd):
    """While all seats are taken, as many clients can connect as the system lets wait, and each is served later."""
    many = min(500, int(pathlib.Path("/proc/sys/net/core/somaxconn").read_text()))
    with Server(bqd, "--seats", "1") as server:
        first = server.client()
        first.asks(ASK, ANSWER)
        waiting = [server.client() for _ in range(many)]
        first.close()
        for client in waiting:
            client.asks(ASK + b"quit\r\n", ANSWER)
            client.close()


@of_loop
def run_clients_beyond_the_seats_are_refused(bqd):
    """With --when-full refuse, a connection is closed if and only if all seats are taken, and no client at a seat notices
    it. That is reported at the first one, with their number."""
    seats, more = 3, 100
    with Server(bqd, "--seats", str(seats), "--when-full", "refuse") as server:
        served = [server.client() for _ in range(seats)]
        for client in served:
            client.asks(ASK, ANSWER)
        server.tells(b"bqd: all seats are taken: further connections are closed\n")
        for _ in range(more):
            with socket.create_connection(("127.0.0.1", server.port), PATIENCE) as refused:
                same(refused.recv(1), b"")
        server.tells(b"bqd: connections closed because all seats were taken: 1\n")
        for client in served:
            client.asks(ASK, ANSWER)
        # Whenever a seat is free again, the next client is served, and the one after it is not.
        for client in served:
            client.asks(b"quit\r\n", b"")
            client.hears_end()
            server.client().asks(ASK, ANSWER)
            with socket.create_connection(("127.0.0.1", server.port), PATIENCE) as refused:
                same(refused.recv(1), b"")
        same(server.is_silent(0.3), True)


def timers(port):
    """Returns the codes of the timers that run for the connections of a server: 2 means that it asks whether a silent
    client is still there, 1 that it waits for an acknowledgement, and 0 none."""
    lines = [it.split() for it in pathlib.Path("/proc/net/tcp").read_text().splitlines()[1:]]
    is_connected = "01"
    return [int(it[5].split(":")[0]) for it in lines if it[1].endswith(f":{port:04X}") and it[3] == is_connected]


def run_silent_clients_are_asked_after(bqd):
    """The system asks each silent client now and then whether it is still there, however the address was chosen."""
    port = free_port()
    for words in [["--listen", f"127.0.0.1:{port}"], ["-l", "127.0.0.1", "-p", str(port)]]:
        with Server(bqd, "--seats", "2", listen=words, port=port) as server:
            for _ in range(2):
                server.client().asks(ASK, ANSWER)
            awaits(lambda: timers(port) == [2, 2])
