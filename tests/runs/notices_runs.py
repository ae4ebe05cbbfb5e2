"""Runs of bqd whose standard error is not read, and notices that are due again."""
import errno
import fcntl
import os
import pathlib
import select
import socket
import subprocess
import tempfile
import threading
import time

from fault_runs import AT_THE_END, told_of
from faults import faults
from journal import Journal
from programs import PATIENCE, same
from runner import by_hand
from servers import AT_THE_LIMIT, TAKEN, Server
from waiting_runs import ANSWER, ASK, PUT, often

# How many lines can wait to be written (docs/OPERATING.md).
ROOM = 64


class FullPipe:
    """A pipe that takes no more data until it is read."""

    def __init__(self):
        self.reading, self.writing = os.pipe()
        fcntl.fcntl(self.writing, fcntl.F_SETPIPE_SZ, 4096)
        self.held = b"." * fcntl.fcntl(self.writing, fcntl.F_GETPIPE_SZ)
        # Exactly as much as it holds, so that this doesn't block.
        same(os.write(self.writing, self.held), len(self.held))
        same(select.select([], [self.writing], [], 0)[1], [])

    def __enter__(self):
        return self

    def __exit__(self, *why):
        os.close(self.reading)
        os.close(self.writing)

    def rest(self):
        """Returns what can be read now."""
        os.set_blocking(self.reading, False)
        try:
            return os.read(self.reading, 1 << 16)
        except BlockingIOError:
            return b""

    def lines(self, count):
        """Returns the next lines after those that filled the pipe."""
        return self.lines_until(lambda lines: len(lines) >= count)

    def lines_until(self, are_enough):
        """Returns the next lines after those that filled the pipe, once a test says that they are enough."""
        heard, lines = b"", []
        while not are_enough(lines):
            came, _, _ = select.select([self.reading], [], [], PATIENCE)
            piece = os.read(self.reading, 4096) if came else b""
            if not piece:
                break
            heard += piece
            text = heard[len(self.held) :]
            lines = text[: text.rfind(b"\n") + 1].splitlines(keepends=True)
        return lines


def works_for(client, seconds, counts):
    """A client that sends one command after another. The number of answers is added to the counts."""
    end, count = time.monotonic() + seconds, 0
    while time.monotonic() < end:
        client.asks(ASK, ANSWER)
        count += 1
    counts.append(count)


def run_drain_at_the_end_of_a_control_line(bqd):
    """That draining begins is reported even if the control line ends in the line that begins it, and the server with it."""
    with Server(bqd, "--seats", "1", "--sessions", "1") as server:
        server.client().asks(ASK + b"quit\r\n", ANSWER)
        same(server.goes_on(0.3), True)
        _, errors = server.process.communicate(b"drain", PATIENCE)
        same((server.process.returncode, errors), (0, TAKEN + b"bqd: draining\n"))


def run_clients_beside_a_blocked_standard_error(bqd):
    """While standard error is not read, draining begins and 16 clients continue to work, the last of which took the
    last seat. Once it is read, it contains the notices."""
    with FullPipe() as pipe, Server(bqd, "--seats", "16", stderr=pipe.writing) as server:
        clients = [server.client() for _ in range(16)]
        for client in clients:
            client.asks(ASK, ANSWER)
        server.control(b"drain\n")
        clients[0].sends(b"put 0 0 9 1\r\nx\r\n")
        while clients[0].stream.recv(64) != b"DRAINING\r\n":
            clients[0].sends(b"put 0 0 9 1\r\nx\r\n")
        counts = []
        threads = [threading.Thread(target=works_for, args=[client, 1, counts]) for client in clients]
        for it in threads:
            it.start()
        for it in threads:
            it.join()
        same(len(counts), len(clients))
        same(min(counts) > 10, True)
        same(pipe.lines(2), [TAKEN, b"bqd: draining\n"])


def run_ends_beside_a_blocked_standard_error(bqd):
    """A server ends even if standard error is not read: when everything is done, and when its last seat fails."""
    with FullPipe() as pipe, Server(bqd, "--seats", "1", "--sessions", "1", stderr=pipe.writing) as server:
        server.client().asks(ASK + b"quit\r\n", ANSWER)
        server.process.stdin.close()
        same(server.process.wait(PATIENCE), 0)
    failing = faults(accepts=errno.EBADF, times=1)
    with FullPipe() as pipe, Server(bqd, "--seats", "1", stderr=pipe.writing, env=failing) as server:
        same(server.process.wait(PATIENCE), 1)


def run_last_notices_are_written(bqd):
    """Notices are written before the server ends if standard error is read soon, which a busy computer does at least
    once."""
    def tried():
        with FullPipe() as pipe, Server(bqd, "--seats", "1", stderr=pipe.writing, env=faults(accepts=errno.EBADF, times=1)) as server:
            same(server.goes_on(0.3), True)
            lines = pipe.lines(2)
            same(server.process.wait(PATIENCE), 1)
        return None if lines == [told_of(errno.EBADF), AT_THE_END] else lines

    often(tried)


def run_notices_without_room(bqd):
    """Notices for which there is no room are counted, and their number is reported once standard error is read."""
    code, dropped = errno.EPROTO, 5
    # A thread that writes has one more.
    written = ROOM + (not bqd.is_loop)
    # Every other accept fails, after which the seat sleeps for a tenth of a second; the clock runs a hundred times as
    # fast. Accepts that find no connection count too, so that there are more failures than connections.
    failing = faults(accepts=code, times=10 * (written + dropped), each=2, clock=100)
    with FullPipe() as pipe, Server(bqd, "--seats", "1", stderr=pipe.writing, env=failing) as server:
        for _ in range(written + dropped + 1):
            client = server.client()
            client.asks(ASK, ANSWER)
            client.close()
        server.clients.clear()
        # Notices that come while standard error is read again are written before the number.
        plain = {told_of(code), TAKEN}
        lines = pipe.lines_until(lambda lines: not plain.issuperset(lines))
        notices = [it for it in lines if it in plain]
        same(len(notices) >= written and lines[: len(notices)] == notices, True)
        # It is also reported, once or more, that the only seat is taken.
        words = lines[len(notices)].split()
        same((b" ".join([*words[:1], *words[2:]]), int(words[1]) > dropped), (b"bqd: lines were dropped: standard error was blocked", True))


def run_dropped_notices_are_told_once(bqd):
    """That lines were dropped is reported once, and not again after each later line."""
    failing = faults(accepts=errno.EPROTO, times=2000, each=2, clock=100)
    with FullPipe() as pipe, Server(bqd, "--seats", "1", stderr=pipe.writing, env=failing) as server:
        def serves(many):
            for _ in range(many):
                client = server.client()
                client.asks(ASK, ANSWER)
                client.close()
                time.sleep(0.005)
            server.clients.clear()

        serves(100)
        pipe.lines_until(lambda lines: any(b"dropped" in it for it in lines))
        # Lines of notices that came meanwhile may have been dropped too.
        time.sleep(0.2)
        pipe.rest()
        serves(5)
        time.sleep(0.3)
        same([it for it in pipe.rest().splitlines() if b"dropped" in it], [])


# What a server with one seat reports while a connection can't be accepted, and then draining begins: each line with its
# priority in sd-daemon(3).
REPORTED = [
    (b"<4>", told_of(errno.EMFILE).rstrip()),
    (b"<4>", TAKEN.rstrip()),
    (b"<6>", b"bqd: draining"),
]


def run_priorities_of_a_journal(bqd):
    """Lines of a server begin with their priority if JOURNAL_STREAM names the file that standard error is, and only
    then."""
    code = errno.EMFILE
    for is_named in (True, False):
        with Journal() as journal:
            env = journal.named(0 if is_named else 1, **faults(accepts=code, times=1))
            with Server(bqd, "--seats", "1", stderr=journal.file, env=env) as server:
                client = server.client()
                client.asks(ASK, ANSWER)
                journal.lines(2)
                server.control(b"drain\n")
                same(journal.lines(3), [priority * is_named + text for priority, text in REPORTED])


def run_priority_of_a_fault(bqd):
    """A server that cannot listen, or has bad options, reports that as errors to the journal, each line by itself."""
    with socket.create_server(("127.0.0.1", 0)) as taken:
        address = f"127.0.0.1:{taken.getsockname()[1]}"
        for words, status in [(["--listen", address], 1), (["--listen", address, "--seats", "none"], 2)]:
            with Journal() as journal:
                env = journal.named()
                same(subprocess.run([bqd, *words], env=env, stdin=subprocess.DEVNULL, stderr=journal.file).returncode, status)
                told = journal.lines(2)
                same({it[:3] for it in told}, {b"<3>"})
                plain = subprocess.run([bqd, *words], stdin=subprocess.DEVNULL, stderr=subprocess.PIPE)
                same([it[3:] for it in told], plain.stderr.splitlines())


def is_told_for_each_shortage(bqd, least):
    """Checks that two shortages of memory, for requests of this many bytes or more, are reported, each once."""
    told = b"bqd: memory was refused: clients are answered OUT_OF_MEMORY\n"
    with tempfile.TemporaryDirectory() as folder:
        short = pathlib.Path(folder, "short")
        with Server(bqd, "--seats", "1", env=faults(memory=short, least=least)) as server:
            client = server.client()
            client.asks(ASK, ANSWER)
            same(server.told_next(), TAKEN)
            number = 0
            for is_short in (True, False, False, True):
                if is_short:
                    short.touch()
                    client.asks(PUT, b"OUT_OF_MEMORY\r\n")
                    server.tells(told)
                    short.unlink()
                else:
                    number += 1
                    client.asks(PUT, b"INSERTED %d\r\n" % number)
                # A shortage is over when a put succeeds a second after it.
                time.sleep(1.2)


@by_hand
def run_second_shortage_of_memory_is_told(bqd):
    """Each shortage of memory is reported, the second one too."""
    is_told_for_each_shortage(bqd, 1)


@by_hand
def run_shortage_of_the_core_alone_is_told(bqd):
    """A shortage in which a put gets memory for its body and none for its job is reported too."""
    is_told_for_each_shortage(bqd, 100)


BELOW_THE_LIMIT = b"bqd: the number of jobs is below the limit of --max-jobs again\n"


def run_limit_of_jobs_is_told(bqd):
    """That the limit on jobs is reached is reported once, and not again while puts meet it now and then."""
    with Server(bqd, "--seats", "2", "--max-jobs", "2") as server:
        first, second = server.client(), server.client()
        first.asks(2 * PUT, b"INSERTED 1\r\nINSERTED 2\r\n")
        same(server.told_next(), TAKEN)
        same(server.is_silent(0.3), True)
        for id, client in [(3, first), (4, second), (5, first)]:
            client.asks(2 * PUT, 2 * b"OUT_OF_MEMORY\r\n")
            if id == 3:
                server.tells(AT_THE_LIMIT)
            client.asks(b"delete %d\r\n" % (id - 1) + PUT, b"DELETED\r\nINSERTED %d\r\n" % id)
        # Other commands that may be answered OUT_OF_MEMORY do not meet this limit.
        first.asks(b"use a\r\n", b"USING a\r\n")
        same(server.is_silent(0.3), True)


def run_limit_of_jobs_is_told_again(bqd):
    """A put that is stored a minute after the last one that met the limit is reported, once, and so is the next that meets
    the limit. The one is a warning, and the other is none."""
    with Journal() as journal:
        env = journal.named(**faults(clock=100))
        with Server(bqd, "--seats", "1", "--max-jobs", "1", stderr=journal.file, env=env) as server:
            client = server.client()
            client.asks(PUT, b"INSERTED 1\r\n")
            told = [b"<4>" + TAKEN.rstrip()]
            for id in (1, 2):
                client.asks(2 * PUT, 2 * b"OUT_OF_MEMORY\r\n")
                told.append(b"<4>" + AT_THE_LIMIT.rstrip())
                same(journal.lines(len(told)), told)
                # A hundred seconds of the server's time.
                time.sleep(1)
                client.asks(b"delete %d\r\n" % id + PUT, b"DELETED\r\nINSERTED %d\r\n" % (id + 1))
                told.append(b"<6>" + BELOW_THE_LIMIT.rstrip())
                same(journal.lines(len(told)), told)
            client.asks(b"delete 3\r\n" + PUT, b"DELETED\r\nINSERTED 4\r\n")
            time.sleep(0.3)
            same(journal.now(), told)
