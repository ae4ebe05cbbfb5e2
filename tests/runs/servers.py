"""A server that runs, and its clients."""
import contextlib
import os
import resource
import select
import signal
import socket
import subprocess
import time

from programs import PATIENCE, Ended, same


# What is reported when a connection takes the last free seat.
TAKEN = b"bqd: all seats are taken: further connections wait\n"

# What is reported when a put meets the limit on jobs.
AT_THE_LIMIT = b"bqd: the limit of --max-jobs is reached: puts are answered OUT_OF_MEMORY\n"

# How many threads a server has besides those of its seats: the first one, those of the run and of the core, and the one
# that writes notices.
OTHERS = 4


def threads_with(bqd, seats):
    """Returns how many threads a server has with this many open seats. An event loop has one in all."""
    return 1 if bqd.is_loop else seats + OTHERS


def free_port():
    """Returns a loopback port at which no process listens."""
    with socket.create_server(("127.0.0.1", 0)) as listener:
        return listener.getsockname()[1]


def awaits(is_so):
    """Waits until something is true."""
    for _ in range(1000):
        if is_so():
            return
        time.sleep(0.01)
    raise AssertionError("it never came about")


def connected(port):
    """Returns a connection to a server, which may not listen yet if it can't report that."""
    for _ in range(1000):
        try:
            return socket.create_connection(("127.0.0.1", port), PATIENCE)
        except ConnectionRefusedError:
            time.sleep(0.01)
    raise AssertionError("nobody listens")


class Server:
    """bqd with these words after the address (127.0.0.1 and a free port, unless given), and those of its engine, if one
    was chosen.

    `told` is what it reported about its address, from which the port is known. (A port that was free a moment ago may
    be in use by now.) Its standard input stays open until the end.
    """

    def __init__(
        self, bqd, *words, listen=None, port=None, stdin=subprocess.PIPE, stdout=subprocess.PIPE, stderr=subprocess.PIPE,
        before=None, env=None
    ):
        tells = stdout == subprocess.PIPE and not listen
        self.port = port or (0 if tells else free_port())
        self.process = subprocess.Popen(
            [bqd, *(listen or ["--listen", f"127.0.0.1:{self.port}"]), *getattr(bqd, "words", []), *words],
            stdin=stdin,
            stdout=stdout,
            stderr=stderr,
            bufsize=0,
            preexec_fn=before,
            env=env,
        )
        self.clients = []
        self.told = self.process.stdout.readline() if self.process.stdout else None
        if not self.port and self.told:
            self.port = int(self.told.rpartition(b":")[2])

    def __enter__(self):
        return self

    def __exit__(self, *why):
        for client in self.clients:
            client.close()
        if self.process.poll() is None:
            self.process.kill()
            self.process.communicate()

    def client(self):
        """Returns a connected client."""
        client = Client(self.port)
        self.clients.append(client)
        return client

    def control(self, line):
        """Sends bytes on the control line, and keeps it open."""
        self.process.stdin.write(line)

    def told_next(self):
        """Returns the next line on standard error, while the server continues."""
        came, _, _ = select.select([self.process.stderr], [], [], PATIENCE)
        return self.process.stderr.readline() if came else b""

    def tells(self, line):
        """Checks that this is the next line on standard error, apart from lines about seats."""
        told = self.told_next()
        same(self.told_next() if told == TAKEN != line else told, line)

    def is_silent(self, seconds):
        """Returns true if standard error stays silent for this many seconds."""
        came, _, _ = select.select([self.process.stderr], [], [], seconds)
        return not came

    def may_open(self, most):
        """Limits how many file descriptors the server may have from now on."""
        resource.prlimit(self.process.pid, resource.RLIMIT_NOFILE, (most, resource.prlimit(self.process.pid, resource.RLIMIT_NOFILE)[1]))

    def threads(self):
        """Returns how many threads the server has now."""
        return len(os.listdir(f"/proc/{self.process.pid}/task"))

    def is_stopped(self):
        """Returns true if the server was stopped by a signal."""
        with open(f"/proc/{self.process.pid}/stat") as stat:
            return stat.read().rsplit(")", 1)[1].split()[0] == "T"

    def time_worked(self):
        """Returns how many seconds of processor time the server has used."""
        with open(f"/proc/{self.process.pid}/stat") as stat:
            ticks = stat.read().rsplit(")", 1)[1].split()[11:13]
        return sum(map(int, ticks)) / os.sysconf("SC_CLK_TCK")

    def time_wanted(self):
        """Returns for how many seconds the server's threads have had a processor, or waited for one that was busy."""
        nanoseconds = 0
        for thread in os.listdir(f"/proc/{self.process.pid}/task"):
            with open(f"/proc/{self.process.pid}/task/{thread}/schedstat") as stat:
                nanoseconds += sum(map(int, stat.read().split()[:2]))
        return nanoseconds / 1e9

    def times_woken(self):
        """Returns how often the server's threads have gone to sleep. Each was woken up as often, or still sleeps."""
        times = 0
        for thread in os.listdir(f"/proc/{self.process.pid}/task"):
            with open(f"/proc/{self.process.pid}/task/{thread}/status") as status:
                times += next(int(line.split()[1]) for line in status if line.startswith("voluntary_ctxt_switches"))
        return times

    def memory(self):
        """Returns how many bytes of memory the server has written to and not returned, without those of its program."""
        with open(f"/proc/{self.process.pid}/status") as status:
            return next(int(line.split()[1]) << 10 for line in status if line.startswith("RssAnon"))

    @contextlib.contextmanager
    def stopped(self):
        """Stops the server by a signal, so that what is done meanwhile comes to it at one moment."""
        self.process.send_signal(signal.SIGSTOP)
        awaits(self.is_stopped)
        yield
        self.process.send_signal(signal.SIGCONT)

    def end_control(self):
        """Ends the control line. The server goes on."""
        self.process.stdin.close()
        self.process.stdin = None

    def goes_on(self, seconds):
        """Returns true if the server is still running this many seconds later."""
        try:
            self.process.wait(seconds)
            return False
        except subprocess.TimeoutExpired:
            return True

    def ended(self):
        """Waits until the server ends, while the control line stays open."""
        status = self.process.wait(PATIENCE)
        return Ended(status, self.process.stdout.read(), self.process.stderr.read())

    def end_as_told(self):
        """Ends the control line, and waits until the server ends."""
        output, errors = self.process.communicate(b"", PATIENCE)
        return Ended(self.process.returncode, output, errors)

    def end(self):
        """Does the same, but ignores lines about seats: most runs have few of them, and take them all."""
        found = self.end_as_told()
        return found._replace(errors=found.errors.replace(TAKEN, b""))


class Client:
    """A connection to a server."""

    def __init__(self, port):
        self.stream = connected(port)

    def sends(self, text):
        self.stream.sendall(text)

    def sends_while_read(self, text):
        """Sends as much of a text as the server takes before it closes."""
        try:
            self.stream.sendall(text)
        except (BrokenPipeError, ConnectionResetError):
            pass

    def all_that_comes(self):
        """Returns all bytes until the server closes. If it left some of ours unread, its system resets the connection.
        """
        heard = b""
        try:
            while piece := self.stream.recv(1 << 16):
                heard += piece
        except ConnectionResetError:
            pass
        return heard

    def hears(self, text):
        """Checks that these bytes come next."""
        heard = b""
        while len(heard) < len(text):
            piece = self.stream.recv(len(text) - len(heard))
            if not piece:
                break
            heard += piece
        same(heard, text)

    def asks(self, text, answer):
        self.sends(text)
        self.hears(answer)

    def hears_nothing(self, seconds):
        """Checks that no byte comes for this many seconds."""
        came, _, _ = select.select([self.stream], [], [], seconds)
        same(came, [])

    def hears_end(self):
        same(self.stream.recv(1), b"")

    def close(self):
        self.stream.close()


def value(client, name):
    """Returns a number of `stats`."""
    client.sends(b"stats\r\n")
    return value_told(client, name)


def value_told(client, name):
    """Returns a number of the answer to a `stats` that was sent before."""
    with client.stream.makefile("rb", buffering=0) as lines:
        head = lines.readline().split()
        same(head[0], b"OK")
        text = b""
        while len(text) < int(head[1]) + 2:
            text += lines.read(int(head[1]) + 2 - len(text))
    return next(int(line.split(b": ")[1]) for line in text.splitlines() if line.startswith(name + b": "))


def all_wait(client, count):
    """Waits until the reserves of this many clients wait, as a client that doesn't wait can see."""
    awaits(lambda: value(client, b"current-waiting") == count)
