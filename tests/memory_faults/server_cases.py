"""`bqd` with failing allocations, at its start and under load, and with a listener that breaks."""
import random
import signal
import socket
import subprocess
import threading

from refusal import each_in_turn

NEEDS = (b"the options", b"the control line", b"the buffers of the seats", b"the queue and its seats")
NO_MEMORY = [b"bqd: no memory\nbqd: could not allocate memory for " + need + b"\n" for need in NEEDS]
NO_THREAD = [b"bqd: a thread was refused\n"]
NOT_ACCEPTED = b"bqd: a connection could not be accepted\n"
NO_MORE = b"bqd: no connection can be accepted: Invalid argument (os error 22)\n"
TAKEN = b"bqd: all seats are taken: further connections wait\n"
REFUSED = b"bqd: memory was refused: clients are answered OUT_OF_MEMORY\n"
SEATS = 2
CLIENTS, ROUNDS = 8, 150
EACH_NTH = (1, 2, 5, 31)
MAY_BE_REFUSED = (b"put", b"use", b"watch", b"stats", b"stats-job", b"stats-tube", b"list-tubes", b"list-tubes-watched")


class Client:
    """One connection, one command at a time."""

    def __init__(self, address):
        self.socket = socket.create_connection(address, timeout=10)
        self.file = self.socket.makefile("rb")

    def ask(self, line, body=None):
        """Returns the answer's words, and its body if it has one. A closed connection gives no words."""
        try:
            self.socket.sendall(line + b"\r\n" + (b"" if body is None else body + b"\r\n"))
            words = self.file.readline().rstrip(b"\r\n").split(b" ")
            if words[0] in (b"OK", b"RESERVED", b"FOUND"):
                return words, self.file.read(int(words[-1]) + 2)[:-2]
            return words, None
        except OSError:
            return [b""], None

    def close(self):
        self.file.close()
        self.socket.close()


def started(bqd, words, **chosen):
    """Starts a server whose allocations fail in that pattern. Returns it, and where it listens: None if it doesn't."""
    server = subprocess.Popen(
        [bqd.path, "--listen", "127.0.0.1:0", *bqd.first, *words], env=bqd.host.environment(**chosen),
        stdin=subprocess.PIPE, stdout=subprocess.PIPE, stderr=subprocess.PIPE,
    )
    said = server.stdout.readline().split()
    if said[:1] != [b"listening"]:
        return server, None
    host, _, port = said[1].decode().rpartition(":")
    return server, (host, int(port))


def ended(server):
    """Returns the status of a server that ends by itself, and its messages, except that all seats are taken."""
    try:
        _, complaint = server.communicate(timeout=10)
        return server.returncode, complaint.replace(TAKEN, b"")
    except subprocess.TimeoutExpired:
        return None, b""
    finally:
        server.kill()
        server.communicate()


def start_refused(bqd, faults, nth):
    """Starts a server once whose nth allocation fails: it serves the clients that it accepted, or ends with a fault
    before it has answered any client.

    The fault is no memory. Later it is a thread that the system's library could not start: the one that writes notices, or
    the one that serves. After that the program allocates, and starts threads once it has all memory. `faults` are those of
    the starts so far.
    """
    server, address = started(bqd, ["--seats", str(SEATS), "--sessions", "1"], at=nth)
    told = []
    try:
        for _ in range(SEATS if address else 0):
            client = Client(address)
            told.append(client.ask(b"list-tube-used")[0])
            client.close()
    except OSError:
        told.append([b""])
    status, complaint = ended(server)
    refused = bqd.host.was_refused()
    if status == 0 and not complaint and told == SEATS * [[b"USING", b"default"]]:
        return refused, None
    faults.append(complaint)
    kinds = [it in NO_THREAD for it in faults]
    turns = sum(kind != last for last, kind in zip(kinds, kinds[1:]))
    if refused and status == 1 and complaint in NO_MEMORY + NO_THREAD and turns <= 3 and all(it == [b""] for it in told):
        return refused, None
    return refused, f"status {status}, {complaint!r}, clients were told {told}"


def listener_ends(bqd):
    """A listener whose third accept fails for good: both seats serve the clients that they accepted, and the fault is
    reported at once and at the end."""
    server, address = started(bqd, ["--seats", str(SEATS)], accepts=SEATS + 1)
    told = []
    for _ in range(SEATS if address else 0):
        client = Client(address)
        told.append(client.ask(b"list-tube-used")[0])
        client.close()
    # A listener that does not wait is asked for the next connection once that comes. One that waits has ended by then.
    try:
        Client(address).close()
    except OSError:
        pass
    status, complaint = ended(server)
    if (status, complaint) == (1, NO_MORE + NOT_ACCEPTED) and told == SEATS * [[b"USING", b"default"]]:
        return 1, None
    return 1, f"status {status}, {complaint!r}, clients were told {told}"


class Load:
    """What the clients of one server did, and the first thing that was wrong."""

    def __init__(self, address):
        self.address, self.lock = address, threading.Lock()
        self.accepted, self.deleted, self.refusals, self.wrong = {}, set(), 0, None

    def complain(self, text):
        with self.lock:
            self.wrong = self.wrong or text

    def ask(self, client, line, body=None):
        """Sends a command, and checks that only one that may fail is answered OUT_OF_MEMORY."""
        words, text = client.ask(line, body)
        if words == [b"OUT_OF_MEMORY"]:
            with self.lock:
                self.refusals += 1
            if line.split(b" ")[0] not in MAY_BE_REFUSED:
                self.complain(f"{line!r} was answered OUT_OF_MEMORY")
        elif words[0] in (b"", b"BAD_FORMAT", b"UNKNOWN_COMMAND"):
            self.complain(f"{line!r} was answered {words}")
        return words, text

    def put(self, client, chance):
        body = b"%d" % chance.getrandbits(64)
        words, _ = self.ask(client, b"put %d 0 60 %d" % (chance.randrange(9), len(body)), body)
        if words[0] == b"INSERTED":
            with self.lock:
                self.accepted[words[1]] = body

    def take(self, client):
        """Reserves a job, checks that it was accepted, and deletes it. Returns whether there was one."""
        words, body = self.ask(client, b"reserve-with-timeout 0")
        if words[0] != b"RESERVED":
            return False
        gone, _ = self.ask(client, b"delete " + words[1])
        with self.lock:
            is_twice = words[1] in self.deleted
            self.deleted.add(words[1])
        # The client that put a job may learn of it later than the client that takes it.
        if is_twice or gone != [b"DELETED"] or self.accepted.get(words[1], body) != body:
            self.complain(f"job {words[1]!r}, body {body!r}, twice: {is_twice}, delete answered {gone}")
        return True

    def work(self, seed):
        """The commands of one client."""
        chance, client = random.Random(seed), Client(self.address)
        for _ in range(ROUNDS):
            kind = chance.randrange(10)
            if kind < 5:
                self.put(client, chance)
            elif kind < 8:
                self.take(client)
            else:
                tube = b"default" if kind == 8 else b"t%d" % chance.randrange(5)
                self.ask(client, chance.choice((b"watch " + tube, b"stats", b"list-tubes", b"stats-tube " + tube, b"list-tubes-watched")))
        client.close()


def load_refused(bqd, every):
    """A load in which every nth allocation fails: that is reported, no job is lost or doubled, and no other command
    fails."""
    server, address = started(bqd, ["--seats", str(CLIENTS + 1)], every=every, later=1)
    try:
        load = Load(address)
        # Once a client is answered, the start is over.
        first = Client(address)
        first.ask(b"list-tube-used")
        first.close()
        server.send_signal(signal.SIGUSR2)
        threads = [threading.Thread(target=load.work, args=(f"{every}/{it}",)) for it in range(CLIENTS)]
        for it in threads:
            it.start()
        for it in threads:
            it.join(60)
        server.send_signal(signal.SIGUSR2)
        client = Client(address)
        while load.take(client):
            pass
        if load.deleted != set(load.accepted):
            load.complain(f"{len(load.accepted)} accepted, {len(load.deleted)} handed out and deleted")
        if not load.refusals:
            load.complain("no command was refused")
        server.kill()
        _, complaint = server.communicate()
        complaint = complaint.replace(TAKEN, b"")
        if not complaint.startswith(REFUSED) or complaint.count(REFUSED) * REFUSED != complaint:
            load.complain(f"it told {complaint!r}")
        return 1, load.wrong
    finally:
        server.kill()
        server.communicate()


def cases(bqd):
    """Returns the cases by name. Each is a call that returns how many runs it made, and what is wrong or None."""
    faults, name = [], " ".join(["bqd", *bqd.first])
    yield f"{name}: start", lambda: each_in_turn(lambda nth: start_refused(bqd, faults, nth))
    yield f"{name}: a listener that ends", lambda: listener_ends(bqd)
    for every in EACH_NTH:
        yield f"{name}: load, one request in {every} refused", lambda it=every: load_refused(bqd, it)
