"""Runs of bqd, the server over TCP."""
import contextlib
import os
import random
import socket
import subprocess
import tempfile
import time

from faults import faults
from programs import Ended, ended, has_all, has_no_memory, limits, refuses_words, same, tells_version
from queue_model.engines import of_loop
from servers import AT_THE_LIMIT, TAKEN, Server, all_wait, free_port
from waiting_runs import often, time_in_a_second

LOOPBACK = "127.0.0.1"

# How late a waiting client may get a job, in seconds, after the job was put or its lease ended. A seat that waits polls
# every 20 times and every 40 times as long, unless it is woken up.
SOON = 0.005
LATE = 0.05

# How often it is tried, since a busy computer can be late without the server's fault, and how often a job has to be
# soon, since it may be by chance.
TRIES = 8
MANY_TRIES = 60
SOON_TRIES = 3

# The message if no file descriptor is left for a connection.
SHORT = b"bqd: no connection can be accepted: Too many open files (os error 24)\n"


def run_no_words(bqd):
    """An address is required."""
    refuses_words(bqd)


def run_bad_options(bqd):
    """Bad options end with status 2 and a message on standard error."""
    listen = ["--listen", "127.0.0.1:0"]
    for words in [
        ["--seats", "1"],
        ["-p", "11300"],
        ["--listen"],
        listen + ["-p", "65536"],
        listen + ["-p", "-1"],
        listen + ["--seats", "0"],
        listen + ["--seats", "257"],
        listen + ["--seats", "many"],
        listen + ["--sessions", "0"],
        listen + ["--sessions", "4294967296"],
        listen + ["--max-job-size", "0"],
        listen + ["--max-job-size", "1048577"],
        listen + ["-z", "0"],
        listen + ["-z", "1048577"],
        listen + ["--max-jobs", "0"],
        listen + ["--max-jobs", "4294967296"],
        listen + ["--requeue-delay", "-1"],
        listen + ["--requeue-delay", "4294967296"],
        listen + ["--still"],
        listen + ["more"],
        listen + [b"\xff"],
    ]:
        refuses_words(bqd, *words)


def run_help(bqd):
    """Help goes to standard output, and lists the options with their ranges and defaults."""
    found = ended(bqd, "--help")
    same((found.status, found.errors), (0, b""))
    has_all(found.output.decode(), ["bqd", "--listen", "--seats", "1 to 256", "16", "--max-job-size"])
    has_all(found.output.decode(), ["1 to 1048576", "65535", "--sessions", "1 to 4294967295"])
    has_all(found.output.decode(), ["-l", "-p", "--port", "0 to 65535", "-z", "-V", "--version", "--help"])
    has_all(found.output.decode(), ["ADDR", "PORT", "BYTES", "SECONDS"])
    same(ended(bqd, "-h"), found)


def run_help_unwritten(bqd):
    """Help that can't be written is a fault."""
    with open("/dev/full", "wb") as full:
        same(ended(bqd, "--help", stdout=full), Ended(1, None, b"bqd: write failed\n"))


def run_version(bqd):
    """The version goes to standard output."""
    tells_version(bqd, "bqd")


def cannot_listen(bqd, address, why, *words):
    """Checks that it reports `cannot listen` on a line of its own, and the address and the system's reason on the next.
    """
    told = f"bqd: cannot listen\nbqd: {address}: {why}\n".encode()
    same(ended(bqd, *words), Ended(1, b"", told))


def run_cannot_listen(bqd):
    """An address in use, one of another computer, one that is not permitted, and a text that is no address."""
    with socket.create_server((LOOPBACK, 0)) as listener:
        port = listener.getsockname()[1]
        taken = f"{LOOPBACK}:{port}"
        cannot_listen(bqd, taken, "Address already in use (os error 98)", "--listen", taken)
        cannot_listen(bqd, taken, "Address already in use (os error 98)", "-l", LOOPBACK, "-p", str(port))
    # An address that is reserved for documentation, and belongs to no computer.
    cannot_listen(bqd, "192.0.2.1:0", "Cannot assign requested address (os error 99)", "--listen", "192.0.2.1:0")
    found = ended(bqd, "--listen", "")
    same((found.status, found.output), (1, b""))
    first, second, last = found.errors.decode().split("\n")
    same((first, last), ("bqd: cannot listen", ""))
    has_all(second, ["bqd: : "])
    # A port that is no number of a port is a bad option.
    for text in [f"{LOOPBACK}:65536", f"{LOOPBACK}:many", f"{LOOPBACK}:"]:
        refuses_words(bqd, "--listen", text)


def run_port_of_beanstalkd(bqd):
    """Without a port it listens at beanstalkd's, 11300."""
    for option in ["--listen", "-l"]:
        address = free_loopback()
        with Server(bqd, "--seats", "1", listen=[option, address], port=11300) as server:
            same(server.told, f"listening {address}:11300\n".encode())


def run_one_client(bqd):
    """It reports where it listens, serves a client there, and ends with status 0 once its seat has ended."""
    with Server(bqd, "--seats", "1", "--sessions", "1", port=free_port()) as server:
        same(server.told, f"listening {LOOPBACK}:{server.port}\n".encode())
        client = server.client()
        client.asks(b"put 5 0 10 3\r\nabc\r\n", b"INSERTED 1\r\n")
        client.asks(b"reserve\r\n", b"RESERVED 1 3\r\nabc\r\n")
        client.asks(b"delete 1\r\n", b"DELETED\r\n")
        client.sends(b"quit\r\n")
        client.hears_end()
        same(server.end(), Ended(0, b"", b""))


def run_listens_there_alone(bqd):
    """It listens at the chosen address, and at no other of the computer."""
    with Server(bqd, "--seats", "1") as server:
        server.client().asks(b"list-tube-used\r\n", b"USING default\r\n")
        with socket.socket() as other:
            same(other.connect_ex(("127.0.0.2", server.port)) != 0, True)


def run_chosen_port(bqd):
    """With port 0 it takes a free port, which it reports."""
    with Server(bqd, listen=["--listen", f"{LOOPBACK}:0"]) as server:
        address, _, port = server.told.decode().rstrip("\n").rpartition(":")
        same(address, f"listening {LOOPBACK}")
        server.port = int(port)
        server.client().asks(b"list-tube-used\r\n", b"USING default\r\n")


def run_words_of_beanstalkd(bqd):
    """Address, port and the limit on bodies can be set with -l, -p and -z, and -V changes nothing."""
    port = free_port()
    words = ["-V", "-l", LOOPBACK, "-p", str(port), "-VV", "-z", "3"]
    with Server(bqd, "--seats", "1", listen=words, port=port) as server:
        same(server.told, f"listening {LOOPBACK}:{port}\n".encode())
        client = server.client()
        client.asks(b"put 0 0 9 4\r\nabcd\r\n", b"JOB_TOO_BIG\r\n")
        client.asks(b"put 0 0 9 3\r\nabc\r\n", b"INSERTED 1\r\n")


# Lines to which beanstalkd answers something else, as docs/PROTOCOL.md says, or which it does not answer at all.
OTHERS_THAN_BEANSTALKDS = [
    (b"UNKNOWN_COMMAND\r\n", [b"quitx", b"statsx", b"reservex", b"list-tubesx", b"\0", b"\0list-tubes", b"list-tubes\0", b"quit\0"]),
    (b"BAD_FORMAT\r\n", [b"delete", b"kick", b"kick 1x", b"kick -1", b"kick +1", b"kick  1", b"kick 1 1", b"quit 1", b"kick 4294967296"]),
    (b"BAD_FORMAT\r\n", [b"reserve-with-timeout " + it for it in (b"-1", b"-0", b"1x", b"x1", b"", b"4294967296")]),
    # The same as beanstalkd's.
    (b"BAD_FORMAT\r\n", [b"kick x1", b"kick ", b"stats x", b"use a\0b", b"delete 1\0"]),
]


def run_lines_unlike_beanstalkds(bqd):
    """Lines that are no command, or a command with a word that is no number, are answered as the protocol says."""
    with Server(bqd, "--seats", "1") as server:
        client = server.client()
        for answer, lines in OTHERS_THAN_BEANSTALKDS:
            for line in lines:
                client.asks(line + b"\r\nlist-tube-used\r\n", answer + b"USING default\r\n")


def free_loopback():
    """Returns a loopback address at which no other process listens."""
    return "127." + ".".join(str(random.randint(1, 254)) for _ in range(3))


def run_numbers_at_the_ends(bqd):
    """The smallest and the largest number of each option are accepted and take effect."""
    words = ["--seats", "1", "--sessions", "1", "-z", "1", "--max-jobs", "1", "--requeue-delay", "0"]
    with Server(bqd, *words) as server:
        client = server.client()
        client.asks(b"put 0 0 9 2\r\nxx\r\nput 0 0 9 1\r\nx\r\n", b"JOB_TOO_BIG\r\nINSERTED 1\r\n")
        client.asks(b"put 0 0 9 1\r\nx\r\nreserve\r\nquit\r\n", b"OUT_OF_MEMORY\r\nRESERVED 1 1\r\nx\r\n")
        client.hears_end()
        same(server.end(), Ended(0, b"", AT_THE_LIMIT))
    most = "4294967295"
    words = ["--seats", "256", "--sessions", most, "-z", "1048576", "--max-jobs", most, "--requeue-delay", most]
    with Server(bqd, *words) as server:
        client = server.client()
        client.asks(b"put 0 0 9 1\r\nx\r\nreserve\r\nquit\r\n", b"INSERTED 1\r\nRESERVED 1 1\r\nx\r\n")
        client.hears_end()
        server.client().asks(b"reserve-with-timeout 0\r\nkick-job 1\r\n", b"TIMED_OUT\r\nKICKED\r\n")
    address = free_loopback()
    with Server(bqd, listen=["-l", address, "-p", "65535"]) as server:
        same(server.told, f"listening {address}:65535\n".encode())


def run_sessions_are_counted(bqd):
    """A seat serves exactly the chosen number of connections: the next one is never answered."""
    for sessions in [1, 3]:
        with Server(bqd, "--seats", "1", "--sessions", str(sessions)) as server:
            for _ in range(sessions):
                client = server.client()
                client.asks(b"list-tube-used\r\nquit\r\n", b"USING default\r\n")
                client.hears_end()
            more = server.client()
            more.sends(b"list-tube-used\r\n")
            more.hears_nothing(0.3)
            same(server.end(), Ended(0, b"", b""))


def run_drain(bqd):
    """The line drain on standard input starts draining, which is reported once: puts are rejected, and jobs are handed
    out."""
    with Server(bqd, "--seats", "1", "--sessions", "1") as server:
        client = server.client()
        server.control(b"other\ndraining\n dra")
        client.asks(b"put 0 0 9 1\r\nx\r\n", b"INSERTED 1\r\n")
        server.control(b"in\ndrain\n")
        is_draining = False
        for _ in range(10000):
            client.sends(b"put 0 0 9 1\r\ny\r\n")
            if client.stream.recv(64) == b"DRAINING\r\n":
                is_draining = True
                break
        same(is_draining, True)
        server.tells(b"bqd: draining\n")
        server.control(b"drain\n")
        client.asks(b"put 0 0 9 1\r\nx\r\n", b"DRAINING\r\n")
        client.asks(b"reserve\r\n", b"RESERVED 1 1\r\nx\r\n")
        client.asks(b"delete 1\r\n", b"DELETED\r\n")
        client.close()
        same(server.end(), Ended(0, b"", b""))


@of_loop
def run_control_line_longer_than_a_buffer(bqd):
    """A drain after more bytes than one read of the control line takes has its effect, and so does the end after a line.
    """
    with Server(bqd, "--seats", "1") as server:
        client = server.client()
        client.asks(b"list-tube-used\r\n", b"USING default\r\n")
        with server.stopped():
            server.control(b"other\n" * 3500 + b"drain\n")
        server.tells(b"bqd: draining\n")
    with Server(bqd, "--seats", "1", "--sessions", "1") as server:
        client = server.client()
        client.asks(b"list-tube-used\r\n", b"USING default\r\n")
        with server.stopped():
            server.control(b"other\n")
            server.end_control()
        client.asks(b"list-tube-used\r\nquit\r\n", b"USING default\r\n")
        same(server.process.wait(20), 0)


def run_ends_with_its_input(bqd):
    """It ends once all seats and standard input have ended, and not earlier."""
    with Server(bqd, "--seats", "1", "--sessions", "1") as server:
        client = server.client()
        client.sends(b"quit\r\n")
        client.hears_end()
        same(server.goes_on(0.2), True)
        same(server.end(), Ended(0, b"", b""))


def run_goes_on_behind_its_input(bqd):
    """It serves as long as seats do, even if standard input has ended."""
    with Server(bqd, "--seats", "1", "--sessions", "2") as server:
        server.process.stdin.close()
        for _ in range(2):
            client = server.client()
            client.asks(b"list-tube-used\r\n", b"USING default\r\n")
            client.close()
        same(server.process.wait(20), 0)


def run_one_seat(bqd):
    """One seat serves one client at a time; the next one is served once that one has disconnected."""
    with Server(bqd, "--seats", "1") as server:
        first, second = server.client(), server.client()
        first.asks(b"list-tube-used\r\n", b"USING default\r\n")
        second.sends(b"list-tube-used\r\n")
        second.hears_nothing(0.2)
        first.close()
        second.hears(b"USING default\r\n")


def run_seats_unless_chosen(bqd):
    """There are 16 seats by default."""
    with Server(bqd) as server:
        for _ in range(16):
            server.client().asks(b"list-tube-used\r\n", b"USING default\r\n")
        last = server.client()
        last.sends(b"list-tube-used\r\n")
        last.hears_nothing(0.2)


def run_most_seats(bqd):
    """256 clients are served at the same time, even if each waits for what the last one puts."""
    with Server(bqd, "--seats", "256", "--sessions", "1") as server:
        clients = [server.client() for _ in range(256)]
        for client in clients:
            client.asks(b"list-tube-used\r\n", b"USING default\r\n")
        putter = clients.pop()
        for client in clients:
            client.sends(b"reserve\r\n")
        # A client whose reserve comes late would get the job of one that has closed.
        all_wait(putter, len(clients))
        putter.asks(b"put 0 0 600 1\r\nx\r\n" * 255, b"".join(b"INSERTED %d\r\n" % (k + 1) for k in range(255)))
        heard = set()
        for client in clients:
            client.hears(b"RESERVED ")
            heard.add(int(client.stream.makefile("rb", buffering=0).readline().split()[0]))
            client.close()
        putter.close()
        same(heard, set(range(1, 256)))
        same(server.end(), Ended(0, b"", b""))


def run_sizes(bqd):
    """A body may have 65,535 bytes by default, or the chosen number: 1 to 1,048,576."""
    for words, most in [([], 65535), (["--max-job-size", "1048576"], 1048576), (["--max-job-size", "1"], 1)]:
        body = b"x" * most
        with Server(bqd, "--seats", "1", "--sessions", "1", *words) as server:
            client = server.client()
            client.asks(b"put 0 0 9 %d\r\n%sy\r\n" % (most + 1, body), b"JOB_TOO_BIG\r\n")
            client.asks(b"put 0 0 9 %d\r\n%s\r\n" % (most, body), b"INSERTED 1\r\n")
            client.asks(b"reserve\r\n", b"RESERVED 1 %d\r\n%s\r\n" % (most, body))
            client.close()
            same(server.end(), Ended(0, b"", b""))


def run_wait(bqd):
    """A client that waits gets the job that another client puts."""
    with Server(bqd, "--seats", "2", "--sessions", "1") as server:
        one, other = server.client(), server.client()
        one.sends(b"reserve\r\n")
        other.asks(b"put 5 0 10 3\r\nabc\r\n", b"INSERTED 1\r\n")
        one.hears(b"RESERVED 1 3\r\nabc\r\n")
        one.close()
        other.close()
        same(server.end(), Ended(0, b"", b""))


def run_many_commands_at_once(bqd):
    """A hundred commands in one packet, and a put in two packets followed by a quit, are answered in order."""
    with Server(bqd, "--seats", "1", "--sessions", "2") as server:
        client = server.client()
        client.asks(b"list-tube-used\r\n" * 100, b"USING default\r\n" * 100)
        client.close()
        client = server.client()
        client.sends(b"put 0 0 9 3\r\na")
        time.sleep(0.03)
        client.asks(b"bc\r\nreserve\r\nquit\r\n", b"INSERTED 1\r\nRESERVED 1 3\r\nabc\r\n")
        client.hears_end()
        same(server.end(), Ended(0, b"", b""))


def run_sends_no_more(bqd):
    """A client that sends no more gets all answers, including that of a wait."""
    with Server(bqd, "--seats", "1", "--sessions", "20") as server:
        for number in range(1, 11):
            put = b"put 0 0 9 1\r\nx\r\ndelete %d\r\n" % number, b"INSERTED %d\r\nDELETED\r\n" % number
            for text, answer in [(b"reserve\r\n", b"TIMED_OUT\r\n"), put]:
                client = server.client()
                client.sends(text)
                client.stream.shutdown(socket.SHUT_WR)
                client.hears(answer)
                client.hears_end()
                client.close()
        same(server.end(), Ended(0, b"", b""))


def run_job_of_a_lost_client(bqd):
    """If a client disconnects, the job that it held goes to a waiting client."""
    with Server(bqd, "--seats", "2") as server:
        other = server.client()
        for number in range(1, 11):
            one = server.client()
            one.asks(b"put 0 0 60 1\r\nx\r\nreserve\r\n", b"INSERTED %d\r\nRESERVED %d 1\r\nx\r\n" % (number, number))
            other.sends(b"reserve\r\n")
            time.sleep(0.02)
            one.close()
            other.hears(b"RESERVED %d 1\r\nx\r\n" % number)
            other.asks(b"delete %d\r\n" % number, b"DELETED\r\n")


def run_more_clients_than_seats(bqd):
    """Of 48 clients that connect at once, each is served by one of 16 seats."""
    with Server(bqd, "--sessions", "3") as server:
        clients = [server.client() for _ in range(48)]
        for client in clients:
            client.sends(b"list-tube-used\r\nquit\r\n")
        for client in clients:
            client.hears(b"USING default\r\n")
            client.hears_end()
        same(server.end(), Ended(0, b"", b""))


def run_put_goes_on_at_once(bqd):
    """A waiting client gets a job as soon as it is put, at some random moments at least."""
    soon = 0
    with Server(bqd, "--seats", "2") as server:
        one, other = server.client(), server.client()
        for number in range(1, MANY_TRIES + 1):
            one.sends(b"reserve\r\n")
            time.sleep(random.uniform(0.02, 0.25))
            start = time.monotonic()
            other.sends(b"put 0 0 600 1\r\nx\r\n")
            one.hears(b"RESERVED %d 1\r\nx\r\n" % number)
            took = time.monotonic() - start
            other.hears(b"INSERTED %d\r\n" % number)
            soon += took <= SOON
            if soon == SOON_TRIES:
                return
    raise AssertionError(f"it was handed out late but for {soon} times")


def run_rests(bqd):
    """While clients wait or send nothing, the server does next to no work."""
    with Server(bqd) as server:
        clients = [server.client() for _ in range(16)]
        for client in clients:
            client.asks(b"list-tube-used\r\n", b"USING default\r\n")
        clients[0].sends(b"reserve\r\n")
        clients[1].sends(b"reserve-with-timeout 60\r\n")
        time.sleep(0.1)
        often(lambda: time_in_a_second(server))


def run_seldom_wakes(bqd):
    """While 16 clients send nothing and one waits, the server's threads wake up fewer than 30 times a second in total.
    """
    with Server(bqd, "--seats", "17") as server:
        for _ in range(16):
            server.client().asks(b"list-tube-used\r\n", b"USING default\r\n")
        server.client().sends(b"reserve\r\n")
        time.sleep(0.1)
        before = server.times_woken()
        time.sleep(2)
        woken = server.times_woken() - before
    if woken >= 60:
        raise AssertionError(f"woken {woken} times in two seconds")


def run_lease_goes_on_in_time(bqd):
    """A lease of a silent client never ends too early, and at least once ends as soon as it is due."""
    with Server(bqd, "--seats", "2") as server:
        one, other = server.client(), server.client()
        for number in range(1, TRIES + 1):
            start = time.monotonic()
            one.sends(b"put 0 0 1 1\r\nx\r\nreserve\r\n")
            one.hears(b"INSERTED %d\r\nRESERVED %d 1\r\nx\r\n" % (number, number))
            other.sends(b"reserve\r\n")
            other.hears(b"RESERVED %d 1\r\nx\r\n" % number)
            took = time.monotonic() - start
            other.asks(b"delete %d\r\n" % number, b"DELETED\r\n")
            # The server counts whole milliseconds.
            same(took >= 0.999, True)
            if took <= 1 + LATE:
                return
    raise AssertionError("the lease was passed on late each time")


def run_output_unwritten(bqd):
    """If standard output can't be written, it still serves."""
    port = free_port()
    with open("/dev/full", "wb") as full:
        words = [f"{LOOPBACK}:{port}", "--seats", "1", "--sessions", "1"]
        with Server(bqd, listen=["--listen", *words], stdout=full, port=port) as server:
            client = server.client()
            client.asks(b"list-tube-used\r\n", b"USING default\r\n")
            client.close()
            same(server.end(), Ended(0, None, b""))


@contextlib.contextmanager
def inputs():
    """Standard inputs of each kind, by name, and whether they contain a drain."""
    with tempfile.TemporaryFile() as drain, tempfile.TemporaryFile() as empty, contextlib.ExitStack() as stack:
        drain.write(b"other\ndrain\n")
        drain.seek(0)
        gone, pipe, (main, terminal) = os.pipe(), os.pipe(), os.openpty()
        os.close(gone[1])
        os.write(pipe[1], b"dra")
        os.write(main, b"drain\n")
        for it in (gone[0], *pipe, main, terminal):
            stack.callback(os.close, it)
        os.write(pipe[1], b"in\n")
        yield {
            "nothing": (subprocess.DEVNULL, False),
            "a file": (drain, True),
            "an empty file": (empty, False),
            "a pipe at its end": (gone[0], False),
            "a pipe": (pipe[0], True),
            "a terminal": (terminal, True),
        }


def run_control_line_of_each_kind(bqd):
    """Whatever standard input is, a drain in it takes effect, clients are served, and its end costs no work."""
    with inputs() as kinds, contextlib.ExitStack() as stack:
        servers = []
        for stdin, has_drain in kinds.values():
            server = stack.enter_context(Server(bqd, "--seats", "2", stdin=stdin))
            if has_drain:
                server.tells(b"bqd: draining\n")
            server.client().asks(b"put 0 0 9 1\r\nx\r\n", b"DRAINING\r\n" if has_drain else b"INSERTED 1\r\n")
            servers.append(server)
        often(lambda: time_in_a_second(*servers))


def run_control_line_keeps_its_flags(bqd):
    """Standard input isn't switched to non-blocking mode, since other processes may share it."""
    end, other = os.pipe()
    with Server(bqd, "--seats", "1", stdin=end) as server:
        server.client().asks(b"list-tube-used\r\n", b"USING default\r\n")
        same(os.get_blocking(end), True)
    os.close(end)
    os.close(other)


def run_descriptors_refused(bqd):
    """A seat that can't get a file descriptor sleeps, and serves once there is one."""
    # Its streams, its listener, what it polls with, and one connection.
    with Server(bqd, "--seats", "2", "--sessions", "1", before=limits(NOFILE=5 + bqd.is_loop)) as server:
        first, second = server.client(), server.client()
        first.asks(b"list-tube-used\r\n", b"USING default\r\n")
        second.sends(b"list-tube-used\r\n")
        often(lambda: time_in_a_second(server))
        first.close()
        second.hears(b"USING default\r\n")
        second.close()
        same(server.end(), Ended(0, b"", SHORT))


def run_shortage_is_told(bqd):
    """That no connection can be accepted is reported when it happens, and again only after one was accepted."""
    # Its streams, its listener, what it polls with, and one connection.
    with Server(bqd, "--seats", "2", before=limits(NOFILE=(5 + bqd.is_loop, 64))) as server:
        first = server.client()
        first.asks(b"list-tube-used\r\n", b"USING default\r\n")
        second = server.client()
        server.tells(SHORT)
        # Meanwhile it is tried again and again.
        same(server.is_silent(0.5), True)
        server.may_open(64)
        second.asks(b"list-tube-used\r\n", b"USING default\r\n")
        server.may_open(5 + bqd.is_loop)
        second.close()
        third = server.client()
        server.tells(SHORT)
        first.close()
        third.asks(b"list-tube-used\r\n", b"USING default\r\n")


def run_no_memory(bqd):
    """If all allocations fail, that is reported on standard error, with status 1."""
    has_no_memory(bqd, "bqd", "--listen", f"{LOOPBACK}:0")


def pieces(text, cuts):
    """Returns a text cut at these places."""
    ends = [0] + [cut for cut in cuts if cut < len(text)] + [len(text)]
    return [text[begin:end] for begin, end in zip(ends, ends[1:])]


def run_bodies_at_the_edges(bqd):
    """Bodies as long as one read or write takes, and a byte less or more, come back unchanged."""
    sizes = [0, 1, 4095, 4096, 4097, 65535, 65536, 1048576]
    with Server(bqd, "--seats", "1", "--max-job-size", "1048576") as server:
        client = server.client()
        number = 0
        for size in sizes:
            body = bytes(at * 7 % 251 for at in range(size))
            text = b"put 0 0 9 %d\r\n" % size + body + b"\r\n"
            for cuts in [[]] + [[edge - 1, edge, edge + 1] for edge in (4096, 65536, len(text) - 2)]:
                for piece in pieces(text, cuts):
                    client.sends(piece)
                number += 1
                client.hears(b"INSERTED %d\r\n" % number)
                client.asks(b"reserve\r\n", b"RESERVED %d %d\r\n" % (number, size) + body + b"\r\n")
                client.asks(b"delete %d\r\n" % number, b"DELETED\r\n")


def run_commands_at_once(bqd):
    """Commands that arrive together, more of them than one read takes, are answered one after another."""
    puts = b"".join(b"put 0 0 9 %d\r\n%s\r\n" % (size, b"x" * size) for size in range(1000))
    ids = range(1, 1001)
    with Server(bqd, "--seats", "1") as server:
        client = server.client()
        client.asks(puts, b"".join(b"INSERTED %d\r\n" % it for it in ids))
        client.asks(b"".join(b"delete %d\r\n" % it for it in ids), b"DELETED\r\n" * len(ids))


def run_answers_before_a_wait(bqd):
    """Answers reach the client before the server waits for the rest of a put or for a job, even with further commands
    after the reserve, and before the waiting seat polls again."""
    with Server(bqd, "--seats", "1") as server:
        client = server.client()
        client.asks(b"list-tube-used\r\nput 0 9 9 1\r\n", b"USING default\r\n")
        client.asks(b"x\r\n", b"INSERTED 1\r\n")
        client.asks(b"use a\r\nreserve-with-timeout 1\r\nlist-tube-used\r\nuse", b"USING a\r\n")
        client.hears_nothing(0.1)
        client.asks(b" b\r\n", b"TIMED_OUT\r\nUSING a\r\nUSING b\r\n")
        for _ in range(TRIES):
            begun = time.monotonic()
            client.asks(b"list-tube-used\r\nreserve-with-timeout 1\r\n", b"USING b\r\n")
            took = time.monotonic() - begun
            client.hears(b"TIMED_OUT\r\n")
            if took < LATE:
                return
    raise AssertionError("it was answered late each time")


def run_long_answers_at_once(bqd):
    """Answers that are sent together are complete and in order, however large they are."""
    drawn = random.Random(5)
    sizes = [0, 1000, *range(16360, 16370), 40000, 65535]
    with Server(bqd, "--seats", "1") as server:
        client = server.client()
        answers = []
        for number, size in enumerate(sizes, 1):
            body = bytes(at * 7 % 251 for at in range(size))
            client.asks(b"put 0 0 9 %d\r\n" % size + body + b"\r\n", b"INSERTED %d\r\n" % number)
            answers.append(b"FOUND %d %d\r\n" % (number, size) + body + b"\r\n")
        peeked = [drawn.randrange(len(sizes)) for _ in range(300)]
        client.asks(b"".join(b"peek %d\r\n" % (it + 1) for it in peeked), b"".join(answers[it] for it in peeked))


def run_what_a_client_left(bqd):
    """Unread input of one client is not part of the next client's."""
    with Server(bqd, "--seats", "1") as server:
        first = server.client()
        first.sends(b"list-tube-used\r\nquit\r\nuse other\r\nput 0 0 9 3\r\nab")
        first.hears(b"USING default\r\n")
        first.close()
        server.client().asks(b"list-tube-used\r\n", b"USING default\r\n")


def run_seats_taken_are_told(bqd):
    """That a connection took the last free seat is reported at once, before any client waits, and not again soon."""
    with Server(bqd, "--seats", "2") as server:
        first = server.client()
        first.asks(b"list-tube-used\r\n", b"USING default\r\n")
        same(server.is_silent(0.3), True)
        second = server.client()
        second.asks(b"list-tube-used\r\n", b"USING default\r\n")
        server.tells(TAKEN)
        # The seat that is free in between isn't free for a minute.
        for rest in (0, 0.1, 0.5, 1.5):
            second.close()
            time.sleep(rest)
            second = server.client()
            second.asks(b"list-tube-used\r\n", b"USING default\r\n")
        same(server.is_silent(0.3), True)


def run_seats_that_end_are_not_free(bqd):
    """A seat that serves no more connections isn't free: the very last connection takes the last seat."""
    with Server(bqd, "--seats", "2", "--sessions", "1") as server:
        for _ in range(2):
            same(server.is_silent(0.3), True)
            client = server.client()
            client.asks(b"list-tube-used\r\nquit\r\n", b"USING default\r\n")
            client.hears_end()
            client.close()
        same(server.end_as_told(), Ended(0, b"", TAKEN))


def run_seat_served_once_of_twice_is_free(bqd):
    """A seat that may serve one more connection is free in between."""
    with Server(bqd, "--seats", "3", "--sessions", "2") as server:
        for _ in range(2):
            client = server.client()
            client.asks(b"list-tube-used\r\nquit\r\n", b"USING default\r\n")
            client.hears_end()
        server.client().asks(b"list-tube-used\r\n", b"USING default\r\n")
        same(server.is_silent(0.3), True)


def run_seats_taken_are_told_again(bqd):
    """After some seat was free for a minute, it is reported again that all are taken, even if other seats became free
    later."""
    # The clock runs a hundred times as fast.
    with Server(bqd, "--seats", "3", env=faults(clock=100)) as server:
        clients = [server.client() for _ in range(3)]
        for client in clients:
            client.asks(b"list-tube-used\r\n", b"USING default\r\n")
        server.tells(TAKEN)
        for minutes in (0.8, 0.5):
            clients.pop().close()
            time.sleep(minutes * 60 / 100)
        for _ in range(2):
            server.client().asks(b"list-tube-used\r\n", b"USING default\r\n")
        server.tells(TAKEN)
