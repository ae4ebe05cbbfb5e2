"""Runs of bqd-top and bqd-drain with real servers."""
import contextlib
import json
import os
import socket
import subprocess
import sys
import tempfile
import threading
import time

from canned import PROGRAMS, drain, top
from journal import Journal
from programs import Ended, same
from servers import Server, free_port


def each_run_jobs(start):
    """bqd-top shows the jobs of two tubes by state, and jobs that are put meanwhile."""
    with start() as server:
        shows_jobs(server)


def shows_jobs(server):
    """Checks that bqd-top shows them."""
    client = server.client()
    client.asks(b"put 0 0 60 1\r\na\r\nput 0 60 60 1\r\nb\r\nput 0 0 60 1\r\nc\r\n", b"INSERTED 1\r\nINSERTED 2\r\nINSERTED 3\r\n")
    client.asks(b"reserve-job 1\r\nbury 1 0\r\nreserve-job 3\r\n", b"RESERVED 1 1\r\na\r\nBURIED\r\nRESERVED 3 1\r\nc\r\n")
    client.asks(b"use mail\r\nput 9 0 60 1\r\nd\r\n", b"USING mail\r\nINSERTED 4\r\n")
    address = f"127.0.0.1:{server.port}"
    done = []
    watching = threading.Thread(target=lambda: done.append(top("--once", "--json", "--interval", "2", address)))
    watching.start()
    # The first picture must be older than this, or the rates below are wrong; it gets a second.
    time.sleep(1)
    client.asks(b"put 9 0 60 1\r\ne\r\ndelete 4\r\n", b"INSERTED 5\r\nDELETED\r\n")
    watching.join()
    found, = done
    same((found.status, found.errors), (0, b""))
    shown = json.loads(found.output)
    states = ["ready", "reserved", "delayed", "buried"]
    tubes = {it["name"]: [it[state] for state in states] for it in shown["tubes"]}
    same(tubes, {"default": [0, 1, 1, 1], "mail": [1, 0, 0, 0]})
    same([shown[it] for it in [*states, "connections", "waiting", "draining"]], [1, 1, 1, 1, 2, 0, False])
    mail = next(it for it in shown["tubes"] if it["name"] == "mail")
    same([round(mail[it] * shown["seconds"], 6) for it in ["put_rate", "deleted_rate"]], [1, 1])


def bqd_run_many_tubes(bqd):
    """More tubes than are queried together, with the longest names."""
    names = [f"{number:0200}" for number in range(300)]
    with Server(bqd) as server:
        client = server.client()
        for it in names:
            client.asks(f"use {it}\r\nput 0 0 60 0\r\n\r\n".encode(), f"USING {it}\r\nINSERTED {int(it) + 1}\r\n".encode())
        found = top("--once", "--json", "--interval", "0.1", f"127.0.0.1:{server.port}")
        same((found.status, found.errors), (0, b""))
        same([it["name"] for it in json.loads(found.output)["tubes"]], sorted([*names, "default"]))


def bqd_run_all_seats_taken(bqd):
    """If all seats are taken, the program reports that no answer came."""
    with Server(bqd, "--seats", "1") as server:
        server.client().asks(b"list-tube-used\r\n", b"USING default\r\n")
        address = f"127.0.0.1:{server.port}"
        wanted = f"bqd-top: {address} gave no answer within 0.3 seconds; are all of its seats taken?\n"
        same(top("--once", "--timeout", "0.3", address), Ended(1, b"", wanted.encode()))


def bqd_run_drain(bqd):
    """It drains, reports how many jobs are left, and ends when a worker has done all jobs except buried ones."""
    with piped(bqd) as (server, pipe):
        client = server.client()
        client.asks(b"put 0 0 60 1\r\na\r\nput 0 0 60 1\r\nb\r\n", b"INSERTED 1\r\nINSERTED 2\r\n")
        client.asks(b"reserve\r\nbury 1 0\r\n", b"RESERVED 1 1\r\na\r\nBURIED\r\n")
        words = ["--control", pipe, f"127.0.0.1:{server.port}"]
        late = drain("--limit", "0.5", *words)
        wanted = b"bqd-drain: after 0.5 seconds there are still 1 ready, 0 reserved, 0 delayed\n"
        same((late.status, late.errors), (1, wanted))
        same(set(late.output.splitlines()), {b"1 ready, 0 reserved, 0 delayed"})
        client.asks(b"put 0 0 60 1\r\nc\r\n", b"DRAINING\r\n")
        working = subprocess.Popen([sys.executable, PROGRAMS / "bqd-drain", *words], stdout=subprocess.PIPE)
        same(working.stdout.readline(), b"1 ready, 0 reserved, 0 delayed\n")
        client.asks(b"reserve\r\ndelete 2\r\n", b"RESERVED 2 1\r\nb\r\nDELETED\r\n")
        output, _ = working.communicate(timeout=20)
        same((working.returncode, output.splitlines()[-1]), (0, b"drained; 1 buried jobs stay"))


def bqd_run_drain_by_each_address(bqd):
    """A server at all addresses is drained by each of them, also if the pipe has another name."""
    for address in ["127.0.0.1", "127.0.0.2", "localhost"]:
        with piped(bqd, listen="0.0.0.0") as (server, pipe):
            os.symlink(pipe, pipe + "-too")
            same(drain("--control", pipe + "-too", f"{address}:{server.port}"), Ended(0, b"drained\n", b""))


def bqd_run_drain_by_ipv6(bqd):
    """A server at an IPv6 address, and one at all addresses of both kinds, which sees IPv4 in its other form."""
    if not has_ipv6():
        return
    for listen, address in [("[::1]", "[::1]"), ("[::]", "[::1]"), ("[::]", "127.0.0.1")]:
        with piped(bqd, listen=listen) as (server, pipe):
            same(drain("--control", pipe, f"{address}:{server.port}"), Ended(0, b"drained\n", b""))


def bqd_run_drain_of_another(bqd):
    """The control line of another server: the fault names both, and neither server drains."""
    with piped(bqd) as (owner, pipe), Server(bqd) as server:
        address = f"127.0.0.1:{server.port}"
        wanted = f"bqd-drain: nothing was drained: {pipe} is the control line of process {owner.process.pid}, and not of {address}\n"
        same(drain("--control", pipe, address), Ended(1, b"", wanted.encode()))
        for it in [owner, server]:
            takes_puts(it)


def both_run_drain_of_beanstalkd(bqd, beanstalkd):
    """beanstalkd has no control line: the server to which the pipe belongs does not drain."""
    with piped(bqd.args[0]) as (owner, pipe), beanstalkd() as server:
        address = f"127.0.0.1:{server.port}"
        wanted = f"bqd-drain: nothing was drained: {address} is beanstalkd, which drains by the signal SIGUSR1\n"
        same(drain("--control", pipe, address), Ended(1, b"", wanted.encode()))
        takes_puts(owner)


def takes_puts(server):
    """Checks that a server accepts a job, so that it does not drain."""
    server.client().asks(b"put 0 0 60 1\r\na\r\n", b"INSERTED 1\r\n")


def has_ipv6():
    """Returns whether this computer has an IPv6 loopback address."""
    try:
        socket.create_server(("::1", 0), family=socket.AF_INET6).close()
        return True
    except OSError:
        return False


def run_drain_priority():
    """A fault of bqd-drain is an error for systemd's journal, and has no priority elsewhere."""
    address = f"127.0.0.1:{free_port()}"
    told = f"bqd-drain: cannot connect to {address}: Connection refused".encode()
    for by, first in [(0, b"<3>"), (1, b"")]:
        with Journal() as journal:
            command = [sys.executable, PROGRAMS / "bqd-drain", address]
            same(subprocess.run(command, env=journal.named(by), stderr=journal.file).returncode, 1)
            same(journal.lines(1), [first + told])


@contextlib.contextmanager
def piped(bqd, listen="127.0.0.1"):
    """Starts a server whose control line is a named pipe, as the service's is. Returns it with the pipe's path."""
    with tempfile.TemporaryDirectory() as room:
        pipe = os.path.join(room, "control")
        os.mkfifo(pipe)
        held = os.open(pipe, os.O_RDWR)
        port = free_port()
        try:
            with Server(bqd, listen=["-l", listen, "-p", str(port)], port=port, stdin=held) as server:
                yield server, pipe
        finally:
            os.close(held)
