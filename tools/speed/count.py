"""Counts the instructions that a server takes for a put, a reserve and a delete, with valgrind's callgrind.

Each connection has a tube of its own. In a cycle all of them put a job, then all reserve, then all delete. A server runs
for some cycles and anew for three times as many, and the difference leaves its start and its end out. The count does not
depend on what else the computer does.

In the last column but one, a worker waits in its reserve when another connection puts the job.

In the last column one connection sends 50 commands at once. A server may divide its time between connections by the
clock, and valgrind makes it some 50 times slower. So the server reads a clock that goes 50 times slower too (slow_clock.c),
and its own instructions are left out.
"""
import os
import pathlib
import re
import socket
import subprocess
import sys
import tempfile
import time

# How many cycles the shorter run has over all connections.
CYCLES = 1500

# How many commands are sent at once, and how many cycles of them the shorter run has.
BATCH, BATCHES = 50, 20

BODY = b"x" * 64
PUT = b"put 5 0 60 %d\r\n%s\r\n" % (len(BODY), BODY)


class Client:
    """A connection that waits for each answer."""

    def __init__(self, port):
        for _ in range(300):
            try:
                self.socket = socket.create_connection(("127.0.0.1", port))
                break
            except OSError:
                time.sleep(0.1)
        else:
            sys.exit("speed: the server doesn't listen under valgrind")
        self.socket.setsockopt(socket.IPPROTO_TCP, socket.TCP_NODELAY, 1)
        self.answers = self.socket.makefile("rb")

    def ask(self, command, begins, body=0):
        """Sends a command and returns the words of its answer, which has to begin with this word."""
        return self.ask_all([command], begins, body)[0]

    def ask_all(self, commands, begins, body=0):
        """Sends commands at once and returns the words of each answer, which have to begin with this word."""
        self.socket.sendall(b"".join(commands))
        answers = []
        for command in commands:
            words = self.answers.readline().split()
            if words[:1] != [begins]:
                sys.exit(f"speed: {command[:40]} was answered {words}")
            if body:
                self.answers.read(body + 2)
            answers.append(words)
        return answers


def one_at_a_time(clients):
    """Each client puts a job, then each reserves its own, then each deletes it."""
    for it in clients:
        it.ask(PUT, b"INSERTED")
    ids = [it.ask(b"reserve\r\n", b"RESERVED", len(BODY))[1] for it in clients]
    for it, job in zip(clients, ids):
        it.ask(b"delete %s\r\n" % job, b"DELETED")


def all_at_once(clients):
    """Each client puts jobs by commands that it sends at once, then reserves them, then deletes them."""
    for it in clients:
        it.ask_all([PUT] * BATCH, b"INSERTED")
        jobs = it.ask_all([b"reserve\r\n"] * BATCH, b"RESERVED", len(BODY))
        it.ask_all([b"delete %s\r\n" % job[1] for job in jobs], b"DELETED")


def handed_over(clients):
    """A worker begins to wait, a producer puts a job, and the worker has it and deletes it."""
    producer, worker = clients
    worker.socket.sendall(b"reserve\r\n")
    time.sleep(0.003)
    producer.ask(PUT, b"INSERTED")
    job = worker.answers.readline().split()[1]
    worker.answers.read(len(BODY) + 2)
    worker.ask(b"delete %s\r\n" % job, b"DELETED")


def counted(words, port, connections, cycles, cycle=one_at_a_time, clock=None):
    """Returns the instructions of a server that serves so many cycles of each connection. `clock` is a library that it
    takes its time from in place of the system's."""
    valgrind = ["valgrind", "--tool=callgrind", "--callgrind-out-file=/dev/null"]
    env = dict(os.environ)
    if clock:
        valgrind += ["--toggle-collect=clock_gettime*", "--collect-atstart=yes"]
        env["LD_PRELOAD"] = clock
    server = subprocess.Popen(
        valgrind + words, env=env, stdin=subprocess.PIPE, stdout=subprocess.DEVNULL, stderr=subprocess.PIPE, text=True
    )
    clients = [Client(port) for _ in range(connections)]
    for number, it in enumerate(clients):
        tube = 0 if cycle is handed_over else number
        it.ask(b"use t%d\r\n" % tube, b"USING")
        it.ask(b"watch t%d\r\n" % tube, b"WATCHING")
        it.ask(b"ignore default\r\n", b"WATCHING")
    for _ in range(cycles):
        cycle(clients)
    server.terminate()
    _, said = server.communicate()
    return int(re.search(r"Collected : (\d+)", said)[1])


def difference(words_of, free_port, connections, cycles, **how):
    """Returns by how many instructions a run of three times as many cycles takes more."""
    runs = []
    for times in (1, 3):
        port = free_port()
        runs.append(counted(words_of(port), port, connections, times * cycles, **how))
    return runs[1] - runs[0]


def instructions(words_of, free_port, connections):
    """Returns how many instructions a cycle takes. `words_of` gives the words that start the server at a port."""
    cycles = max(20, CYCLES // connections)
    return round(difference(words_of, free_port, connections, cycles) / (2 * cycles * connections))


def instructions_handed_over(words_of, free_port):
    """The same for each job that a waiting worker is handed."""
    return round(difference(words_of, free_port, 2, CYCLES, cycle=handed_over) / (2 * CYCLES))


def instructions_at_once(words_of, free_port, clock):
    """The same for each of the jobs of commands that one connection sends at once."""
    return round(difference(words_of, free_port, 1, BATCHES, cycle=all_at_once, clock=clock) / (2 * BATCHES * BATCH))


def table(servers, free_port):
    """Prints a row for each server: with 1, 16 and 64 connections, with a worker that waits, and with commands that are
    sent at once."""
    heads = "1 connection | 16 | 64 | a worker waits | 50 at once"
    print(f"| instructions of a put, a reserve and a delete | {heads} |\n|---|---|---|---|---|---|")
    with tempfile.TemporaryDirectory() as folder:
        clock = f"{folder}/slow_clock.so"
        source = pathlib.Path(__file__).with_name("slow_clock.c")
        subprocess.run(["cc", "-O2", "-shared", "-fPIC", "-o", clock, str(source)], check=True)
        for name, words_of in servers.items():
            row = [f"{instructions(words_of, free_port, it):,}" for it in (1, 16, 64)]
            row.append(f"{instructions_handed_over(words_of, free_port):,}")
            row.append(f"{instructions_at_once(words_of, free_port, clock):,}")
            print(f"| {name} | {' | '.join(row)} |", flush=True)
