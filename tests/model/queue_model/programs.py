"""Starts the programs, sends them input, and ends them whatever happens."""
import array
import fcntl
import os
import socket
import subprocess
import tempfile
import termios
import threading
import time
from collections import namedtuple

# A program that outputs nothing for this many seconds counts as hanging. A virtual machine may stall for some seconds.
PATIENCE = 30

# The result of a session of `bq`: status is None if it had to be killed.
Ran = namedtuple("Ran", "status out complaint")


def options_of(program):
    """Returns which of the optional options a program's help names."""
    ran = subprocess.run([program, "--help"], stdin=subprocess.DEVNULL, stdout=subprocess.PIPE, timeout=30, check=True)
    return {it for it in ("--max-jobs", "--requeue-delay") if it.encode() in ran.stdout}


def words_for(settings):
    """Returns the options for these settings."""
    words = ["--max-job-size", str(settings.max_job_size)]
    if settings.max_jobs is not None:
        words += ["--max-jobs", str(settings.max_jobs)]
    if settings.requeue_delay:
        words += ["--requeue-delay", str(settings.requeue_delay)]
    return words


def unread(pipe):
    """Returns how many bytes of a pipe were not read yet."""
    count = array.array("i", [0])
    fcntl.ioctl(pipe, termios.FIONREAD, count)
    return count[0]


def feed(started, pieces):
    """Writes pieces, each after the previous one was read, so that the program reads them separately."""
    try:
        for place, piece in enumerate(pieces):
            started.stdin.write(piece)
            started.stdin.flush()
            patience = time.monotonic() + 1
            while place + 1 < len(pieces) and unread(started.stdin) and started.poll() is None and time.monotonic() < patience:
                time.sleep(0)
        started.stdin.close()
    except OSError:
        # The program ended before its input did, as it does after a quit.
        try:
            started.stdin.close()
        except OSError:
            pass


def run_session(program, settings, pieces, seconds):
    """Runs one session of `bq` whose clock stands still. It is killed after this many seconds."""
    with tempfile.TemporaryFile() as out, tempfile.TemporaryFile() as complaint:
        words = [program, "--still"] + words_for(settings)
        started = subprocess.Popen(words, stdin=subprocess.PIPE, stdout=out, stderr=complaint)
        late = threading.Event()
        guard = threading.Timer(seconds, lambda: (late.set(), started.kill()))
        guard.start()
        try:
            feed(started, pieces)
            status = started.wait()
        finally:
            guard.cancel()
            started.kill()
            started.wait()
        out.seek(0)
        complaint.seek(0)
        return Ran(None if late.is_set() else status, out.read(), complaint.read())


class Server:
    """A running `bqd`, for use in a with statement."""

    def __init__(self, program, seats, settings):
        words = [program, "--listen", "127.0.0.1:0", "--seats", str(seats)] + program.words + words_for(settings)
        self.started = subprocess.Popen(words, stdin=subprocess.PIPE, stdout=subprocess.PIPE, stderr=subprocess.PIPE)

    def __enter__(self):
        guard = threading.Timer(PATIENCE, self.started.kill)
        guard.start()
        try:
            line = self.started.stdout.readline()
        finally:
            guard.cancel()
        said, _, address = line.decode().rstrip("\n").partition(" ")
        if said != "listening":
            self.end()
            raise RuntimeError("the server said %r and not where it listens" % line)
        host, _, port = address.rpartition(":")
        self.address = host, int(port)
        return self

    def __exit__(self, *_):
        self.end()

    def is_running(self):
        return self.started.poll() is None

    def control(self, text):
        """Writes to the control line."""
        self.started.stdin.write(text)
        self.started.stdin.flush()

    def connect(self):
        """Returns a new connection to it."""
        made = socket.create_connection(self.address, timeout=PATIENCE)
        made.setsockopt(socket.IPPROTO_TCP, socket.TCP_NODELAY, 1)
        return made

    def end(self):
        self.started.kill()
        self.started.wait()
        for it in (self.started.stdin, self.started.stdout, self.started.stderr):
            try:
                it.close()
            except OSError:
                pass


def found_program(path):
    """Returns the full path of an executable program, or exits with a message."""
    path = os.path.abspath(path)
    if not os.access(path, os.X_OK) or os.path.isdir(path):
        raise SystemExit("model: %s is no program" % path)
    return path
