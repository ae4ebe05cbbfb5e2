"""A server that gives prepared answers, whatever it is asked."""
import pathlib
import socket
import sys
import threading

from programs import ended

PROGRAMS = pathlib.Path(__file__).resolve().parent.parent.parent / "packaging/programs"


def top(*words, **more):
    """Returns how bqd-top ends with these words."""
    return ended(sys.executable, PROGRAMS / "bqd-top", *words, **more)


def drain(*words, **more):
    """Returns how bqd-drain ends with these words."""
    return ended(sys.executable, PROGRAMS / "bqd-drain", *words, **more)


def ctl(*words, **more):
    """Returns how bqctl ends with these words."""
    return ended(sys.executable, PROGRAMS / "bqctl", *words, **more)


def ok(text):
    """Returns the answer that carries a text."""
    return b"OK %d\r\n%s\r\n" % (len(text), text)


def yaml(**pairs):
    """Returns a text of statistics; `current_jobs_ready=1` is the line `current-jobs-ready: 1`."""
    lines = [f"{key.replace('_', '-')}: {value}\n" for key, value in pairs.items()]
    return "".join(["---\n", *lines]).encode()


def statistics(**changed):
    """Returns a server's answer to `stats`, with 0 for everything that isn't given."""
    jobs = {f"current_jobs_{it}": 0 for it in ["urgent", "ready", "reserved", "delayed", "buried"]}
    rest = {"job_timeouts": 0, "total_jobs": 0, "current_connections": 1, "current_waiting": 0, "draining": "false"}
    return ok(yaml(**{**jobs, **rest, **changed}))


def tube(name, **changed):
    """Returns a server's answer to `stats-tube`, likewise."""
    jobs = {f"current_jobs_{it}": 0 for it in ["urgent", "ready", "reserved", "delayed", "buried"]}
    keys = ["total_jobs", "current_using", "current_watching", "current_waiting", "cmd_delete", "pause_time_left"]
    return ok(yaml(name=name, **{**jobs, **dict.fromkeys(keys, 0), **changed}))


def tubes(*names):
    """Returns a server's answer to `list-tubes`."""
    return ok("".join(["---\n", *(f"- {it}\n" for it in names)]).encode())


class Canned:
    """Listens at a free loopback port, and answers the lines of one connection with these answers in order.

    After the last one it closes, or stays silent if it `stays`.
    """

    def __init__(self, *answers, stays=False):
        self.listener = socket.create_server(("127.0.0.1", 0))
        self.address = f"127.0.0.1:{self.listener.getsockname()[1]}"
        self.answers, self.stays, self.lines = answers, stays, []
        self.left = threading.Event()
        self.thread = threading.Thread(target=self._serve, daemon=True)

    def __enter__(self):
        self.thread.start()
        return self

    def __exit__(self, *why):
        self.left.set()
        self.listener.close()

    def _serve(self):
        try:
            stream, _ = self.listener.accept()
            with stream, stream.makefile("rb") as read:
                for answer in self.answers:
                    self.lines.append(read.readline())
                    stream.sendall(answer)
                if self.stays:
                    self.left.wait(20)
        except OSError:
            pass
