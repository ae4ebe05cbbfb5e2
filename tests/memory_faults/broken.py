"""Programs that are broken on purpose: the sweep has to find each of them."""
import os
import stat
import sys

from refusal import Program

INSERTED, REFUSED = b"INSERTED 1\r\n", b"OUT_OF_MEMORY\r\n"


class Broken(Program):
    """A program whose result is falsified if an allocation failed, or always."""

    def __init__(self, program, turn, always=False):
        super().__init__(program.path, program.host, *program.first)
        self.turn, self.always = turn, always

    def run(self, words, given, **chosen):
        ran = super().run(words, given, **chosen)
        return self.turn(*ran) if self.always or self.host.was_refused() else ran


def refused_without_need(status, out, complaint):
    return status, out.replace(INSERTED, REFUSED), complaint


def panics(_status, out, _complaint):
    return 101, out, b""


def hangs(_status, out, complaint):
    return None, out, complaint


def changed_and_then_refused(status, out, complaint):
    """The put is carried out and answered OUT_OF_MEMORY, so the job exists afterwards."""
    return status, out.replace(REFUSED + b"TIMED_OUT\r\n", REFUSED + b"RESERVED 1 1\r\na\r\n"), complaint


def answer_lost(status, out, complaint):
    return status, out.replace(REFUSED, b""), complaint


def another_command_refused(status, out, complaint):
    return status, out.replace(b"TIMED_OUT\r\n", REFUSED), complaint


def fault_not_told(status, out, _complaint):
    return status, out, b""


# How each is broken, and whether it is broken even if no allocation failed.
SESSIONS = {
    "refused_without_need": (refused_without_need, True),
    "panics": (panics, False),
    "hangs": (hangs, False),
    "changed_and_then_refused": (changed_and_then_refused, False),
    "answer_lost": (answer_lost, False),
    "another_command_refused": (another_command_refused, False),
    "fault_not_told": (fault_not_told, False),
}


def door_opened_and_then_refused(status, out, complaint):
    return status, out.replace(b"run_locked: refused", b"run_locked: wrong"), complaint


def refusal_hidden(status, out, complaint):
    """A failed call reports success."""
    return status, out.replace(b"links: refused", b"links: made"), complaint


# The same for the calls of the libraries.
LIBRARY = {
    "door_opened_and_then_refused": door_opened_and_then_refused,
    "refusal_hidden": refusal_hidden,
}

# A server that serves clients whom it accepted before its last allocation, which then fails.
EARLY = """#!%s
import os, socket, sys
door = socket.create_server(("127.0.0.1", 0))
print("listening 127.0.0.1:%%d" %% door.getsockname()[1], flush=True)
refused = int(os.environ.get("REFUSE_AT", "0")) <= 3
for _ in range(2):
    client = door.accept()[0]
    client.recv(100)
    client.sendall(b"USING default\\r\\n")
    client.close()
    if refused:
        open(os.environ["REFUSE_TOLD"], "wb").write(b"!")
        sys.exit("bqd: no memory\\nbqd: could not allocate memory for the queue and its seats")
"""


def early_server(host, folder):
    """A server that opens its doors before its last allocation. It is not a C program, so the library isn't loaded into
    it."""
    path = f"{folder}/early"
    with open(path, "w") as file:
        file.write(EARLY % sys.executable)
    os.chmod(path, os.stat(path).st_mode | stat.S_IXUSR)

    class Unloaded:
        def environment(self, **chosen):
            return {it: text for it, text in host.environment(**chosen).items() if it != "LD_PRELOAD"}

        def was_refused(self):
            return host.was_refused()

    return Program(path, Unloaded())
