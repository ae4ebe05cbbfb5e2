"""Runs of bqd-top on a terminal."""
import contextlib
import fcntl
import os
import pty
import re
import select
import signal
import struct
import subprocess
import sys
import termios
import time

from canned import PROGRAMS
from jobs import Teller
from programs import PATIENCE, same
from servers import Server, free_port

ESCAPES = re.compile(rb"\x1b\[[0-9;?]*[A-Za-z]")

ENTER, LEAVE = b"\033[?1049h", b"\033[?1049l"


class Terminal:
    """A terminal of that size in which bqd-top runs."""

    def __init__(self, port, *words, height=24, width=80, env=None):
        self.own, other = pty.openpty()
        self.resize(height, width, signals=False)
        self.settings = termios.tcgetattr(other)
        command = [sys.executable, PROGRAMS / "bqd-top", "--interval", "0.1", *words, f"127.0.0.1:{port}"]
        self.process = subprocess.Popen(command, stdin=other, stdout=other, stderr=subprocess.PIPE, env={**os.environ, **(env or {})},
                                        start_new_session=True)
        self.other, self.came = other, b""

    def __enter__(self):
        return self

    def __exit__(self, *why):
        if self.process.poll() is None:
            self.process.kill()
        self.process.communicate()
        os.close(self.own)
        os.close(self.other)

    def resize(self, height, width, signals=True):
        fcntl.ioctl(self.own, termios.TIOCSWINSZ, struct.pack("HHHH", height, width, 0, 0))
        if signals:
            self.process.send_signal(signal.SIGWINCH)

    def press(self, keys):
        os.write(self.own, keys)

    def _reads(self, seconds):
        ready, _, _ = select.select([self.own], [], [], seconds)
        if ready:
            with contextlib.suppress(OSError):
                self.came += os.read(self.own, 65536)
        return bool(ready)

    def awaits(self, is_so):
        """Waits until a whole picture meets the predicate, and returns its lines as a person sees them."""
        end = time.monotonic() + PATIENCE
        self.came = b""
        while time.monotonic() < end:
            self._reads(1)
            # Each picture begins at the top and ends by clearing the rest.
            for it in reversed(self.came.split(b"\033[H")[1:]):
                if it.endswith(b"\033[J") or b"\033[J" in it:
                    lines = ESCAPES.sub(b"", it.partition(b"\033[J")[0]).decode().split("\r\n")
                    if is_so(lines):
                        return lines
        raise AssertionError(f"it never came about: {self.came[-3000:]!r}")

    def ended(self):
        """Returns how the program ends."""
        while self.process.poll() is None:
            self._reads(0.1)
        while self._reads(0):
            pass
        return self.process.returncode, self.process.stderr.read()


def tubes_of(lines):
    """Returns the names of the tubes in a picture."""
    return [it.split()[0] for it in lines[4:-1] if it.strip()]


def filled(server):
    """Puts jobs into tubes: `buried`, `late` whose jobs no client can get, `slow` whose clients are busy, and `fine`."""
    teller = Teller(server)
    for name, state in [("buried", "buried"), ("late", "ready"), ("slow", "ready"), ("fine", "delayed")]:
        teller.put(b"x", tube=name.encode(), state=state, delay=1000 if state == "delayed" else 0)
    teller.ask(b"watch slow")
    teller.ask(b"watch fine")
    return teller


def bqd_run_top_fits(bqd):
    """At 80 columns all that matters is shown, also of long names, and each line fits; so it does at other sizes."""
    with Server(bqd) as server:
        teller = filled(server)
        teller.put(b"x", tube=b"n" * 150 + b"end")
        teller.ask(b"pause-tube late 4000000000")
        with Terminal(server.port) as terminal:
            lines = terminal.awaits(lambda it: len(tubes_of(it)) == 6)
            same(lines[3].split(), ["tube", "ready", "resvd", "delay", "buried", "wait", "pause", "put/s", "del/s", "watch"])
            same((len(lines), max(map(len, lines)), len(lines[3])), (24, 80, 80))
            late = next(it for it in lines if it.startswith("late")).split()
            same((late[1], late[6]), ("1", "3999M"))
            assert any(re.match("n+~n*end ", it) for it in lines), lines
            for height, width in [(24, 132), (10, 40), (5, 20), (2, 10), (1, 1), (50, 200), (24, 80)]:
                terminal.resize(height, width)
                lines = terminal.awaits(lambda it: len(it) == height)
                assert max(map(len, lines)) <= width, (height, width, lines)
            assert "using" not in lines[3]


def bqd_run_top_keys(bqd):
    """Trouble comes first; the arrows sort and scroll, / filters, and q ends it and leaves the terminal as it was."""
    with Server(bqd) as server, Terminal(server.port) as terminal:
        filled(server)
        terminal.awaits(lambda it: tubes_of(it)[:3] == ["buried", "late", "slow"] and " by trouble " in it[-1])
        terminal.press(b"\033[C")
        terminal.awaits(lambda it: tubes_of(it) == ["buried", "default", "fine", "late", "slow"] and " by name " in it[-1])
        terminal.press(b"\033OD")
        terminal.awaits(lambda it: " by trouble " in it[-1])
        terminal.press(b"/LA")
        terminal.awaits(lambda it: tubes_of(it) == ["late"] and it[-1] == "/LA_")
        # A q in a filter is a letter.
        terminal.press(b"q")
        terminal.awaits(lambda it: tubes_of(it) == [] and it[-1] == "/LAq_")
        terminal.press(b"\x7f\x7f\r")
        terminal.awaits(lambda it: tubes_of(it) == ["late", "slow", "default"] and it[-1].startswith("1-3 of 3 with 'L', of 5 "))
        terminal.press(b"\033")
        terminal.awaits(lambda it: len(tubes_of(it)) == 5)
        teller = Teller(server)
        for number in range(40):
            teller.put(b"x", tube=b"t%02d" % number)
        terminal.press(b"\033[C")
        terminal.awaits(lambda it: tubes_of(it)[-1] == "t13" and it[-1].startswith("1-19 of 45 by name"))
        for keys, first in [(b"\033[B", "default"), (b"\033[6~", "t15"), (b"\033[F", "t21"), (b"\033[A", "t20"), (b"\033[H", "buried")]:
            terminal.press(keys)
            terminal.awaits(lambda it, first=first: tubes_of(it)[0] == first)
        terminal.came = b""
        terminal.press(b"q")
        same(terminal.ended(), (0, b""))
        assert terminal.came.endswith(LEAVE), terminal.came[-200:]
        same(termios.tcgetattr(terminal.other), terminal.settings)


def bqd_run_top_colours(bqd):
    """Buried jobs and timeouts are red, a paused tube is marked, and NO_COLOR leaves that out."""
    red = b"\033[1;31m"
    with Server(bqd) as server:
        filled(server)
        with Terminal(server.port) as terminal:
            terminal.awaits(lambda it: len(tubes_of(it)) == 5)
            for part in [red + b"1 buried", red + b"buried ", red + b"     1", b"\033[33mlate "]:
                assert part in terminal.came, part
            assert red + b"slow" not in terminal.came
        with Terminal(server.port, env={"NO_COLOR": "1"}) as terminal:
            terminal.awaits(lambda it: len(tubes_of(it)) == 5)
            same(re.findall(rb"\033\[[0-9;]*m", terminal.came), [])


def bqd_run_top_reconnects(bqd):
    """While the server is away the last numbers stay, marked as old; once it is back, new ones come."""
    port = free_port()
    with contextlib.ExitStack() as servers:
        server = servers.enter_context(Server(bqd, port=port))
        Teller(server).put(b"x", tube=b"old")
        with Terminal(port) as terminal:
            terminal.awaits(lambda it: "old" in tubes_of(it) and "connections" in it[0])
            servers.close()
            lines = terminal.awaits(lambda it: it[0].endswith("; the numbers are old"))
            assert "old" in tubes_of(lines), lines
            with Server(bqd, port=port):
                terminal.awaits(lambda it: tubes_of(it) == ["default"] and it[0].startswith(f"127.0.0.1:{port}  1 connections"))
                # A server that hangs holds up no key.
                terminal.press(b"q")
                same(terminal.ended(), (0, b""))


def bqd_run_top_of_silent_server(bqd):
    """While a server gives no answer, keys still work."""
    with Server(bqd) as server, Terminal(server.port, "--timeout", "3600") as terminal:
        terminal.awaits(lambda it: tubes_of(it) == ["default"])
        server.process.send_signal(signal.SIGSTOP)
        terminal.press(b"/zz")
        terminal.awaits(lambda it: it[-1] == "/zz_")
        terminal.press(b"\033")
        terminal.awaits(lambda it: "quit" in it[-1])
        terminal.press(b"q")
        same(terminal.ended(), (0, b""))
        server.process.send_signal(signal.SIGCONT)


def bqd_run_top_signals(bqd):
    """A signal ends it with the terminal as it was; a stop leaves the second screen until it goes on."""
    with Server(bqd) as server:
        for it in [signal.SIGINT, signal.SIGTERM, signal.SIGHUP]:
            with Terminal(server.port) as terminal:
                terminal.awaits(lambda it: tubes_of(it) == ["default"])
                terminal.process.send_signal(it)
                same(terminal.ended(), (0, b""))
                assert terminal.came.endswith(LEAVE), terminal.came[-200:]
                same(termios.tcgetattr(terminal.other), terminal.settings)
        with Terminal(server.port) as terminal:
            terminal.awaits(lambda it: tubes_of(it) == ["default"])
            terminal.process.send_signal(signal.SIGTSTP)
            while not terminal.came.endswith(LEAVE):
                terminal._reads(1)
            os.waitid(os.P_PID, terminal.process.pid, os.WSTOPPED | os.WNOWAIT)
            same(termios.tcgetattr(terminal.other), terminal.settings)
            terminal.process.send_signal(signal.SIGCONT)
            terminal.awaits(lambda it: tubes_of(it) == ["default"])
            terminal.press(b"q")
            same(terminal.ended(), (0, b""))
