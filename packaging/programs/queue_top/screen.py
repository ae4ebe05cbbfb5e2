"""The terminal: its keys, its size, and its second screen, which is left again however the program ends."""
import contextlib
import os
import select
import shutil
import signal
import sys
import termios
import tty

ENTER, LEAVE = "\033[?1049h\033[?25l", "\033[?25h\033[?1049l"
TO_THE_TOP, TO_THE_LINES_END, TO_THE_END = "\033[H", "\033[K", "\033[J"

# What the keys send, by their names. A key that is not here is itself.
KEYS = {
    "\033[A": "up", "\033[B": "down", "\033[C": "right", "\033[D": "left", "\033[5~": "page up", "\033[6~": "page down",
    "\033[H": "home", "\033[F": "end", "\033[1~": "home", "\033[4~": "end", "\033OA": "up", "\033OB": "down", "\033OC": "right",
    "\033OD": "left", "\033OH": "home", "\033OF": "end", "\033": "escape", "\r": "enter", "\n": "enter", "\x7f": "back", "\x08": "back",
}


class Screen:
    """A terminal whose keys come one by one. While it is entered, the second screen is shown.

    `wake` is a file descriptor that is readable when there is something to show; signals write to it too.
    """

    def __init__(self):
        self.wake, self.waking = os.pipe()
        for it in (self.wake, self.waking):
            os.set_blocking(it, False)
        self.keys = sys.stdin.isatty()
        self.before = None
        self.ended = False

    def __enter__(self):
        signal.set_wakeup_fd(self.waking)
        for it in (signal.SIGTERM, signal.SIGHUP, signal.SIGINT):
            if signal.getsignal(it) != signal.SIG_IGN:
                signal.signal(it, self._ends)
        signal.signal(signal.SIGWINCH, lambda *_: None)
        signal.signal(signal.SIGTSTP, self._stops)
        self._begin()
        return self

    def __exit__(self, *why):
        self._end()
        signal.set_wakeup_fd(-1)

    def _begin(self):
        if self.keys:
            self.before = termios.tcgetattr(0)
            tty.setcbreak(0)
        self._write(ENTER)

    def _end(self):
        with contextlib.suppress(OSError):
            self._write(LEAVE)
        if self.before:
            with contextlib.suppress(termios.error):
                termios.tcsetattr(0, termios.TCSADRAIN, self.before)

    def _ends(self, *_):
        self.ended = True

    def _stops(self, *_):
        """Leaves the second screen while the program is stopped."""
        self._end()
        os.kill(os.getpid(), signal.SIGSTOP)
        self._begin()

    def woken(self):
        """Makes `next` return."""
        with contextlib.suppress(BlockingIOError):
            os.write(self.waking, b"\0")

    def next(self):
        """Waits for keys or for something to show. Returns the names of the keys."""
        ready, _, _ = select.select([self.wake, *([0] if self.keys else [])], [], [])
        if self.wake in ready:
            with contextlib.suppress(BlockingIOError):
                os.read(self.wake, 1024)
        return self._pressed() if 0 in ready else []

    def _pressed(self):
        data = os.read(0, 1024)
        if not data:
            # The terminal is gone.
            self.ended = True
        return named(data.decode("utf-8", "ignore"))

    def show(self, lines):
        """Shows these lines, each with its escapes, in place of what was shown."""
        self._write(TO_THE_TOP + f"{TO_THE_LINES_END}\n".join(lines) + TO_THE_LINES_END + TO_THE_END)

    @staticmethod
    def size():
        """Returns the height and the width. A terminal that does not know them reports 0."""
        found = shutil.get_terminal_size()
        return found.lines or 24, found.columns or 80

    @staticmethod
    def _write(text):
        sys.stdout.write(text)
        sys.stdout.flush()


def named(text):
    """Returns the names of the keys that sent this text."""
    keys = []
    while text:
        found = max((it for it in KEYS if text.startswith(it)), key=len, default=text[0])
        keys.append(KEYS.get(found, found))
        text = text[len(found):]
    return keys
