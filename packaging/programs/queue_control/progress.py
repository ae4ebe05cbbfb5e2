"""Long-running work: its progress on a terminal, and how it is interrupted."""
import contextlib
import signal
import sys
import time

# The shortest time between two updates of the progress line, in seconds.
BETWEEN = 0.1

TO_THE_LINES_END = "\033[K"


class Progress:
    """A line on standard error that shows how much is done, if that is a terminal."""

    def __init__(self, done, total):
        self.done, self.total = done, total
        self.shows = sys.stderr.isatty()
        self.next = time.monotonic() + BETWEEN

    def at(self, count):
        """Shows that `count` jobs are done."""
        if self.shows and time.monotonic() >= self.next:
            self.next = time.monotonic() + BETWEEN
            sys.stderr.write(f"\r{self.done} {count} of {max(count, self.total)} jobs{TO_THE_LINES_END}")
            sys.stderr.flush()

    def end(self):
        """Removes the line."""
        if self.shows:
            sys.stderr.write(f"\r{TO_THE_LINES_END}")
            sys.stderr.flush()


class Interrupts:
    """The signals that end the work. The first one lets it finish the current job; the second one ends it at once."""

    SIGNALS = (signal.SIGINT, signal.SIGTERM, signal.SIGHUP)

    def __init__(self):
        self.came = self.ends = False

    def _came(self, *_):
        if self.came or self.ends:
            raise KeyboardInterrupt
        self.came = True

    @contextlib.contextmanager
    def at_once(self):
        """Lets the first signal end the work too, while this is entered."""
        self.ends = True
        try:
            yield
        finally:
            self.ends = False

    @contextlib.contextmanager
    def caught(self):
        """Catches the signals while this is entered, except those that are ignored."""
        before = {it: signal.getsignal(it) for it in self.SIGNALS}
        caught = [it for it, handler in before.items() if handler != signal.SIG_IGN]
        for it in caught:
            signal.signal(it, self._came)
        try:
            yield self
        finally:
            for it in caught:
                signal.signal(it, before[it])
