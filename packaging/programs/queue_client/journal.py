"""Lines on standard error, with their priority if systemd's journal reads them: see sd-daemon(3)."""
import argparse
import os
import sys

ERROR = 3
INFO = 6


def is_read():
    """Returns true if the journal reads standard error. A program whose standard error leads elsewhere may inherit the
    variable nevertheless."""
    try:
        found = os.fstat(sys.stderr.fileno())
    except (AttributeError, OSError, ValueError):
        return False
    return os.environ.get("JOURNAL_STREAM") == f"{found.st_dev}:{found.st_ino}"


def report(priority, text):
    """Writes the lines of a text to standard error."""
    first = f"<{priority}>" if is_read() else ""
    print("\n".join(first + line for line in text.splitlines()), file=sys.stderr, flush=True)


class Parser(argparse.ArgumentParser):
    """A parser of options whose errors are lines of that kind."""

    def _print_message(self, message, file=None):
        if message and file is sys.stderr:
            report(ERROR, message)
        else:
            super()._print_message(message, file)
