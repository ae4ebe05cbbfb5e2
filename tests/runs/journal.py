"""Standard error that leads to systemd's journal."""
import os
import tempfile

from servers import awaits


class Journal:
    """A file for standard error, as systemd hands it to a service: its lines, and the variable that names it."""

    def __enter__(self):
        self.file = tempfile.TemporaryFile()
        return self

    def __exit__(self, *why):
        self.file.close()

    def named(self, by=0, **more):
        """Returns an environment that names the file, or another one whose number is greater by so many."""
        found = os.fstat(self.file.fileno())
        return {**os.environ, **more, "JOURNAL_STREAM": f"{found.st_dev}:{found.st_ino + by}"}

    def lines(self, count):
        """Returns its lines, once there are so many."""
        awaits(lambda: len(self.now()) >= count)
        return self.now()

    def now(self):
        return os.pread(self.file.fileno(), 1 << 16, 0).splitlines()
