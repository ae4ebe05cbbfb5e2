"""The control line of a server: a named pipe that is the server's standard input."""
import errno
import os
import stat

from queue_client import Fault, said

from .sockets import serves


class ControlLine:
    """A named pipe, open for writing. It exists and a process reads it, so that no file is created."""

    def __init__(self, path):
        self.path = path
        try:
            self.pipe = os.open(path, os.O_WRONLY | os.O_NONBLOCK)
        except OSError as fault:
            raise self._unfit("nobody reads it" if fault.errno == errno.ENXIO else said(fault)) from None
        if not stat.S_ISFIFO(os.fstat(self.pipe).st_mode):
            self.close()
            raise self._unfit("it is no named pipe")

    def __enter__(self):
        return self

    def __exit__(self, *why):
        self.close()

    def close(self):
        os.close(self.pipe)

    def write(self, line):
        """Writes a line to it."""
        try:
            os.write(self.pipe, line)
        except OSError as fault:
            raise self._unfit(said(fault)) from None

    def readers(self):
        """Returns the processes whose standard input is this pipe, as far as this program may see them."""
        own = os.fstat(self.pipe)
        return [pid for pid in map(int, filter(str.isdigit, os.listdir("/proc"))) if is_input(pid, own)]

    def must_be_of(self, name, stream):
        """Raises a fault unless the server at the other end of this connection has the pipe as its standard input.

        `name` is the server's address.
        """
        readers = self.readers()
        if not readers:
            raise self._unfit("it is no standard input of a process that this user can see")
        if not any(is_served_by(pid, stream) for pid in readers):
            found = ", ".join(map(str, readers))
            raise Fault(f"nothing was drained: {self.path} is the control line of process {found}, and not of {name}")

    def _unfit(self, why):
        return Fault(f"cannot drain by {self.path}: {why}")


def is_input(pid, pipe):
    """Returns whether the process has this pipe as its standard input."""
    try:
        found = os.stat(f"/proc/{pid}/fd/0")
    except OSError:
        return False
    return (found.st_dev, found.st_ino) == (pipe.st_dev, pipe.st_ino)


def is_served_by(pid, stream):
    """Returns whether the process has the other end of a connection of ours; no if it is gone."""
    try:
        return serves(pid, stream)
    except OSError:
        return False
