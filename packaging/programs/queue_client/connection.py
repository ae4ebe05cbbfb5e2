"""A connection to a server. Lines are sent; heads and bodies are received, each within a time limit."""
import socket
import time

from .faults import Fault, said

# The longest head of an answer is `USING` and a tube's name of 200 bytes.
HEAD_LIMIT = 224


class Connection:
    """A connection to a server. Each answer has to arrive within `patience` seconds."""

    def __init__(self, name, host, port, patience):
        self.name, self.patience = name, patience
        self.kept = bytearray()
        self.until = 0.0
        try:
            self.stream = socket.create_connection((host, port), patience)
            self.stream.setsockopt(socket.IPPROTO_TCP, socket.TCP_NODELAY, 1)
        except socket.timeout:
            raise Fault(f"cannot connect to {name} within {patience:g} seconds") from None
        except (OSError, UnicodeError) as fault:
            raise Fault(f"cannot connect to {name}: {said(fault)}") from None

    def close(self):
        """Closes the connection. The server releases the jobs that it reserved."""
        self.stream.close()

    def send(self, data):
        """Sends these bytes."""
        try:
            self.stream.settimeout(self.patience)
            self.stream.sendall(data)
        except socket.timeout:
            raise self._too_late() from None
        except OSError as fault:
            raise Fault(f"{self.name} is lost: {said(fault)}") from None

    def head(self, command):
        """Returns the first line of the next answer. The whole answer to `command` has to arrive within the time limit
        from now."""
        self.until = time.monotonic() + self.patience
        while (end := self.kept.find(b"\r\n", 0, HEAD_LIMIT)) < 0:
            if len(self.kept) >= HEAD_LIMIT:
                raise self.odd(command, "a line without end")
            self._receive(command)
        return self.taken(end + 2, command)[:-2]

    def taken(self, size, command):
        """Returns the next `size` bytes of the answer."""
        while len(self.kept) < size:
            self._receive(command)
        found = bytes(self.kept[:size])
        del self.kept[:size]
        return found

    def odd(self, command, what):
        """Returns the fault that an answer does not follow the protocol."""
        return Fault(f"{self.name} answered {command} by {what}")

    def _receive(self, command):
        left = self.until - time.monotonic()
        if left <= 0:
            raise self._too_late()
        try:
            self.stream.settimeout(left)
            came = self.stream.recv(1 << 16)
        except socket.timeout:
            raise self._too_late() from None
        except OSError as fault:
            raise Fault(f"{self.name} is lost: {said(fault)}") from None
        if not came:
            raise Fault(f"{self.name} closed the connection before it answered {command}")
        self.kept += came

    def _too_late(self):
        return Fault(f"{self.name} gave no answer within {self.patience:g} seconds; are all of its seats taken?")
