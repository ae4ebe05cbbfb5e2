"""Where bqd-web listens, and the names under which it may be reached."""
import argparse
import contextlib
import errno
import ipaddress
import os
import re
import socket

from queue_client.words import address, shown

DEFAULT_PORT = 11380


def place(word):
    """Reads HOST, HOST:PORT or unix:PATH from a command line: a pair, or the path."""
    if word.startswith("unix:"):
        path = word[len("unix:"):]
        if not path.startswith("/") or len(os.fsencode(path)) > 107:
            raise argparse.ArgumentTypeError(f"{word!r} is no absolute path of at most 107 bytes behind unix:")
        return path
    return address(word, DEFAULT_PORT)


def shown_place(where):
    """Returns a place in its usual notation."""
    return f"unix:{where}" if isinstance(where, str) else f"http://{shown(*where)}/"


def is_local(where):
    """Returns true if only this computer reaches the place: a Unix socket, or a host whose addresses are all loopback.
    """
    if isinstance(where, str):
        return True
    found = socket.getaddrinfo(*where, type=socket.SOCK_STREAM)
    return all(ipaddress.ip_address(it[4][0].partition("%")[0]).is_loopback for it in found)


def host_of(header):
    """Returns the name in a Host header without its port; None if it is malformed."""
    found = re.fullmatch(r"(\[[0-9A-Fa-f:.]+\]|[-\w.]+)(?::[0-9]{1,5})?", header)
    return found and found[1].strip("[]").rstrip(".").lower()


def is_address(name):
    """Returns true if a name is a numeric address."""
    try:
        ipaddress.ip_address(name)
        return True
    except ValueError:
        return False


class Names:
    """The names under which the page may be reached.

    A page of another site can make its own name resolve to this address and then read what is served (DNS rebinding).
    So a name has to be known: numeric addresses, localhost, the name of the listening address, and the configured
    names. A browser reaches a Unix socket only through a proxy, which knows its names.
    """

    def __init__(self, where, given):
        self.every = isinstance(where, str) and not given
        self.known = {"localhost", *(it.lower() for it in given)} | (set() if isinstance(where, str) else {where[0].lower()})

    def knows(self, header):
        """Returns true if a Host header has an allowed name."""
        name = host_of(header)
        return name is not None and (self.every or name in self.known or is_address(name))


def wants_free(path):
    """Fails if a process listens at this path. A socket left by a process that has ended may be reused."""
    with contextlib.suppress(ConnectionRefusedError, FileNotFoundError):
        with socket.socket(socket.AF_UNIX, socket.SOCK_STREAM) as probe:
            probe.connect(path)
        raise OSError(errno.EADDRINUSE, os.strerror(errno.EADDRINUSE))
