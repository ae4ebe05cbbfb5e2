"""The TCP sockets of a process, by /proc."""
import collections
import ipaddress
import os
import re
import sys

# The states of a socket in /proc/PID/net/tcp that are asked for here.
ESTABLISHED, LISTEN = "01", "0A"

# A socket: its two ends, each an address and a port, its state, and the number by which descriptors name it.
Socket = collections.namedtuple("Socket", "own other state inode")


def sockets_of(pid):
    """Returns the TCP sockets that the process has open. Raises OSError if the process is gone, or is not ours to see."""
    held = inodes_of(pid)
    return [it for it in sockets_around(pid) if it.inode in held]


def inodes_of(pid):
    """Returns the numbers of the sockets that the process has open."""
    folder = f"/proc/{pid}/fd"
    found = set()
    for name in os.listdir(folder):
        try:
            match = re.fullmatch(r"socket:\[(\d+)\]", os.readlink(f"{folder}/{name}"))
        except FileNotFoundError:
            # It was closed a moment ago.
            continue
        if match:
            found.add(match[1])
    return found


def sockets_around(pid):
    """Returns all TCP sockets of the network that the process sees."""
    found = []
    for name in ["tcp", "tcp6"]:
        try:
            with open(f"/proc/{pid}/net/{name}") as table:
                rows = [line.split() for line in table.readlines()[1:]]
        except FileNotFoundError:
            # The system has no IPv6.
            continue
        found += [Socket(end(row[1]), end(row[2]), row[3], row[9]) for row in rows]
    return found


def end(word):
    """Returns the address and the port of an end, as `0100007F:2C24` for port 11300 of 127.0.0.1.

    The address is written as numbers of four bytes in the computer's own order.
    """
    address, port = word.split(":")
    data = bytes.fromhex(address)
    if sys.byteorder == "little":
        data = b"".join(data[at : at + 4][::-1] for at in range(0, len(data), 4))
    return plain(ipaddress.ip_address(data)), int(port, 16)


def end_of(pair):
    """Returns the address and the port that the system gives for a connection of ours."""
    return plain(ipaddress.ip_address(pair[0].partition("%")[0])), pair[1]


def plain(address):
    """Returns an IPv4 address in its own form if it is written as an IPv6 one."""
    return getattr(address, "ipv4_mapped", None) or address


def listens(pid):
    """Returns whether the process listens at a TCP port. Raises OSError if it is gone."""
    return any(it.state == LISTEN for it in sockets_of(pid))


def serves(pid, stream):
    """Returns whether the process has the other end of a connection of ours. It has accepted the connection then.

    Raises OSError if the process is gone, or is not ours to see.
    """
    wanted = end_of(stream.getpeername()), end_of(stream.getsockname())
    return any((it.own, it.other) == wanted and it.state == ESTABLISHED for it in sockets_of(pid))
