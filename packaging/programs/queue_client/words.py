"""Words of a command line: addresses, tubes and numbers. Each reader reports errors as argparse expects."""
import argparse
import math
import os
import re

from .texts import TUBE_NAME
from .version import VERSION

DEFAULT_PORT = 11300

# The variable of the environment that names the server, and the server if neither it nor the command line does.
VARIABLE, DEFAULT_SERVER = "BQD_SERVER", "127.0.0.1:11300"

# The largest priority, delay, time to run and bound in the protocol.
LARGEST_NUMBER = (1 << 32) - 1


def address(word, default_port=DEFAULT_PORT):
    """Reads the host and the port from HOST, HOST:PORT, [HOST] or [HOST]:PORT."""
    found = re.fullmatch(r"(?:\[([0-9A-Fa-f:.%\w]+)\]|([^\s:\[\]]+))(?::([0-9]{1,5}))?", word)
    port = int(found[3] or default_port) if found else 0
    if not 1 <= port <= 65535:
        raise argparse.ArgumentTypeError(f"{word!r} is no address such as 127.0.0.1:{default_port}")
    return found[1] or found[2], port


def shown(host, port):
    """Returns an address in its usual notation."""
    return f"[{host}]:{port}" if ":" in host else f"{host}:{port}"


def tube(word):
    """Reads the name of a tube."""
    if not TUBE_NAME.fullmatch(word):
        raise argparse.ArgumentTypeError(
            f"{word!r} is no name of a tube: 1 to 200 letters, digits and -+/;.$_(), not - at its beginning")
    return word


def seconds(least, most):
    """Returns a reader of a number of seconds in a range."""
    def read(word):
        try:
            value = float(word)
        except ValueError:
            value = math.nan
        if not least <= value <= most:
            raise argparse.ArgumentTypeError(f"{word!r} is no number of seconds from {least:.10g} to {most:.10g}")
        return value
    return read


def whole(least, most=LARGEST_NUMBER):
    """Returns a reader of a whole number in a range."""
    def read(word):
        if not re.fullmatch("[0-9]{1,20}", word) or not least <= int(word) <= most:
            raise argparse.ArgumentTypeError(f"{word!r} is no whole number from {least} to {most}")
        return int(word)
    return read


def timeout(parser, default=5.0):
    """Adds the option for the time within which an answer has to arrive."""
    parser.add_argument("--timeout", metavar="SECONDS", type=seconds(0.1, 3600), default=default,
                        help="how long an answer may take, 0.1 to 3600; default 5")


def version(parser):
    """Adds the option that prints the program's name and version."""
    parser.add_argument("--version", action="version", version=f"{parser.prog} {VERSION}",
                        help="print the program's version")


def default_server(parser):
    """Returns the address of the server if the command line names none: $BQD_SERVER, else the usual one."""
    word = os.environ.get(VARIABLE) or DEFAULT_SERVER
    try:
        return address(word)
    except argparse.ArgumentTypeError as fault:
        return parser.error(f"${VARIABLE}: {fault}")
