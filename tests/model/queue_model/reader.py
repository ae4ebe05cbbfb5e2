"""The reading of bytes into requests.

It works on whole texts: what a text contains doesn't depend on the pieces in which it came.
"""
import re
from collections import namedtuple

LINE_END = b"\r\n"
LONGEST_LINE = 222  # without its CR LF

NUMBER = "number"
ID = "id"
TUBE = "tube"

# Each command with the kinds of the words after it.
COMMANDS = {
    b"put": (NUMBER, NUMBER, NUMBER, NUMBER),
    b"reserve": (),
    b"reserve-with-timeout": (NUMBER,),
    b"reserve-job": (ID,),
    b"delete": (ID,),
    b"release": (ID, NUMBER, NUMBER),
    b"bury": (ID, NUMBER),
    b"touch": (ID,),
    b"kick": (NUMBER,),
    b"kick-job": (ID,),
    b"use": (TUBE,),
    b"list-tube-used": (),
    b"watch": (TUBE,),
    b"ignore": (TUBE,),
    b"peek": (ID,),
    b"peek-ready": (),
    b"peek-delayed": (),
    b"peek-buried": (),
    b"pause-tube": (TUBE, NUMBER),
    b"stats-job": (ID,),
    b"stats-tube": (TUBE,),
    b"stats": (),
    b"list-tubes": (),
    b"list-tubes-watched": (),
    b"quit": (),
}

LIMITS = {NUMBER: 2**32, ID: 2**64}
DIGITS = re.compile(rb"[0-9]+")
TUBE_NAME = re.compile(rb"[A-Za-z0-9+/;.$_()][A-Za-z0-9+/;.$_()-]{0,199}")

# A command with its arguments; the argument of `refused` is the text of the answer.
Request = namedtuple("Request", "command arguments")


def refused(text):
    """Returns the request that the reader rejected with this answer."""
    return Request(b"refused", (text,))


def word_value(kind, word):
    """Returns the value of a word, or None if it isn't of its kind."""
    if kind == TUBE:
        return word if TUBE_NAME.fullmatch(word) else None
    if not DIGITS.fullmatch(word):
        return None
    value = int(word)
    return value if value < LIMITS[kind] else None


def line_request(line):
    """Returns the request of a line without its CR LF. A put has no body yet."""
    if len(line) > LONGEST_LINE:
        return refused(b"BAD_FORMAT")
    first, *words = line.split(b" ")
    if first not in COMMANDS:
        return refused(b"UNKNOWN_COMMAND")
    kinds = COMMANDS[first]
    if len(words) != len(kinds):
        return refused(b"BAD_FORMAT")
    values = tuple(word_value(kind, word) for kind, word in zip(kinds, words))
    if None in values:
        return refused(b"BAD_FORMAT")
    return Request(first, values)


def first_request(text, max_job_size):
    """Returns the first complete request of a text and its length in bytes, or None."""
    end = text.find(LINE_END)
    if end < 0:
        return None
    request, behind = line_request(text[:end]), end + len(LINE_END)
    if request.command != b"put":
        return request, behind
    pri, delay, ttr, size = request.arguments
    taken = behind + size + len(LINE_END)
    if len(text) < taken:
        return None
    if size > max_job_size:
        return refused(b"JOB_TOO_BIG"), taken
    if text[behind + size:taken] != LINE_END:
        return refused(b"EXPECTED_CRLF"), taken
    return Request(b"put", (pri, delay, ttr, text[behind:behind + size])), taken


def requests_of(text, max_job_size):
    """Returns all requests of a text up to the first quit, and the bytes after them."""
    requests = []
    while not requests or requests[-1].command != b"quit":
        found = first_request(text, max_job_size)
        if found is None:
            break
        request, taken = found
        requests.append(request)
        text = text[taken:]
    return requests, text
