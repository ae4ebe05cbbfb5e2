"""Programs that are run: their words, their streams, their limits, and their results."""
import collections
import re
import resource
import subprocess

# How long a program may take, in seconds. Usually it takes less than a tenth of it.
PATIENCE = 20

Ended = collections.namedtuple("Ended", "status output errors")


def limits(**wanted):
    """Returns what sets the limits of a program before it starts, as NOFILE=4, or NOFILE=(4, 64) if it may be raised to
    that."""
    def set_limits():
        for name, most in wanted.items():
            pair = most if isinstance(most, tuple) else (most, most)
            resource.setrlimit(getattr(resource, "RLIMIT_" + name), pair)
    return set_limits


def ended(program, *words, sent=b"", stdin=None, stdout=subprocess.PIPE, before=None):
    """Returns the result of a program that receives these bytes, or reads from that file."""
    with subprocess.Popen(
        [program, *words],
        stdin=subprocess.PIPE if stdin is None else stdin,
        stdout=stdout,
        stderr=subprocess.PIPE,
        preexec_fn=before,
    ) as process:
        try:
            output, errors = process.communicate(sent if stdin is None else None, PATIENCE)
        except subprocess.TimeoutExpired:
            process.kill()
            raise
    return Ended(process.returncode, output, errors)


def same(found, wanted):
    """Checks that the result is the wanted one."""
    if found != wanted:
        raise AssertionError(f"wanted {shown(wanted)}, found {shown(found)}")


def shown(value):
    text = repr(value)
    return text if len(text) < 600 else text[:400] + " .. " + text[-100:]


def has_all(text, parts):
    """Checks that a text contains all of these parts."""
    for part in parts:
        if part not in text:
            raise AssertionError(f"{part!r} is not in {text!r}")


def refuses_words(program, *words):
    """Checks that these words are bad options: nothing on standard output, a message on standard error, status 2."""
    found = ended(program, *words)
    same((found.status, found.output), (2, b""))
    if not found.errors.startswith(b"error: "):
        raise AssertionError(f"{words}: {found.errors!r}")


def tells_version(program, name):
    """Checks that a program prints its name and its version, and nothing else."""
    found = ended(program, "--version")
    same((found.status, found.errors), (0, b""))
    same(ended(program, "-v"), found)
    if not re.fullmatch(rf"{name} [0-9]+\.[0-9]+\.[0-9]+\n", found.output.decode()):
        raise AssertionError(found.output)


def begins(found):
    """Returns true if a program started: the system did not refuse it, and its loader did not fail."""
    return found is not None and found.status >= 0 and found.status != 127


def ended_with_data(program, words, most):
    """Returns the result of a program that may have this many bytes of data, or None if the system doesn't start it."""
    try:
        return ended(program, *words, before=limits(DATA=most))
    except OSError:
        return None


def has_no_memory(program, name, *words):
    """Checks that a program whose first allocation fails says so, and nothing else.

    It gets as little data as it needs to start at all, whatever its size: with less, the system's loader can't load it.
    """
    page = resource.getpagesize()
    too_few, enough = 0, 1
    while not begins(found := ended_with_data(program, words, enough * page)):
        # In small steps: with much more, it would have the memory that it must not get.
        too_few, enough = enough, enough + 1 + enough // 4
        if enough * page > 1 << 32:
            raise AssertionError("it never began")
    while enough - too_few > 1:
        middle = (too_few + enough) // 2
        tried = ended_with_data(program, words, middle * page)
        if begins(tried):
            enough, found = middle, tried
        else:
            too_few = middle
    told = f"{name}: no memory\n{name}: could not allocate memory for the options\n"
    same(found, Ended(1, b"", told.encode()))
