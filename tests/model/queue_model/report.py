"""The result of a task."""
from collections import namedtuple

# A task's name; how many of its parts passed, failed, and couldn't be judged; how many commands were sent; what to
# print about it.
Report = namedtuple("Report", "name passed failed unjudged commands note")


def passed(name, many, commands, note=""):
    return Report(name, many, 0, 0, commands, note)


def failed(name, commands, note):
    return Report(name, 0, 1, 0, commands, note)


def told(text):
    """Returns bytes in readable form; long ones are cut."""
    return repr(text) if len(text) <= 400 else "%r .. %r (%d bytes)" % (text[:200], text[-150:], len(text))


def apart(wanted, got):
    """Returns where two byte strings first differ, with the bytes around."""
    place = next((at for at, (a, b) in enumerate(zip(wanted, got)) if a != b), min(len(wanted), len(got)))
    begin = max(0, place - 60)
    return "at byte %d\n    model:   %s\n    program: %s" % (place, told(wanted[begin:place + 120]), told(got[begin:place + 120]))
