"""What is shown of a server and its tubes at one moment, as a record."""
from .reading import COUNTS, DELETES, PUTS, TIMEOUTS, rate

# What is shown of a tube: each heading with its statistic.
COLUMNS = {
    **COUNTS,
    "using": "current-using",
    "watching": "current-watching",
    "waiting": "current-waiting",
    "pause": "pause-time-left",
}

# What is shown of a tube as a rate per second, with the statistic that counts it.
RATES = {"put_rate": PUTS, "deleted_rate": DELETES}

RATES_OF_SERVER = {"put_rate": PUTS, "timeout_rate": TIMEOUTS}


def numbers_of(found):
    """Returns the numbers of a tube."""
    return {heading: found[key] for heading, key in COLUMNS.items()}


def rates_of(wanted, earlier, later, passed):
    """Returns the rates of a tube or of the server from two of its statistics; None for each if no time has passed."""
    return {name: rate(earlier, later, key, passed) if passed else None for name, key in wanted.items()}


def picture(name, earlier, later):
    """Returns what is shown of two readings. Without an earlier one there are no rates."""
    passed = later.moment - earlier.moment if earlier else None

    def tube(it, now):
        return {"name": it, **numbers_of(now), **rates_of(RATES, earlier and earlier.tubes.get(it), now, passed)}

    return {
        "server": name,
        "time": round(later.time, 3),
        "seconds": passed,
        **{it: later.server[key] for it, key in COUNTS.items()},
        "timeouts": later.server[TIMEOUTS],
        "connections": later.server["current-connections"],
        "waiting": later.server["current-waiting"],
        "draining": later.server["draining"] == "true",
        **rates_of(RATES_OF_SERVER, earlier and earlier.server, later.server, passed),
        "tubes": [tube(it, now) for it, now in later.tubes.items()],
    }
