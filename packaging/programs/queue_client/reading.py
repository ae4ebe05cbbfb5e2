"""What a server reports about itself and its tubes at one moment, and the rates between two moments."""
import time

from .faults import Fault

# The states of a job, with the statistic that counts each.
COUNTS = {it: f"current-jobs-{it}" for it in ["ready", "reserved", "delayed", "buried"]}

# Counters that start at 0 with the server, and so are shown as a rate per second.
PUTS, DELETES, TIMEOUTS = "total-jobs", "cmd-delete", "job-timeouts"

OF_SERVER = [*COUNTS.values(), PUTS, TIMEOUTS, "current-connections", "current-waiting", "draining"]

OF_TUBE = [*COUNTS.values(), "current-using", "current-watching", "current-waiting", "pause-time-left", PUTS, DELETES]


class Reading:
    """What a server reported about itself and its tubes, and when."""

    def __init__(self, server):
        self.server = numbers(server.name, "stats", server.statistics(), OF_SERVER)
        names = server.tubes()
        told = zip(names, server.tube_statistics(names))
        self.tubes = {it: numbers(server.name, f"stats-tube {it}", found, OF_TUBE) for it, found in told if found}
        self.moment = time.monotonic()
        self.time = time.time()


def numbers(server, command, found, wanted):
    """Returns the statistics if all that are wanted are there, as numbers or in words of their own."""
    for key in wanted:
        if not isinstance(found.get(key), str if key == "draining" else int):
            raise Fault(f"{server} answered {command} without a number for {key}")
    return found


def rate(earlier, later, key, seconds):
    """Returns by how much a counter grew per second. One that decreased restarted from 0, as that of a tube that was
    gone does."""
    before = earlier.get(key, 0) if earlier else 0
    return (later[key] - (before if before <= later[key] else 0)) / seconds
