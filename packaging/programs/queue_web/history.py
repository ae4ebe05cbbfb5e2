"""The last ten minutes of each tube, one point every two seconds."""
import array
import math

from queue_client.picture import RATES, numbers_of, rates_of
from queue_client.reading import COUNTS

EVERY = 2.0
POINTS = 300

# What is recorded of a tube. A number takes four bytes, so a tube takes some seven kilobytes.
KEPT = [*COUNTS, *RATES]

# The largest number of tubes that are recorded.
MOST_TUBES = 4000

# A reading that is at most this many points late counts for the points that it missed.
MOST_LATE = 5

# How many points a sparkline has: each is the largest of several recorded points.
SPARK_POINTS = 60


class History:
    """Rings of points by tube and by statistic. A missing value is NaN."""

    def __init__(self):
        self.rings, self.seen = {}, {}
        self.count, self.next, self.earlier = 0, None, None

    def add(self, reading, moment):
        """Adds a point if it is time for one. Without a reading, because the server is down, it has no values.

        A slow reading also counts for the points that it missed; after a long pause these have no values.
        """
        self.next = moment if self.next is None else self.next
        if moment < self.next:
            return
        late = min(int((moment - self.next) / EVERY), POINTS)
        for _ in range(late):
            self._point(reading if late <= MOST_LATE else None)
        self._point(reading)
        self.next = max(self.next + (late + 1) * EVERY, moment)
        self.earlier = reading

    def _point(self, reading):
        at = self.count % POINTS
        for rings in self.rings.values():
            for ring in rings.values():
                ring[at] = math.nan
        if reading:
            self._points(reading, at)
        self.count += 1
        self._forget()

    def _points(self, reading, at):
        passed = reading.moment - self.earlier.moment if self.earlier else None
        for name, found in reading.tubes.items():
            rings = self.rings.get(name) or self._begun(name)
            if rings:
                before = self.earlier and self.earlier.tubes.get(name)
                for key, value in {**numbers_of(found), **rates_of(RATES, before, found, passed)}.items():
                    if key in rings and value is not None:
                        rings[key][at] = value
                self.seen[name] = self.count

    def _begun(self, name):
        if len(self.rings) < MOST_TUBES:
            self.rings[name] = {key: array.array("f", [math.nan]) * POINTS for key in KEPT}
        return self.rings.get(name)

    def _forget(self):
        """Drops the tubes that have no points left."""
        for name in [it for it, seen in self.seen.items() if self.count - seen > POINTS]:
            del self.rings[name], self.seen[name]

    def of(self, name):
        """Returns the points of a tube, the oldest first; None for points without a value."""
        rings = self.rings.get(name)
        return {key: self._ordered(ring) for key, ring in rings.items()} if rings else {key: [] for key in KEPT}

    def sparks(self):
        """Returns the sparkline of each tube: its ready jobs."""
        return {name: shortened(self._ordered(rings["ready"])) for name, rings in self.rings.items()}

    def _ordered(self, ring):
        at = self.count % POINTS
        return [None if math.isnan(it) else round(it, 1) for it in [*ring[at:], *ring[:at]]]


def shortened(points):
    """Returns the points of a sparkline: the largest of each few consecutive points."""
    some = POINTS // SPARK_POINTS
    parts = [[it for it in points[at : at + some] if it is not None] for at in range(0, len(points), some)]
    return [max(it) if it else None for it in parts]
