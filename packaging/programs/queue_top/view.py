"""What is shown on a terminal: which tubes, in which order, and how they fit."""
from queue_client.reading import COUNTS

# The columns after the tube's name: the heading, what is shown, and its colour if it is not 0. The later ones are left
# out first if the terminal is too narrow, those of NEEDED never.
COLUMNS = {
    "ready": ("ready", None), "resvd": ("reserved", None), "delay": ("delayed", None), "buried": ("buried", "bad"),
    "wait": ("waiting", None), "pause": ("pause", "warn"), "put/s": ("put_rate", None), "del/s": ("deleted_rate", None),
    "watch": ("watching", None), "using": ("using", None),
}
NEEDED = ["ready", "resvd", "delay", "buried", "wait", "pause", "put/s", "del/s", "watch"]

ORDERS = ["trouble", "name", "ready", "reserved", "delayed", "buried", "waiting"]

COLOURS = {"bad": "\033[1;31m", "warn": "\033[33m", "head": "\033[7m", "faint": "\033[2m", None: ""}
PLAIN = "\033[0m"

# A tube's name has at least this many columns.
LEAST_NAME = 16


def trouble(tube):
    """Returns how much a tube needs a person: 3 with buried jobs, 2 with ready jobs that no client can get, 1 with ready
    jobs while none of its clients waits, 0 otherwise."""
    if tube["buried"]:
        return 3
    if tube["ready"] and (tube["pause"] or not tube["watching"]):
        return 2
    return int(bool(tube["ready"] and not tube["waiting"]))


def sorted_by(order, tubes):
    """Returns the tubes in an order: by name, or the largest first."""
    if order == "name":
        return sorted(tubes, key=lambda it: it["name"])
    if order == "trouble":
        return sorted(tubes, key=lambda it: (-trouble(it), -it["buried"], -it["ready"], it["name"]))
    return sorted(tubes, key=lambda it: (-it[order], it["name"]))


def short(value):
    """Returns a number in at most five characters, up to a million millions."""
    if value is None:
        return "-"
    if isinstance(value, float) and value < 1000:
        return f"{value:.1f}"
    value = round(value)
    for unit in ["", "k", "M", "G"]:
        if value < (100000 if not unit else 10000):
            return f"{value}{unit}"
        value //= 1000
    return f"{value}T"


def cut(name, width):
    """Returns a name in at most that many columns. Its end tells names apart more often than its middle."""
    if len(name) <= width:
        return name
    tail = (width - 1) // 3
    return name[: width - 1 - tail] + "~" + name[len(name) - tail:]


class View:
    """What a person chose: the order, the filter, and the first tube that is shown. `types` is true while a filter is
    typed."""

    def __init__(self, order, coloured=True):
        self.order, self.filter, self.first, self.types, self.coloured = order, "", 0, False, coloured
        self.height, self.width, self.count = 24, 80, 0

    def press(self, key):
        """Acts on a key. Returns false if it ends the program."""
        if self.types:
            self._typed(key)
        elif key in ("q", "Q"):
            return False
        elif key == "/":
            self.types, self.filter, self.first = True, "", 0
        elif key == "escape":
            self.filter, self.first = "", 0
        elif key in ("left", "right", "s"):
            step = -1 if key == "left" else 1
            self.order, self.first = ORDERS[(ORDERS.index(self.order) + step) % len(ORDERS)], 0
        else:
            self._scroll(key)
        return True

    def _typed(self, key):
        if key in ("enter", "escape"):
            self.types = False
            self.filter = "" if key == "escape" else self.filter
        elif key == "back":
            self.filter = self.filter[:-1]
        elif len(key) == 1 and key.isprintable():
            self.filter += key
        self.first = 0

    def _scroll(self, key):
        page = max(1, self.room())
        steps = {"up": -1, "down": 1, "k": -1, "j": 1, "page up": -page, "page down": page, " ": page, "home": -self.count, "end": self.count}
        self.first += steps.get(key, 0)

    def room(self):
        """Returns for how many tubes there is room."""
        return self.height - 5

    def lines(self, shown, fault, size):
        """Returns the lines of a picture, or of the last one with the fault that came since. There may be no picture."""
        self.height, self.width = size
        if not shown:
            return [self._line(fault, "bad")]
        tubes = sorted_by(self.order, [it for it in shown["tubes"] if self.filter.lower() in it["name"].lower()])
        self.count = len(tubes)
        self.first = max(0, min(self.first, self.count - self.room()))
        seen = tubes[self.first: self.first + max(0, self.room())]
        head = [self._server(shown, fault), self._jobs(shown), "", *self._table(seen, bool(fault))]
        head += [""] * (self.height - 1 - len(head))
        return [*head[: max(1, self.height - 1)], self._foot(len(shown["tubes"]))][: self.height]

    def _server(self, shown, fault):
        if fault:
            return self._line(f"{fault}; the numbers are old", "bad")
        parts = [f"{shown['server']}  {shown['connections']} connections, {shown['waiting']} waiting"]
        return self._line(parts[0], None) + (self._paint("  DRAINING", "warn") if shown["draining"] else "")

    def _jobs(self, shown):
        pieces = [(f"{short(shown[it])} {it}", "bad" if it == "buried" and shown[it] else None) for it in COUNTS]
        pieces += [(f"{short(shown['put_rate'])} put/s", None)]
        late = shown["timeout_rate"]
        pieces += [(f"{short(late)} timeouts/s", "bad" if late else None)]
        text, used = [], 0
        for piece, colour in pieces:
            if used + len(piece) + 2 > self.width:
                break
            text.append(self._paint(piece, colour))
            used += len(piece) + 2
        return "  ".join(text)

    def _table(self, tubes, is_old):
        columns = self._columns(tubes)
        widths = {it: max(len(it), *(len(short(tube[COLUMNS[it][0]])) for tube in tubes), 0) if tubes else len(it) for it in columns}
        name = self.width - sum(widths.values()) - len(columns)
        rows = [self._paint("tube".ljust(name) + "".join(" " + it.rjust(widths[it]) for it in columns), "head")]
        for tube in tubes:
            cells = []
            for it in columns:
                key, colour = COLUMNS[it]
                cells.append(" " + self._paint(short(tube[key]).rjust(widths[it]), "faint" if is_old else colour if tube[key] else None))
            colour = "faint" if is_old else {3: "bad", 2: "warn"}.get(trouble(tube))
            rows.append(self._paint(cut(tube["name"], name).ljust(name), colour) + "".join(cells))
        return rows

    def _columns(self, tubes):
        """Returns the columns for which there is room."""
        found = list(COLUMNS)

        def taken():
            return sum(1 + max([len(it), *(len(short(tube[COLUMNS[it][0]])) for tube in tubes)]) for it in found)
        longest = max([LEAST_NAME, *(len(it["name"]) for it in tubes)])
        while len(found) > len(NEEDED) and taken() + longest > self.width:
            found.pop()
        while len(found) > 1 and taken() + LEAST_NAME > self.width:
            found.pop()
        return found

    def _foot(self, total):
        if self.types:
            return self._line(f"/{self.filter}_", None)
        last = min(self.count, self.first + max(0, self.room()))
        which = f"{self.first + 1 if self.count else 0}-{last} of {self.count}"
        which += f" with '{self.filter}', of {total}" if self.filter else ""
        return self._line(f"{which} by {self.order}   q quit  / filter  up down scroll  left right sort", "faint")

    def _line(self, text, colour):
        return self._paint(text[: self.width], colour)

    def _paint(self, text, colour):
        return f"{COLOURS[colour]}{text}{PLAIN}" if colour and self.coloured else text
