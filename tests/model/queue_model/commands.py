"""Random input: commands that mostly fit the model's state, and bytes that don't."""
from .machine import BURIED, DELAYED, READY, RESERVED
from .reader import COMMANDS, LONGEST_LINE

LONG_NAME = b"n" * 200
TUBES = (b"default",) * 6 + (b"a",) * 4 + (b"b", b"b", b"c-$_.;/+()0Z", LONG_NAME)
# For many clients, so that each tube has some and none has most.
MANY_TUBES = (b"default",) + tuple(b"tube-%d" % number for number in range(1, 20))
PRIORITIES = (0, 1, 5, 1023, 1024, 1025, 2**32 - 1)
NAME_BYTES = b"ABCxyz019-+/;.$_()"

# How often each command is chosen. A plain reserve is rare: if no job fits, it ends a session.
WEIGHTS = {
    b"put": 30, b"reserve": 2, b"reserve-with-timeout": 14, b"reserve-job": 5, b"delete": 8, b"release": 7, b"bury": 7,
    b"touch": 4, b"kick": 5, b"kick-job": 4, b"use": 8, b"list-tube-used": 2, b"watch": 6, b"ignore": 5, b"peek": 3,
    b"peek-ready": 3, b"peek-delayed": 3, b"peek-buried": 3, b"pause-tube": 4, b"stats-job": 7, b"stats-tube": 8,
    b"stats": 5, b"list-tubes": 3, b"list-tubes-watched": 3, b"quit": 0,
}
# The state of a job in which a command usually succeeds.
FITTING = {
    b"reserve-job": (READY, DELAYED, BURIED), b"delete": (RESERVED, READY, BURIED), b"release": (RESERVED,), b"bury": (RESERVED,),
    b"touch": (RESERVED,), b"kick-job": (BURIED, DELAYED), b"peek": (READY, RESERVED), b"stats-job": (READY, DELAYED, RESERVED, BURIED),
}


class Times:
    """The durations to choose from."""

    def __init__(self, delays, leases, timeouts, pauses):
        self.delays, self.leases, self.timeouts, self.pauses = delays, leases, timeouts, pauses


# If the clock stands still, every duration except 0 is endless.
STILL = Times(delays=(0,) * 9 + (1, 5, 100, 2**32 - 1), leases=(0, 1, 2) + (9,) * 9 + (100, 2**32 - 1),
              timeouts=(0,), pauses=(0, 0, 0, 1, 60, 2**32 - 1))


class Chooser:
    """Chooses input with a generator of random numbers."""

    def __init__(self, random, times, weights=None, tubes=TUBES):
        self.random, self.times, self.tubes = random, times, tubes
        weights = {**WEIGHTS, **(weights or {})}
        self.words, self.weights = list(weights), list(weights.values())

    def command(self, machine, number):
        """Returns a well-formed command of the seat, with the body of a put."""
        seat = machine.seats[number]
        word = self.random.choices(self.words, self.weights)[0]
        if word == b"put":
            return self.put(self.body(machine.settings.max_job_size))
        words = [word]
        if COMMANDS[word][:1] == ("id",):
            words.append(b"%d" % self.job_id(machine, seat, word))
        if COMMANDS[word][:1] == ("tube",):
            words.append(self.tube())
        if word in (b"release", b"bury"):
            words.append(b"%d" % self.random.choice(PRIORITIES))
        if word == b"release":
            words.append(b"%d" % self.random.choice(self.times.delays))
        if word == b"kick":
            words.append(b"%d" % self.random.choice((0, 1, 1, 2, 5, 2**32 - 1)))
        if word == b"reserve-with-timeout":
            words.append(b"%d" % self.random.choice(self.times.timeouts))
        if word == b"pause-tube":
            words.append(b"%d" % self.random.choice(self.times.pauses))
        return b" ".join(words) + b"\r\n"

    def with_own(self, job):
        """Returns a command of the job's holder about the job."""
        pri, delay = self.random.choice(PRIORITIES), self.random.choice(self.times.delays)
        return self.random.choice((
            b"release %d %d %d\r\n" % (job.id, pri, delay), b"bury %d %d\r\n" % (job.id, pri),
            b"touch %d\r\n" % job.id, b"delete %d\r\n" % job.id,
        ))

    def put(self, body):
        """Returns a put with this body."""
        numbers = self.random.choice(PRIORITIES), self.random.choice(self.times.delays), self.random.choice(self.times.leases), len(body)
        return b"put %d %d %d %d\r\n" % numbers + body + b"\r\n"

    def body(self, largest):
        """Returns a body, mostly short. Now and then it contains line ends, or has the largest size or a little more.
        """
        kind = self.random.random()
        if kind < 0.02:
            return b"x" * (largest + self.random.choice((0, 0, 1, 2)))
        if kind < 0.15:
            return b"\r\n".join(self.random.choice((b"", b"quit", b"delete 1", b"\r", b"\n")) for _ in range(3))[:largest]
        return bytes(self.random.choice(b"ab\r\n \0\xff") for _ in range(min(largest, self.random.choice((0, 1, 1, 2, 3, 9)))))

    def job_id(self, machine, seat, word):
        """Returns the id of a job that fits, of one that doesn't, or of none."""
        states = FITTING[word]
        own = [it.id for it in machine.held_by(seat)] if RESERVED in states else []
        fitting = [it.id for it in machine.jobs.values() if it.state in states]
        kind = self.random.random()
        for some, chance in ((own, 0.75), (fitting, 0.9), (list(machine.jobs), 0.96)):
            if some and kind < chance:
                return self.random.choice(some)
        return self.random.choice((0, 1, machine.next_id, 2**32, 2**64 - 1))

    def tube(self):
        """Returns a tube, seldom one that no other client uses."""
        if self.random.random() < 0.05:
            size = self.random.choice((1, 5, 199, 200))
            return b"a" + bytes(self.random.choice(NAME_BYTES) for _ in range(size - 1))
        return self.random.choice(self.tubes)

    def bad(self, command):
        """Returns a line that isn't well formed, or bytes that are nearly a command."""
        line = command.partition(b"\r\n")[0]
        first = line.partition(b" ")[0]
        size = self.random.choice((LONGEST_LINE - 1, LONGEST_LINE, LONGEST_LINE + 1, LONGEST_LINE + 2, 1000, 5000))
        choices = (
            b"", b" ", first, line + b" ", b" " + line, line + b" 1", line.replace(b" ", b"  ", 1), line.upper(), line.title(),
            first + b"x", first[:-1], first + b"\r", first + b"\n", first + b" \r", b"\r" + line, b"\n" + line,
            first + b" -1", first + b" +1", first + b" 1x",
            first + b" 4294967296", first + b" 4294967295", first + b" 18446744073709551616", first + b" 18446744073709551615",
            b"use -a", b"use " + LONG_NAME + b"n", b"watch a*b", b"use a\rb", b"ignore \xc3\xa4",
            b"pause-tube a", b"pause-tube -a 1", b"pause-tube a 4294967296",
            b"stats-tube " + LONG_NAME + b"n", b"put 0 0 1", b"put 0 0 1 -1", b"put 0 0 1 4294967296",
            b"put 4294967296 0 1 1", b"put 0 0 1 1 ", b"reserve ", b"z" * size,
            b"peek " + b"0" * (size - 6) + b"1", b"quit 1", b"quit ", b"quit\r", b"quit\n", b"QUIT",
        )
        return self.random.choice(choices) + b"\r\n"

    def bad_put(self, largest):
        """Returns a put whose body is too big or has a wrong end, or whose line is long because of zeros."""
        kind = self.random.randrange(4)
        if kind == 0:
            body = b"x" * (largest + self.random.choice((1, 2, 3)))
            return b"put 0 0 9 %d\r\n%s\r\n" % (len(body), body)
        if kind == 1:
            return b"put 0 0 9 2\r\nab" + self.random.choice((b"XY", b"\n\r", b"\r\r", b"\r ", b"\n\n"))
        if kind == 2:
            zeros = self.random.choice((211, 211, 212))
            return b"put 0 0 9 " + b"0" * zeros + b"3\r\nabc\r\n"
        return b"put 0 0 9 %d\r\n" % (largest + 1) + b"y" * (largest + 1) + b"XY"

    def spoiled(self, command):
        """Returns a command with one byte removed, inserted or changed."""
        place = self.random.randrange(len(command))
        byte = bytes([self.random.choice(b"\r\n 0 9ax-")])
        kind = self.random.randrange(3)
        return command[:place] + (b"" if kind == 0 else byte) + command[place + (kind != 1):]

    def text(self, machine, number):
        """Returns what a client may send next, mostly a command."""
        command, kind = self.command(machine, number), self.random.random()
        if kind < 0.82:
            return command
        if kind < 0.92:
            return self.bad(command)
        if kind < 0.95:
            return self.bad_put(machine.settings.max_job_size)
        if kind < 0.955:
            return b"quit\r\n"
        return self.spoiled(command)

    def cuts(self, text):
        """Returns the text in pieces."""
        many = min(len(text), self.random.choice((1, 3, 8, 20)))
        places = sorted({0, len(text), *(self.random.randrange(len(text) + 1) for _ in range(many))})
        return [text[a:b] for a, b in zip(places, places[1:])]
