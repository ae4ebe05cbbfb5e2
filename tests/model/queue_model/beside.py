"""Many clients of `bqd` side by side: each receives exactly the bytes that one history gives it.

The order of their steps isn't known while they run. So each client uses tubes and jobs of its own, except that it puts
jobs into the box of the next client and waits for those in its own box. Its answers then depend on the others in two
ways only: the ids of its puts, and that whatever it takes from its box was put before. Afterwards one history with
these answers is made: each client's requests in order, and all puts in the order of their ids. No other order matters:
for each id in turn, the model takes the steps of the client that put it, up to that put. Its clock stands still, and
ages and times left aren't compared. For the same reason only a put has a delay, and all delays are equal: delayed jobs
are due in the order of their ids, whenever they were put.
"""
import random
import re
import selectors
import time

from . import lockstep, programs, report
from .machine import PLAIN
from .reader import requests_of

TURNS = 8  # for each client
SETTINGS = PLAIN._replace(max_job_size=300)
PATIENCE = 2 * programs.PATIENCE  # for everything that the clients ask
PRIORITY = 5  # of the jobs in a box, so that the job with the lowest id is the first one, whatever else was put by then
AGES = re.compile(rb"\n(age|time-left|pause-time-left): \d+")


class Wrong(Exception):
    """Something that no history gives."""


def without_ages(answer):
    """Returns an answer without what depends on the clock: ages, times left, and the length of a text with them."""
    if not AGES.search(answer):
        return answer
    return re.sub(rb"\AOK \d+", b"OK", AGES.sub(rb"\n\1", answer))


class Talker:
    """A client with one connection after another, its requests and their answers."""

    def __init__(self, number, clients, seed, server):
        self.number, self.random, self.server = number, random.Random(seed), server
        self.own, self.other, self.box = b"own.%d" % number, b"other.%d" % number, b"box.%d" % number
        self.next_box = b"box.%d" % ((number + 1) % clients)
        self.turns, self.used, self.jobs = TURNS, None, []
        # Its steps so far, each an event with its request and its answer, and how many of them the history has.
        self.steps, self.taken_over = [], 0

    # -- sending ------------------------------------------------------------------------------------

    def open(self):
        self.line = lockstep.Client(self.number, self.server.connect())
        self.steps.append(("connect", None, None))
        self.asked = []
        self.say(b"use %s\r\nwatch %s\r\nwatch %s\r\nignore default\r\n" % (self.own, self.own, self.other))

    def say(self, text):
        """Sends requests ahead, in pieces, whether or not one of them waits."""
        self.asked += requests_of(text, SETTINGS.max_job_size)[0]
        cuts = sorted(self.random.randrange(len(text)) for _ in range(self.random.choice((0, 0, 1, 3))))
        for begin, end in zip([0, *cuts], [*cuts, len(text)]):
            self.line.connection.sendall(text[begin:end])

    def go_on(self):
        """Takes its next turn: puts one job for the next client, and takes one from its own box."""
        self.turns -= 1
        texts = [self.command() for _ in range(self.random.randrange(1, 9))]
        texts.insert(self.random.randrange(len(texts) + 1), self.share())
        if not self.turns or self.random.random() < 0.1:
            texts.append(b"quit\r\n")
        self.say(b"".join(texts))

    def put(self, pri):
        body = bytes(self.random.choices(b"ab\r\n \0\xff", k=self.random.choice((0, 1, 3, 9, 299, 300))))
        return b"put %d %d 1000 %d\r\n%s\r\n" % (pri, 0 if pri == PRIORITY else self.random.choice((0, 0, 1000)), len(body), body)

    def share(self):
        return b"".join((
            b"use %s\r\n" % self.next_box, self.put(PRIORITY), b"use %s\r\n" % self.own,
            b"watch %s\r\nignore %s\r\nignore %s\r\nreserve\r\n" % (self.box, self.own, self.other),
            b"watch %s\r\nwatch %s\r\nignore %s\r\n" % (self.own, self.other, self.box),
        ))

    def command(self):
        """A command that does not depend on other clients and does not affect them."""
        if self.random.random() < 0.2:
            return self.put(self.random.choice((0, 1, 9, 1023, 2000)))
        job = self.random.choice(self.jobs[-12:]) if self.jobs else 0
        own = self.random.choice((self.own, self.other))
        return self.random.choice((
            b"use %s\r\n" % own, b"list-tube-used\r\n", b"list-tubes-watched\r\n", b"stats-tube %s\r\n" % own,
            b"pause-tube %s %d\r\n" % (own, self.random.choice((0, 0, 1000))), b"pause-tube none.%d 1\r\n" % self.number,
            b"reserve-with-timeout 0\r\n", b"reserve-with-timeout 0\r\n", b"reserve-job %d\r\n" % job,
            b"delete %d\r\n" % job, b"delete %d\r\n" % job, b"release %d %d 0\r\n" % (job, PRIORITY),
            b"bury %d %d\r\n" % (job, PRIORITY), b"touch %d\r\n" % job, b"kick-job %d\r\n" % job, b"kick 1\r\n", b"kick 9\r\n",
            b"peek %d\r\n" % job, b"peek-ready\r\n", b"peek-delayed\r\n", b"peek-buried\r\n", b"stats-job %d\r\n" % job,
            b"no-command\r\n", b"delete x\r\n", b"put 0 0 9 1\r\nabc", b"put 0 0 9 301\r\n%s\r\n" % (b"y" * 301),
        ))

    # -- receiving ----------------------------------------------------------------------------------

    def hear(self):
        """Reads what has arrived. Returns true if everything is done."""
        is_open = self.line.more(time.monotonic() + 1)
        answer = self.line.whole_answer()
        while answer is not None:
            self.keep(answer)
            answer = self.line.whole_answer()
        if not is_open:
            return self.close()
        if not self.asked:
            self.go_on()
        return False

    def keep(self, answer):
        if not self.asked or self.asked[0].command == b"quit":
            raise Wrong("client %d was written besides: %s" % (self.number, report.told(answer)))
        request = self.asked.pop(0)
        self.steps.append(("ask", request, answer))
        if answer.startswith(b"USING "):
            self.used = answer.split()[1]
        if answer.startswith(b"RESERVED ") or answer.startswith(b"INSERTED ") and self.used != self.next_box:
            self.jobs.append(int(answer.split()[1]))

    def close(self):
        """The server has closed the connection. Returns true if it was the last one."""
        self.line.connection.close()
        if [it.command for it in self.asked] != [b"quit"] or self.line.kept:
            raise Wrong("client %d: its connection ended; it has %s, and asked %r" % (
                self.number, report.told(self.line.kept), self.asked[:1]))
        self.steps += [("ask", self.asked[0], b""), ("close", None, b"")]
        if self.turns:
            self.open()
        return not self.turns

    # -- the history ------------------------------------------------------------------------------

    def ids_given(self):
        return [int(answer.split()[1]) for _, _, answer in self.steps if answer and answer.startswith(b"INSERTED ")]

    def goes_into(self, machine, last=None):
        """Runs this client's next steps on the model, up to the put with this id, or all of them."""
        while self.taken_over < len(self.steps):
            event, request, wanted = self.steps[self.taken_over]
            self.taken_over += 1
            answers = machine.step(0, self.number, event, request)
            given = b"".join(answer for number, answer in answers if number == self.number)
            if any(number != self.number for number, _ in answers):
                raise Wrong("client %d: its step %r answers others" % (self.number, request))
            if without_ages(given) != without_ages(wanted or b""):
                raise Wrong("client %d, at %r: differs %s" % (self.number, request, report.apart(given, wanted or b"")))
            if last is not None and wanted == b"INSERTED %d\r\n" % last:
                return


def all_talk(talkers):
    """Lets all clients send and receive what they have to, each as soon as it can."""
    until = time.monotonic() + PATIENCE
    with selectors.DefaultSelector() as ready:
        def listen(talker):
            ready.register(talker.line.connection, selectors.EVENT_READ, talker)

        for talker in talkers:
            talker.open()
            listen(talker)
        while ready.get_map():
            if time.monotonic() > until:
                left = sorted(it.data.number for it in ready.get_map().values())
                raise Wrong("clients %r wait without end: client %d for %r" % (left, left[0], talkers[left[0]].asked[:1]))
            for key, _ in ready.select(1):
                talker, before = key.data, key.fileobj
                is_over = talker.hear()
                if is_over or talker.line.connection is not before:
                    ready.unregister(before)
                if not is_over and talker.line.connection is not before:
                    listen(talker)


def hold_to_one_history(talkers, last, machine):
    """Checks all answers against one history, which is made from them. The last client comes after all others."""
    owners = {}
    for talker in talkers:
        for given in talker.ids_given():
            if owners.setdefault(given, talker) is not talker:
                raise Wrong("id %d was given twice" % given)
    for given in range(1, len(owners) + 1):
        if given not in owners:
            raise Wrong("id %d was given to nobody, of %d jobs" % (given, len(owners)))
        owners[given].goes_into(machine, given)
    for talker in [*talkers, last]:
        talker.goes_into(machine)


def look_at_all(server, number):
    """A client that asks for what is left of all clients' jobs."""
    looker = Talker(number, number + 1, number, server)
    looker.turns, looker.line, looker.asked = 0, lockstep.Client(number, server.connect()), []
    looker.steps.append(("connect", None, None))
    looker.say(b"stats\r\nlist-tubes\r\nstats-tube default\r\nquit\r\n")
    until = time.monotonic() + PATIENCE
    while not looker.hear():
        if time.monotonic() > until:
            raise Wrong("statistics don't come")
    return looker


def beside(program, rules, seed, clients):
    """Runs this many clients once. Its report counts one, passed or failed."""
    name, commands = "%d clients side by side" % clients, 0
    with programs.Server(program, clients, SETTINGS) as server:
        talkers = [Talker(at, clients, "%s/%d" % (seed, at), server) for at in range(clients)]
        try:
            all_talk(talkers)
            commands = sum(len(it.steps) for it in talkers)
            hold_to_one_history(talkers, look_at_all(server, clients), rules(SETTINGS))
        except (Wrong, lockstep.Differs, ConnectionError) as it:
            return report.failed(name, commands, "seed %s: %s" % (seed, it))
    return report.passed(name, 1, commands)
