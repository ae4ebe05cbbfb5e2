"""Many clients of `bqd`, one command at a time, so that the order of the steps is known.

The server's clock is also the model's, so nothing may depend on milliseconds. The model takes each step at a moment
that isn't after the server's step, and the run reads all answers to the step within SLACK of that moment. So whatever
begins with a step (a lease, a delay, a pause, a wait) ends at the server when it ends at the model, or less than SLACK
later. The moments at which something happens by itself are more than SLACK apart, and no client sends while one of them
is nearer than SLACK. A run can't be judged if an answer is read too late, even if it is the right one, or if statistics
are received only after the moment that they depend on. An answer may be read as late as LATE if nothing near begins with
its step, and nothing happens by itself before it is read. If a client disconnects while its reserve waits, the server
notices within a second; the model takes that step when the run requested the last statistics that still counted the
client. Ages and times left are in whole seconds, and may be off by one.
"""
import random
import re
import select
import socket
import time
from collections import namedtuple

from . import programs, report, shrink
from .commands import MANY_TUBES, TUBES, Chooser, Times
from .machine import PLAIN, RESERVED
from .reader import requests_of

SLACK = 350  # milliseconds
LATE = 900  # milliseconds: less than the second by which ages and times left may be off
GONE = 1100  # milliseconds: how late a client that disconnected while its reserve waits may be noticed
NEAR = 100000  # what is further ahead doesn't happen during a run
GLANCE = 50  # milliseconds: how long a run waits at most before it requests statistics again
TICKS_AHEAD = 16
SHRINK_ANSWER_SECONDS = 2
RUN_SECONDS = 60
SHRINK_SECONDS = 60
MANY = 100  # this many clients choose among more tubes
STEADY = 0  # a client that never waits or leaves: it queries what others can't

LONG = 1000
TIMED = Times(delays=(0,) * 12 + (1, 2, LONG, LONG), leases=(LONG,) * 12 + (1, 2, 3),
              timeouts=(0, 0, 0, 0, 1, LONG), pauses=(0, 0, 1, 2, LONG))
FEW_JOBS = {b"put": 18, b"delete": 20, b"use": 5, b"pause-tube": 3}  # so that many wait
HEAD = re.compile(rb"(RESERVED \d+|FOUND \d+|OK) (\d+)")
ABOUT = re.compile(rb"^(age|time-left|pause-time-left): (\d+)$")

# One action: open, ask (with pieces of bytes), shut (the client sends no more, with bytes before), drop (the client
# disconnects), rest (until the next moment), control (with bytes).
Action = namedtuple("Action", "kind client pieces")


class Differs(Exception):
    """The server did something else than the model."""


class Unclear(Exception):
    """An answer took so long, or two moments came so close to each other, that the run can't be judged."""


class Left(Exception):
    """An action that means nothing now, or would depend on milliseconds."""


def alike(wanted, got):
    """Returns true if two answers are equal, except for a second more or less in ages and times left."""
    if wanted == got:
        return True
    ours, theirs = wanted.split(b"\n"), got.split(b"\n")
    if not got.startswith(b"OK ") or len(ours) != len(theirs):
        return False
    for our, their in zip(ours[1:], theirs[1:]):
        first, second = ABOUT.match(our), ABOUT.match(their)
        if our != their and not (first and second and first[1] == second[1] and abs(int(first[2]) - int(second[2])) <= 1):
            return False
    return True


class Client:
    """The client's end of a connection."""

    def __init__(self, number, connection):
        self.number, self.connection, self.kept = number, connection, b""

    def more(self, until):
        """Reads what has arrived. Returns false at the end of the connection."""
        ready, _, _ = select.select([self.connection], [], [], max(0, until - time.monotonic()))
        if not ready:
            raise Differs("client %d: nothing came; it has %s" % (self.number, report.told(self.kept)))
        try:
            piece = self.connection.recv(1 << 20)
        except ConnectionError:
            piece = b""
        self.kept += piece
        return bool(piece)

    def whole_answer(self):
        """Removes and returns the first complete answer from what has arrived, or None."""
        end = self.kept.find(b"\r\n")
        if end < 0:
            return None
        head = HEAD.fullmatch(self.kept[:end])
        size = end + 2 + (int(head[2]) + 2 if head else 0)
        if len(self.kept) < size:
            return None
        answer, self.kept = self.kept[:size], self.kept[size:]
        return answer

    def answer(self, wanted, until):
        """Reads an answer and compares it with the wanted one."""
        got = self.whole_answer()
        while got is None:
            try:
                came = self.more(until)
            except Differs as it:
                raise Differs("%s, and %s was to come" % (it, report.told(wanted)))
            if not came:
                raise Differs("client %d: its connection ended, and %s was to come; it has %s" % (
                    self.number, report.told(wanted), report.told(self.kept)))
            got = self.whole_answer()
        if not alike(wanted, got):
            raise Differs("client %d: differs %s" % (self.number, report.apart(wanted, got)))

    def ends(self, until):
        """Checks that the connection ends now without further bytes."""
        while self.more(until):
            pass
        if self.kept:
            raise Differs("client %d: was written besides %s" % (self.number, report.told(self.kept)))
        self.connection.close()


class Run:
    """A server, its clients and the model."""

    def __init__(self, server, rules, settings, patience):
        self.server, self.settings, self.patience = server, settings, patience
        self.machine, self.clients = rules(settings), {}
        self.begun = time.monotonic()
        self.looked_at, self.ahead = 0, []
        self.commands = 0

    def now(self):
        return int((time.monotonic() - self.begun) * 1000)

    # -- time -------------------------------------------------------------------------------------

    @staticmethod
    def coming(machine):
        """Returns the moments that are ahead and near, in order."""
        return sorted(it for it in machine.moments() if machine.now < it < machine.now + NEAR)

    def is_spaced(self, trial, apart=SLACK):
        """Returns true if the moments at which something may happen by itself are far enough apart, including those
        that result from the first of them. Advances `trial`."""
        for _ in range(TICKS_AHEAD):
            ahead = self.coming(trial)
            if any(b - a <= apart for a, b in zip(ahead, ahead[1:])):
                return False
            if not ahead:
                return True
            trial.step(ahead[0], STEADY, "tick")
        return True

    def pass_moments(self):
        """Waits past each moment that is near, and reads the answers that result as they come. If the server hands a job
        out too long after its moment, the job's lease ends too late as well, so such a run can't be judged."""
        while True:
            now, ahead = self.now(), self.coming(self.machine)
            self.looked_at, self.ahead = now, ahead
            if not ahead or ahead[0] > now + SLACK:
                return
            if any(it - ahead[0] <= SLACK for it in ahead[1:]):
                raise Unclear("two moments came to lie together")
            self.sleep_until(ahead[0])
            self.looked_at = ahead[0]
            self.gather(self.machine.step(ahead[0], STEADY, "tick"))
            self.sleep_until(ahead[0] + SLACK)

    def sleep_until(self, moment):
        time.sleep(max(0, moment - self.now()) / 1000)

    def gather(self, answers):
        """Reads these answers at their clients."""
        until = time.monotonic() + self.patience
        for number, wanted in answers:
            self.clients[number].answer(wanted, until)
            self.hold_to_be_in_time()

    def hold_to_be_in_time(self):
        """Checks that less time has passed since the last reading than there is before the next moment. One millisecond is
        left, because the server's milliseconds don't begin when ours do."""
        late = self.now() - self.looked_at
        if late >= SLACK and not (late < LATE and self.is_untimed()):
            raise Unclear("an answer took longer than %d ms" % SLACK)

    def is_untimed(self):
        """Returns true if no near moment was added since the last reading, and none has come."""
        ahead = self.coming(self.machine)
        return set(ahead) <= set(self.ahead) and self.ahead[:1] == ahead[:1] and (not ahead or ahead[0] > self.now())

    # -- actions ----------------------------------------------------------------------------------

    def judged(self, happens, *of):
        """Lets something happen, and compares the result with the model."""
        try:
            happens(*of)
        except Differs:
            # A late answer may be a different one; if none came at all, or the server ended, that is not the reason.
            if SLACK <= self.now() - self.looked_at < 1000 * self.patience and self.server.is_running():
                raise Unclear("another answer took longer than %d ms" % SLACK)
            raise
        self.hold_to_be_in_time()

    def play(self, action):
        """Carries out an action. Raises Left if it means nothing now."""
        # Moments that are not near are not held apart, but `peek-delayed` and `kick` go by their order. Two steps in one
        # millisecond of the server would have one moment there.
        time.sleep(0.002)
        self.judged(self.pass_moments)
        self.judged(getattr(self, "do_" + action.kind), action)

    def is_asking(self, number):
        """Returns true if a client is connected and doesn't wait."""
        return number in self.clients and not self.machine.seats[number].is_waiting()

    def do_open(self, action):
        number = action.client
        if number in self.clients:
            raise Left()
        self.clients[number] = Client(number, self.server.connect())
        self.machine.step(self.now(), number, "connect")
        self.exchange(number, [b"list-tube-used\r\n"], self.now())

    def hold_to_mean_something(self, action):
        """Checks that an action consists of complete requests, none of them after one that waits. It is tried on a copy
        of the model. Returns the moment at which it was tried: at another one, moments might lie closer together."""
        if not self.is_asking(action.client):
            raise Left()
        requests, rest = requests_of(b"".join(action.pieces), self.settings.max_job_size)
        if rest or not requests or requests[-1].command == b"quit" and action.client == STEADY:
            raise Left()
        trial, now = self.machine.copy(), self.now()
        for place, request in enumerate(requests):
            trial.step(now, action.client, "ask", request)
            is_waiting = trial.seats[action.client].is_waiting()
            if is_waiting and (action.client == STEADY or place + 1 < len(requests)):
                raise Left()
        if requests[-1].command == b"quit":
            trial.step(now, action.client, "close")
        if not self.is_spaced(trial):
            raise Left()
        return now

    def do_ask(self, action):
        self.exchange(action.client, action.pieces, self.hold_to_mean_something(action))

    def exchange(self, number, pieces, began):
        """A client sends requests, and all clients read the answers."""
        requests, _ = requests_of(b"".join(pieces), self.settings.max_job_size)
        self.hold_to_be_in_time()
        for place, piece in enumerate(pieces):
            if place:
                time.sleep(0.002)
            self.clients[number].connection.sendall(piece)
        self.commands += len(requests)
        for request in requests:
            self.gather(self.machine.step(began, number, "ask", request))
        if requests[-1].command == b"quit":
            self.close(number, began)
        elif self.machine.seats[number].is_waiting():
            # A client gets no sign that it waits; only the count of waiting clients shows it.
            self.until_statistics(b"current-waiting: %d\n" % sum(it.is_waiting() for it in self.machine.seats.values()))

    def close(self, number, began):
        """The server closes the connection of a client, and its jobs become ready again."""
        answers = self.machine.step(began, number, "close")
        self.clients.pop(number).ends(time.monotonic() + self.patience)
        self.gather(answers)

    def is_calm(self):
        """Returns true if nothing happens by itself before the server must have noticed a client that disconnects now
        while it waits."""
        ahead = self.coming(self.machine)
        return not ahead or ahead[0] > self.now() + GONE + SLACK

    def may_leave(self, number):
        """Returns true if what results from the client's leaving now will lie far enough from all other moments. If it
        waits, that is so whenever the server notices."""
        is_waiting = self.machine.seats[number].is_waiting()
        if is_waiting and not self.is_calm():
            return False
        now = self.now()
        for since in range(now, now + GONE + 1, SLACK) if is_waiting else (now,):
            trial = self.machine.copy()
            for event in ("end", "close") if is_waiting else ("close",):
                trial.step(since, number, event)
            if not self.is_spaced(trial, 3 * SLACK // 2 if is_waiting else SLACK):
                return False
        return True

    def hold_to_leave(self, number):
        """Checks that it makes sense now for a client to leave."""
        if number not in self.clients or number == STEADY or not self.may_leave(number):
            raise Left()

    def do_shut(self, action):
        number = action.client
        self.hold_to_leave(number)
        before = b"" if self.machine.seats[number].is_waiting() else b"".join(action.pieces)
        if requests_of(before, self.settings.max_job_size)[0]:
            raise Left()
        began = self.now()
        self.clients[number].connection.sendall(before)
        self.shut([number], began)

    def shut(self, numbers, began):
        """Clients send no more: one, or several that wait and hold no job, so that nothing depends on their order. If
        their reserves wait, the server notices that later, when something is due for them."""
        connections = [self.clients[it].connection for it in numbers]
        is_waiting = self.machine.seats[numbers[0]].is_waiting()
        for it in connections:
            it.shutdown(socket.SHUT_WR)
        if is_waiting:
            began = self.noticed(began, len(numbers), connections)
        for number in numbers:
            if is_waiting:
                self.gather(self.machine.step(began, number, "end"))
            self.close(number, began)

    def noticed(self, began, many, connections=()):
        """Waits until the server has noticed that this many clients left at that moment while they waited. Returns the
        last moment at which it is known that the server hadn't noticed all. The time counts from then."""
        since = self.until_statistics(self.fewer_connected(many), began, connections)
        if since - began > GONE:
            raise Unclear("a client that had gone was noticed after more than %d ms" % GONE)
        ahead = self.coming(self.machine)
        if ahead and ahead[0] <= since + SLACK:
            raise Unclear("a client that had gone was noticed too near to the next moment")
        self.looked_at, self.ahead = since, ahead
        return since

    def fewer_connected(self, many):
        """Returns a line of the statistics after this many clients have left."""
        return b"current-connections: %d\n" % (len(self.machine.seats) - many)

    def do_drop(self, action):
        number = action.client
        self.hold_to_leave(number)
        is_waiting = self.machine.seats[number].is_waiting()
        began = self.now()
        self.clients.pop(number).connection.close()
        left = self.fewer_connected(1)
        if is_waiting:
            began = self.noticed(began, 1)
        answers = self.machine.step(began, number, "end") if is_waiting else []
        answers += self.machine.step(began, number, "close")
        # (its own last answer can't be read)
        self.gather([it for it in answers if it[0] != number])
        if not is_waiting:
            self.until_statistics(left)

    def until_statistics(self, line, since=0, connections=()):
        """The steady client requests statistics until they contain a line, each time after a longer pause, or as soon as
        something arrives at one of the connections. Returns when it requested the last ones without the line, or else
        `since`: the server's step that led to the line came later."""
        until, pause = time.monotonic() + self.patience, 2
        ahead = self.coming(self.machine)
        while True:
            client, got, asked_at = self.clients[STEADY], None, self.now()
            client.connection.sendall(b"stats\r\n")
            self.commands += 1
            while got is None:
                if not client.more(until):
                    raise Differs("client %d: its connection ended" % STEADY)
                got = client.whole_answer()
            if line in got:
                return since
            since = asked_at
            if ahead and self.now() >= ahead[0]:
                raise Unclear("statistics came later than what they tell")
            if len(connections) == 1:
                select.select(connections, [], [], pause / 1000)
            else:
                time.sleep(pause / 1000)
            pause = min(2 * pause, GLANCE)
            if time.monotonic() > until:
                raise Differs("statistics don't come to have %r: %s" % (line, report.told(got)))

    def do_rest(self, _action):
        """Waits for the next moment, if it comes soon."""
        ahead = self.coming(self.machine)
        if not ahead or ahead[0] > self.now() + 4000:
            raise Left()
        time.sleep(max(0, ahead[0] - SLACK - self.now()) / 1000)
        self.pass_moments()

    def do_control(self, action):
        text = b"".join(action.pieces)
        self.server.control(text)
        if b"drain" in text.split(b"\n"):
            self.machine.step(self.now(), STEADY, "drain")
            self.until_statistics(b"draining: true\n")

    def leave(self, numbers):
        """Clients leave: one, or several as `shut` takes them. The steady one, which is the last, first asks what is
        left."""
        began = self.now()
        if numbers == [STEADY]:
            self.exchange(STEADY, [b"stats\r\nlist-tubes\r\nstats-tube default\r\n"], began)
        self.shut(numbers, began)

    def make_way(self, number):
        """Lets pass what happens by itself until a client may leave."""
        self.pass_moments()
        while not self.may_leave(number):
            ahead = self.coming(self.machine)
            if not ahead:
                return
            self.sleep_until(ahead[0] - SLACK)
            self.pass_moments()

    def next_to_leave(self):
        """Returns the clients that leave next: those together that wait and hold no job, then one by one the others that
        wait, and last the steady one. Those that hold jobs come late, since their jobs may become due soon."""
        def place(number):
            seat = self.machine.seats[number]
            return number == STEADY, not seat.is_waiting(), bool(self.machine.held_by(seat)), number

        first, *others = sorted(self.clients, key=place)
        is_idle = place(first)[:3] == (False, False, False)
        return [first] + [it for it in others if is_idle and place(it)[:3] == (False, False, False)]

    def finish(self):
        """All clients leave. Then everything that the clients received is known."""
        while self.clients:
            numbers = self.next_to_leave()
            self.judged(self.make_way, numbers[0])
            if self.next_to_leave() == numbers:
                self.judged(self.leave, numbers)
        if not self.server.is_running():
            raise Differs("the server ended")


class Script:
    """Chooses actions that fit the model."""

    def __init__(self, seed, clients):
        self.random = random.Random(seed)
        self.chooser = Chooser(self.random, TIMED, FEW_JOBS, MANY_TUBES if clients >= MANY else TUBES)
        self.clients = clients

    def wait(self):
        """A reserve that mostly waits, which is the purpose of many clients."""
        return self.random.choice((
            b"reserve\r\n", b"reserve\r\n", b"reserve-with-timeout 1\r\n", b"reserve-with-timeout 2\r\n", b"reserve-with-timeout 1000\r\n",
        ))

    def soon(self):
        """Something that ends by itself in a second or two."""
        return self.random.choice((
            b"put 0 1 1000 0\r\n\r\n", b"put 7 2 1000 1\r\nd\r\n", b"put 3 0 3 1\r\nm\r\n",
            b"pause-tube default 1\r\n", b"pause-tube a 2\r\n",
            # its lease begins at once if it is the least job that the client may have
            b"put 0 0 2 1\r\nl\r\nreserve-with-timeout 0\r\n", b"put 0 0 3 1\r\nl\r\nreserve-with-timeout 0\r\n",
        ))

    def next(self, run):
        """Returns the next action."""
        number, kind = self.random.randrange(self.clients), self.random.random()
        if number not in run.clients:
            return Action("open", number, [])
        if kind < 0.03:
            return Action("shut", number, [self.random.choice((b"", b"", b"delete 1", b"put 0 0 9 5\r\nab"))])
        if kind < 0.06:
            return Action("drop", number, [])
        if kind < 0.08:
            return Action("rest", number, [])
        if kind < 0.085:
            return Action("control", number, [self.random.choice((b"drains\n", b" drain\n", b"DRAIN\n", b"\n", b"drain\r\n"))])
        if run.machine.seats[number].is_waiting():
            # A waiting client can't make requests: another client puts or releases a job.
            number = self.random.choice([it for it in run.clients if run.is_asking(it)])
        if kind < 0.28:
            return Action("ask", number, [self.wait()])
        if kind < 0.34:
            return Action("ask", number, [self.soon()])
        held = [it for it in run.machine.jobs.values() if it.state == RESERVED and run.is_asking(it.holder)]
        if kind < 0.46 and held:
            job = self.random.choice(held)
            return Action("ask", job.holder, [self.chooser.with_own(job)])
        text = self.chooser.text(run.machine, number) if kind < 0.64 else self.chooser.command(run.machine, number)
        if self.random.random() < 0.1:
            text += self.chooser.command(run.machine, number)
        return Action("ask", number, self.chooser.cuts(text) if self.random.random() < 0.05 else [text])


def one_run(program, rules, settings, clients, next_action, patience=programs.PATIENCE):
    """Runs the actions that `next_action` returns, until it returns None.

    It returns the actions, how many commands were sent, and what differed.
    """
    done = []
    with programs.Server(program, clients, settings) as server:
        run = Run(server, rules, settings, patience)
        try:
            # A new server's clock is slightly behind ours; nothing depends on that.
            for number in range(min(clients, 8)):
                run.play(Action("open", number, []))
            until = time.monotonic() + RUN_SECONDS
            while time.monotonic() < until:
                action = next_action(run)
                if action is None:
                    break
                done.append(action)
                try:
                    run.play(action)
                except Left:
                    done.pop()
            run.finish()
            return done, run.commands, None
        except Differs as it:
            return done, run.commands, str(it)
        except ConnectionError as it:
            return done, run.commands, "a connection broke: %s" % it
        finally:
            for client in run.clients.values():
                client.connection.close()


def replayed(actions):
    """Returns the same actions one after another."""
    left = iter(actions)
    return lambda run: next(left, None)


def chosen(script, many):
    """Returns this many actions of a script; in half of all scripts the server drains towards the end."""
    drain_at = script.random.choice((many * 3 // 4, None))
    left = iter(range(many))

    def next_action(run):
        place = next(left, None)
        if place is None:
            return None
        return Action("control", STEADY, [b"drain\n"]) if place == drain_at else script.next(run)

    return next_action


def made_settings(seed, known):
    """Returns the settings of a run, among those that the program supports."""
    chance = random.Random("settings %s" % seed)
    jobs = chance.choice((None, 3, 40)) if "--max-jobs" in known else None
    delay = chance.choice((0, 1, 2, LONG)) if "--requeue-delay" in known else 0
    return PLAIN._replace(max_job_size=chance.choice((65535, 300)), max_jobs=jobs, requeue_delay=delay)


def lockstep(program, known, rules, seed, clients, many, will_shrink=True, tries=3):
    """Runs many actions once. A run that can't be judged is repeated with another seed."""
    settings, name, unclear = made_settings(seed, known), "%d clients" % clients, ""
    for again in range(tries):
        script = Script("%s/%d" % (seed, again), clients)
        try:
            patience = programs.PATIENCE if will_shrink else SHRINK_ANSWER_SECONDS
            done, commands, told = one_run(program, rules, settings, clients, chosen(script, many), patience)
        except Unclear as it:
            unclear = str(it)
            continue
        if told is None:
            return report.Report(name, 1, 0, again, commands, unclear)
        if will_shrink:
            done, less = shorter(program, rules, settings, clients, done, told)
            told = told if less == told else "%s; with fewer actions: %s" % (told, less)
        return report.Report(name, 0, 1, again, commands, "seed %s/%d, options %s, %s\n    actions:\n%s" % (
            seed, again, " ".join(programs.words_for(settings)), told, "\n".join("      %s %d %r" % it for it in done)))
    return report.Report(name, 0, 0, tries, 0, "seed %s couldn't be judged: %s" % (seed, unclear))


def shorter(program, rules, settings, clients, done, told):
    """Returns fewer actions that still show a difference, with that difference."""
    last = [told]

    def differs(actions):
        try:
            _, _, now = one_run(program, rules, settings, clients, replayed(actions), SHRINK_ANSWER_SECONDS)
        except Unclear:
            return False
        if now is not None:
            last[0] = now
        return now is not None

    return shrink.shrunk(done, differs, SHRINK_SECONDS), last[0]
