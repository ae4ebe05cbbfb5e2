"""Runs of bqctl's moves: a job is never lost, and the tool names those that may be at both places."""
import collections
import contextlib
import json
import os
import random
import re
import signal
import subprocess
import sys
import time
import types

from canned import PROGRAMS, Canned, ctl, ok, tube, yaml
from ctl_runs import BYTES, beside, fails, tells
from jobs import Teller
from programs import Ended, same
from servers import awaits


def address(server):
    return f"127.0.0.1:{server.port}"


def each_run_move(start):
    """Jobs of each state arrive with their bodies, priorities, states, times to run and remaining delays."""
    moves_all(start, start)


def both_run_move(bqd, beanstalkd):
    """The same from beanstalkd to bqd, and back."""
    moves_all(beanstalkd, bqd)
    moves_all(bqd, beanstalkd)


def moves_all(start_source, start_target):
    with start_source("-z", "1048576") as source, start_target("-z", "1048576") as target:
        here, there = Teller(source), Teller(target)
        bodies = [b"", b"hello", BYTES, os.urandom(1 << 20)]
        for number, body in enumerate(bodies):
            here.put(body, pri=number, ttr=10 + number)
            here.put(body, pri=number, ttr=20 + number, delay=1000 * (number + 1))
            here.put(body, pri=number, ttr=30 + number, state="buried")
        here.put(b"taken")
        here.ask(b"reserve-job 13")
        plan = "would move 12 jobs of mail to mail of " + address(target) + ": 4 ready, 4 delayed, 4 buried; 1 reserved job stays"
        tells(beside(source)("move", "mail", "--to", address(target), "--dry-run"), plan)
        same((len(here.jobs()), len(there.jobs())), (13, 0))
        tells(beside(source)("move", "mail", "--to", address(target)), plan.replace("would move", "moved"))
        found = [(it[0], it[1], it[2], it[4], it[5]) for it in there.jobs().values()]
        wanted = [("mail", "ready", number, 10 + number, body) for number, body in enumerate(bodies)]
        wanted += [("mail", "delayed", number, 20 + number, body) for number, body in enumerate(bodies)]
        wanted += [("mail", "buried", number, 30 + number, body) for number, body in enumerate(bodies)]
        same(found == wanted, True)
        left = [it[3] for it in there.jobs().values() if it[1] == "delayed"]
        for number, seconds in enumerate(left):
            assert 1000 * (number + 1) - 20 < seconds <= 1000 * (number + 1) + 1, left
        same([it[:2] for it in here.jobs().values()], [("mail", "reserved")])


def each_run_move_words(start):
    """A limit, chosen states, another tube of the same server, and the tube itself."""
    with start() as source:
        here, ask = Teller(source), beside(source)
        for number in range(5):
            here.put(b"%d" % number)
            here.put(b"%d" % number, state="buried")
        tells(ask("move", "mail", "--to", "/post", "--limit", "3", "--state", "buried,ready"),
              f"moved 3 jobs of mail to post of {address(source)}: 3 buried")
        found = json.loads(ask("move", "mail", "--to", f"localhost:{source.port}/post", "--json").output)
        same(found, {"tube": "mail", "dry_run": False, "moved": 7, "ready": 5, "delayed": 0, "buried": 2, "reserved": 0,
                     "doubled": [], "refused": []})
        same(collections.Counter(it[:2] for it in here.jobs().values()), {("post", "ready"): 5, ("post", "buried"): 5})
        for to in ["/post", f"localhost:{source.port}", f"127.0.0.1:{source.port}/post"]:
            name = f"localhost:{source.port}" if "localhost" in to else address(source)
            same(ask("move", "post", "--to", to), Ended(2, b"", f"bqctl: error: post of {name} is the tube itself\n".encode()))


def each_run_move_of_paused(start):
    """A paused tube can be moved."""
    with start() as source, start() as target:
        here = Teller(source)
        here.put(b"a")
        same(here.ask(b"pause-tube mail 1000")[0], b"PAUSED")
        tells(beside(source)("move", "mail", "--to", address(target)), f"moved 1 job of mail to mail of {address(target)}: 1 ready")


def each_run_move_refused(start):
    """A job that the other server rejects stays as it was, and the move ends."""
    with start("-z", "2000") as source, start("-z", "1000") as target:
        here = Teller(source)
        for state, delay in [("ready", 0), ("delayed", 1000), ("buried", 0)]:
            here.put(b"a" * 2000, pri=5, delay=delay, state=state, tube=state.encode())
            fails(beside(source)("move", state, "--to", address(target)),
                  f"{address(target)} refused job {here.last()} of {address(source)}: the job is larger than it takes: "
                  f"moved 0 jobs of {state} to {state} of {address(target)}")
        same([it[:3] for it in here.jobs().values()], [(it, it, 5) for it in ["ready", "delayed", "buried"]])
        assert 980 < here.job(2)[3] <= 1001, here.job(2)


def each_run_move_skips_refused(start):
    """With --skip-refused, jobs that are too large are named and stay as they were, and all others are moved."""
    with start("-z", "2000") as source, start("-z", "1000") as target:
        here, there = Teller(source), Teller(target)
        for number in range(12):
            state = ["ready", "delayed", "buried"][number % 3]
            size = 2000 if number in (0, 1, 2, 6, 7, 8) else 10
            # The shortest time to run ends meanwhile, unless it is renewed.
            here.put(b"a" * size, pri=5, delay=1000 if state == "delayed" else 0, ttr=1, state=state)
        stay = [1, 7, 2, 8, 3, 9]
        ids = sorted(stay)
        found = beside(source)("move", "mail", "--to", address(target), "--skip-refused")
        lines = [f"{address(target)} refused 6 jobs: moved 6 jobs of mail to mail of {address(target)}: 2 ready, 2 delayed, 2 buried"]
        lines += [f"job {it} of {address(source)} stays: it is larger than {address(target)} takes" for it in stay]
        fails(found, *lines)
        same([(it, *about[:3], about[4]) for it, about in here.jobs().items()],
             [(it, "mail", ["ready", "delayed", "buried"][(it - 1) % 3], 5, 1) for it in ids])
        same(collections.Counter(it[1] for it in there.jobs().values()), {"ready": 2, "delayed": 2, "buried": 2})
        assert all(980 < here.job(it)[3] <= 1001 for it in (2, 8)), here.jobs()
        again = beside(source)("move", "mail", "--to", address(target), "--skip-refused", "--json")
        same((again.status, json.loads(again.output)["moved"], sorted(json.loads(again.output)["refused"])), (1, 0, ids))


def run_move_renews_leases():
    """A job that stays is held reserved: its lease is renewed before it ends, and it gets the rest of its delay at the end."""
    sys.path.insert(0, str(PROGRAMS))
    from queue_control import move

    now, told = [0.0], []
    source = types.SimpleNamespace(touch=lambda *words: told.append(("touch", *words)), release=lambda *words: told.append(("release", *words)))
    move.time, time_before = types.SimpleNamespace(monotonic=lambda: now[0]), move.time
    try:
        stays = move.Stays(source)
        stays.add("delayed", {"id": 7, "pri": 5, "ttr": 4, "time-left": 99})
        stays.add("ready", {"id": 8, "pri": 6, "ttr": 100, "time-left": 0})
        for now[0], wanted in [(1.9, []), (2.1, [("touch", 7)]), (4.0, []), (4.2, [("touch", 7)])]:
            stays.renew()
            same(told, wanted)
            told.clear()
        now[0] = 10.0
        stays.end()
        same(told, [("release", 7, 5, 90), ("release", 8, 6, 0)])
    finally:
        move.time = time_before


def about(job_id, state="ready", left=0):
    """Returns a server's answer to `stats-job`."""
    return ok(yaml(id=job_id, tube="mail", state=state, pri=5, age=0, delay=0, ttr=9, time_left=left))


SEEN = [tube("mail", current_jobs_ready=1), b"USING mail\r\n", b"FOUND 7 1\r\na\r\n", about(7), b"RESERVED 7 1\r\na\r\n"]


def moved_between(source, target):
    """Returns how a move between two servers with these answers ends, and the lines that they got."""
    with Canned(*source) as here, Canned(*target) as there:
        found = ctl("move", "mail", "--to", f"{there.address}/post", "--state", "ready", "--server", here.address)
        here.thread.join(10)
        there.thread.join(10)
    lines = [[it.decode().strip() for it in side.lines] for side in (here, there)]
    told = found.errors.decode().replace(here.address, "HERE").replace(there.address, "THERE").splitlines()
    same((found.status, found.output), (1, b""))
    return told, lines


def run_move_target_lost():
    """The target goes away before it answers the put: the job is released, and named as possibly at both places."""
    told, (lines, _) = moved_between([*SEEN, b"RELEASED\r\n"], [b"USING post\r\n"])
    assert re.fullmatch("bqctl: THERE (closed the connection before it answered put|is lost: .*): "
                        "moved 0 jobs of mail to post of THERE", told[0]), told
    same(told[1:], ["bqctl: job 7 of HERE may be doubled, at THERE, which gave no id"])
    same(lines[-1], "release 7 5 0")


def run_move_source_lost():
    """The source goes away before it answers the delete: the job is named with its id at the target."""
    told, (lines, there) = moved_between(SEEN, [b"USING post\r\n", b"INSERTED 9\r\n"])
    assert re.fullmatch("bqctl: HERE (closed the connection before it answered delete|is lost: .*): "
                        "moved 0 jobs of mail to post of THERE", told[0]), told
    same(told[1:], ["bqctl: job 7 of HERE may be doubled, as job 9 of THERE"])
    same(there, ["use post", "put 5 0 9 1"])


def run_move_taken_meanwhile():
    """A worker gets the job at the source while it is moved: the copy is deleted again, or named if a worker has it."""
    here = [*SEEN, b"NOT_FOUND\r\n", b"NOT_FOUND\r\n", b"NOT_FOUND\r\n", tube("mail")]
    # The other server reads the body as a separate line, which needs no answer.
    told, (_, there) = moved_between(here, [b"USING post\r\n", b"INSERTED 9\r\n", b"", b"NOT_FOUND\r\n"])
    same(told, ["bqctl: workers got jobs meanwhile: moved 0 jobs of mail to post of THERE",
                "bqctl: job 7 of HERE may be doubled, as job 9 of THERE"])
    same(there, ["use post", "put 5 0 9 1", "a", "delete 9"])
    with Canned(*here, stays=True) as source:
        with Canned(b"USING post\r\n", b"INSERTED 9\r\n", b"", b"DELETED\r\n", stays=True) as target:
            tells(ctl("move", "mail", "--to", f"{target.address}/post", "--state", "ready", "--server", source.address),
                  f"moved 0 jobs of mail to post of {target.address}")


def run_move_buried_is_never_ready():
    """A buried job is put with the longest delay and buried at the target, before it is deleted at the source."""
    source = [tube("mail", current_jobs_buried=1), b"USING mail\r\n", b"FOUND 7 1\r\na\r\n", about(7, "buried")]
    source += [b"RESERVED 7 1\r\na\r\n", b"DELETED\r\n", b"NOT_FOUND\r\n", b"NOT_FOUND\r\n", tube("mail")]
    target = [b"USING post\r\n", b"INSERTED 9\r\n", b"", b"RESERVED 9 1\r\na\r\n", b"BURIED\r\n"]
    with Canned(*source, stays=True) as here, Canned(*target, stays=True) as there:
        tells(ctl("move", "mail", "--to", f"{there.address}/post", "--state", "buried", "--server", here.address),
              f"moved 1 job of mail to post of {there.address}: 1 buried")
    same([it.decode().strip() for it in there.lines], ["use post", "put 5 4294967295 9 1", "a", "reserve-job 9", "bury 9 5"])


@contextlib.contextmanager
def moving(source, target):
    """Returns a move of all jobs that has been started."""
    command = [sys.executable, PROGRAMS / "bqctl", "--server", address(source), "--json", "move", "mail", "--to", address(target)]
    with subprocess.Popen(command, stdout=subprocess.PIPE, stderr=subprocess.PIPE) as process:
        yield process


def interrupted(source, target, signals, begun, wait):
    """Moves, and sends these signals this many seconds after `begun` is true. Returns what the tool reported as JSON,
    if anything."""
    with moving(source, target) as process:
        awaits(begun)
        time.sleep(wait)
        for it in signals:
            process.send_signal(it)
        output, errors = process.communicate(timeout=20)
    assert b"Traceback" not in errors, errors
    return json.loads(output) if output else {"moved": None, "doubled": []}, process.returncode


def bodies(jobs):
    return collections.Counter(it[-1] for it in jobs.values())


def accounts(round_number, source, target, signals):
    """One move that is interrupted at a random point. Returns how many jobs it had moved."""
    with teller_of(source) as here, teller_of(target) as there:
        return accounts_of(round_number, source, target, signals, here, there)


@contextlib.contextmanager
def teller_of(server):
    """A client that disconnects at the end and frees its seat."""
    yield Teller(server)
    server.clients.pop().close()


def accounts_of(round_number, source, target, signals, here, there):
    first_here, first_there = here.last() + 1, there.last() + 1
    put = [b"%d of round %d" % (number, round_number) for number in range(JOBS)]
    for number, body in enumerate(put):
        state = ["ready", "delayed", "buried"][number % 3]
        here.put(body, delay=1000 if state == "delayed" else 0, state=state)
    # Mostly within the work, and now and then before it, as soon as it has connected. Before that, Python starts.
    def begun():
        is_connected = round_number % 10 == 9 and b"\ncurrent-connections: 2\n" in here.ask(b"stats")[1]
        return is_connected or there.last() >= first_there
    told, status = interrupted(source, target, signals, begun, random.uniform(0, 0.12))
    left, arrived = here.jobs(first_here), there.jobs(first_there)
    found = bodies(left) + bodies(arrived)
    same(set(found), set(put))
    doubled = {body for body, count in found.items() if count > 1}
    named = {(left.get(it["source"]) or (None,))[-1] for it in told["doubled"]}
    if signal.SIGKILL in signals:
        assert len(doubled) <= 1, doubled
    elif told["moved"] is None:
        # The signal came before there was anything to do.
        same((len(left), status in (-signal.SIGINT, -signal.SIGTERM)), (len(put), True))
    else:
        assert doubled <= named, (doubled, told)
        if len(signals) == 1:
            same((told["doubled"], told["moved"], len(arrived)), ([], len(arrived), len(put) - len(left)))
            states = collections.Counter(it[1] for it in [*left.values(), *arrived.values()])
            same(states, dict.fromkeys(["ready", "delayed", "buried"], JOBS // 3))
    for teller, jobs in [(here, left), (there, arrived)]:
        for job_id in jobs:
            same(teller.ask(b"delete %d" % job_id)[0], b"DELETED")
    return len(arrived)


JOBS = 150


def each_run_move_interrupted(start):
    """A move that is interrupted at fifty random points, once or twice, and ended or killed: no job is lost."""
    rounds = [[signal.SIGINT]] * 30 + [[signal.SIGINT] * 2] * 20 + [[signal.SIGTERM]] * 10 + [[signal.SIGKILL]] * 15
    with start() as source, start() as target:
        cut = 0
        for number, signals in enumerate(rounds):
            cut += 0 < accounts(number, source, target, signals) < JOBS
        # Many of the points have to be within the work; otherwise little is tested.
        assert cut >= 15, cut
