"""Runs of bqctl's dump and load: a job is never lost, and what may be doubled is bounded or named."""
import base64
import collections
import json
import os
import random
import resource
import signal
import subprocess
import sys
import tempfile
import time

from canned import PROGRAMS, Canned, ctl, tube
from ctl_runs import BYTES, beside, fails
from jobs import Teller
from move_runs import SEEN, address, teller_of
from programs import Ended, same
from servers import Server, awaits

# How many jobs a dump holds at most, as the man page has it.
MOST_HELD = 100


def dumped(server, path, *words, mode="wb", before=None):
    """Returns how a dump into that file ends."""
    command = [sys.executable, PROGRAMS / "bqctl", "--server", address(server), "dump", *words]
    with open(path, mode) as stream:
        found = subprocess.run(command, stdout=stream, stderr=subprocess.PIPE, stdin=subprocess.DEVNULL, preexec_fn=before, timeout=20)
    return found.returncode, found.stderr.decode().splitlines()


def lines_of(path):
    """Returns the lines of a dump, read as JSON; the last one may lack its end."""
    with open(path, "rb") as stream:
        return [json.loads(it) for it in stream if it.endswith(b"\n")]


def each_run_ctl_dump_and_load(start):
    """Jobs of each state survive a restart of the server, in their order and tubes, with all that they had; reserved jobs
    stay."""
    with tempfile.TemporaryDirectory() as room:
        path = os.path.join(room, "jobs")
        bodies = [b"", b"hello", BYTES, os.urandom(1 << 20)]
        with start("-z", "1048576") as server:
            here = Teller(server)
            for number, body in enumerate(bodies):
                for name, state, delay in [("mail", "ready", 0), ("post", "delayed", 1000 * (number + 1)), ("mail", "buried", 0)]:
                    here.put(body, tube=name.encode(), pri=9 - number, ttr=10 + number, delay=delay, state=state)
            here.put(b"taken")
            here.ask(b"reserve-job 13")
            plan = "would dump 8 jobs of mail: 4 ready, 4 buried; 1 reserved job stays"
            same(dumped(server, path, "mail", "--dry-run"), (0, [plan]))
            same((len(here.jobs()), os.path.getsize(path)), (13, 0))
            same(dumped(server, path, "mail", "--state", "buried", "--limit", "3"), (0, ["dumped 3 jobs of mail: 3 buried; 1 reserved job stays"]))
            status, told = dumped(server, path, "--all", "--json", mode="ab")
            record = {"dry_run": False, "ready": 0, "delayed": 0, "buried": 0, "reserved": 0, "doubled": []}
            same((status, json.loads(told[0])), (0, {"tubes": [
                {**record, "tube": "default", "dumped": 0}, {**record, "tube": "mail", "dumped": 5, "ready": 4, "buried": 1, "reserved": 1},
                {**record, "tube": "post", "dumped": 4, "delayed": 4}]}))
            same([it[:2] for it in here.jobs().values()], [("mail", "reserved")])
            first = lines_of(path)[0]
            same(first, {"tube": "mail", "id": 3, "state": "buried", "priority": 9, "delay": 0, "ttr": 10, "body": ""})
        with start("-z", "1048576") as server:
            there = Teller(server)
            same(beside(server)("load", path), Ended(0, b"loaded 12 jobs: 4 ready, 4 delayed, 4 buried\n", b""))
            found = [(it[:3], it[4], it[5]) for it in there.jobs().values()]
            kept = [(9 - number, 10 + number, body) for number, body in enumerate(bodies)]
            wanted = [(("mail", "buried", pri), ttr, body) for pri, ttr, body in kept[:3]]
            # The most urgent one, which was put last, is handed out first.
            wanted += [(("mail", "ready", pri), ttr, body) for pri, ttr, body in reversed(kept)]
            wanted += [(("mail", "buried", pri), ttr, body) for pri, ttr, body in kept[3:]]
            wanted += [(("post", "delayed", pri), ttr, body) for pri, ttr, body in kept]
            same(found == wanted, True)
            for number, seconds in enumerate(it[3] for it in there.jobs().values() if it[1] == "delayed"):
                assert 1000 * (number + 1) - 20 < seconds <= 1000 * (number + 1) + 1, seconds
            with open(path, "rb") as stream:
                sent = stream.read()
            same(beside(server)("load", "--from", "12", "--json", sent=sent).output,
                 b'{"loaded": 1, "ready": 0, "delayed": 1, "buried": 0, "refused": [], "next": null, "sent": false}\n')


def each_run_ctl_dump_goes_nowhere(start):
    """A dump to a terminal, a full disk, a full file or a pipe without a reader leaves all jobs, and is a fault."""
    with start() as server, tempfile.TemporaryDirectory() as room:
        path, here = os.path.join(room, "jobs"), Teller(server)
        for state in ["ready", "buried"]:
            for _ in range(40):
                here.put(b"a" * 100, pri=5, state=state)
        before = here.jobs()
        same(dumped(server, "/dev/full", "mail")[0], 1)
        with open(path, "wb") as stream:
            stream.write(b"earlier\n")

        def small():
            signal.signal(signal.SIGXFSZ, signal.SIG_IGN)
            resource.setrlimit(resource.RLIMIT_FSIZE, (100, 100))

        same(dumped(server, path, "mail", mode="ab", before=small), (1, ["bqctl: cannot write: File too large: dumped 0 jobs of mail"]))
        with open(path, "rb") as stream:
            same(stream.read(), b"earlier\n")
        read, write = os.pipe()
        os.close(read)
        with os.fdopen(write, "wb") as stream:
            status, _, errors = ctl("--server", address(server), "dump", "mail", stdout=stream)
        same((status, errors.splitlines()[0]), (1, b"bqctl: cannot write: Broken pipe: dumped 0 jobs of mail"))
        same(here.jobs(), before)
        own, other = os.openpty()
        found = subprocess.run([sys.executable, PROGRAMS / "bqctl", "--server", address(server), "dump", "mail"], stdout=other,
                               stderr=subprocess.PIPE, timeout=20)
        same((found.returncode, found.stderr),
             (2, b"bqctl: error: dump deletes the jobs that it writes: redirect its output to a file\n"))
        os.close(own)
        os.close(other)
        same(here.jobs(), before)


def run_ctl_dump_of_a_job_that_a_worker_got():
    """If its time to run ends and a worker gets it, a dumped job is named, and if the connection is lost then too."""
    ended = [*SEEN, b"NOT_FOUND\r\n", b"NOT_FOUND\r\n", b"NOT_FOUND\r\n", tube("mail")]
    for answers, why in [(ended, "workers got jobs meanwhile"), (SEEN + [b"NOT_FOUND\r\n"], None)]:
        with Canned(*answers) as server, tempfile.TemporaryFile() as stream:
            found = ctl("dump", "mail", "--state", "ready", "--server", server.address, stdout=stream)
            stream.seek(0)
            same([json.loads(it)["id"] for it in stream], [7])
        told = found.errors.decode().splitlines()
        assert why is None or told[0] == f"bqctl: {why}: dumped 0 jobs of mail", told
        same((found.status, told[1:]), (1, [f"bqctl: job 7 of {server.address} may be doubled: it is in the output too"]))


def line(**changed):
    """Returns a line of a dump."""
    about = {"tube": "mail", "id": 1, "state": "ready", "priority": 5, "delay": 0, "ttr": 60, "body": "YQ=="}
    return json.dumps({**about, **changed}).encode() + b"\n"


def bqd_run_ctl_load_of_bad_files(bqd):
    """A malformed line loads nothing; a last line that was cut leaves out itself alone."""
    with Server(bqd, "-z", "1000") as server, tempfile.TemporaryDirectory() as room:
        path, there, ask = os.path.join(room, "jobs"), Teller(server), beside(server)

        def loaded(data, *words):
            with open(path, "wb") as stream:
                stream.write(data)
            return ask("load", path, *words)

        for bad in [b"\n", b"{}\n", b"[" * 9999 + b"\n", b"\xff\n", b"7\n", line(tube="a b"), line(tube=5), line(state="reserved"), line(priority=-1),
                    line(delay=1 << 32), line(ttr="60"), line(ttr=True), line(body="a"), line(body="YQ==\n!"), line(body=None), line()[:-9] + b"\n"]:
            fails(loaded(line() + bad + line()), f"line 2 of {path} is no job that bqctl dumped: loaded 0 jobs")
        same(there.jobs(), {})
        for cut in [line()[:-2], line()[:9], b"{"]:
            fails(loaded(line() + cut), f"line 2 of {path}, the last, has no end: its job was left at its server: loaded 1 job: 1 ready")
        same(loaded(line()[:-1]), Ended(0, b"loaded 1 job: 1 ready\n", b""))
        same(loaded(b""), Ended(0, b"loaded 0 jobs\n", b""))
        large = line(body=base64.b64encode(b"a" * 1001).decode(), id=77)
        fails(loaded(line() + large + line()), f"{address(server)} refused line 2, job 77 of mail: the job is larger than it takes: "
              "loaded 1 job: 1 ready", "go on by --from 2")
        fails(loaded(line() + large + line(), "--from", "2", "--skip-refused"), f"{address(server)} refused 1 job: loaded 1 job: 1 ready",
              f"line 2, job 77 of mail, was left out: it is larger than {address(server)} takes")
        same(len(there.jobs()), 6)
        fails(ask("load", path + "s"), f"cannot read {path}s: No such file or directory: loaded 0 jobs")


def run_ctl_load_without_an_answer():
    """If the connection is lost before a put is answered, the line is named, and how to go on."""
    with tempfile.NamedTemporaryFile() as stream:
        stream.write(line() * 3)
        stream.flush()
        with Canned(b"USING mail\r\n", b"INSERTED 1\r\n", b"") as server:
            told = ctl("load", stream.name, "--server", server.address).errors.decode().splitlines()
    assert told[0].endswith(": loaded 1 job: 1 ready"), told
    same(told[1:], ["bqctl: line 2 may be loaded, as no answer came: go on by --from 3 if it is, else by --from 2"])


JOBS = 300


def put_all(teller, round_number):
    """Puts jobs of each state, and returns their bodies."""
    bodies = [b"%d of round %d" % (number, round_number) for number in range(JOBS)]
    for number, body in enumerate(bodies):
        state = ["ready", "delayed", "buried"][number % 3]
        teller.put(body, delay=1000 if state == "delayed" else 0, state=state)
    return bodies


def interrupted(server, path, mode, words, signals, begun, wait):
    """Runs bqctl with that file, and sends these signals this many seconds after `begun` is true. Returns its status and
    what it reported."""
    command = [sys.executable, PROGRAMS / "bqctl", "--server", address(server), *words]
    with open(path, mode) as stream:
        with subprocess.Popen(command, stdin=stream if mode == "rb" else subprocess.DEVNULL, stdout=subprocess.PIPE if mode == "rb" else stream,
                              stderr=subprocess.PIPE) as process:
            awaits(lambda: begun() or process.poll() is not None)
            time.sleep(wait)
            for it in signals:
                process.send_signal(it)
            output, errors = process.communicate(timeout=20)
    assert b"Traceback" not in errors, errors
    return process.returncode, (output or b"").decode() + errors.decode()


def deletes(teller, jobs):
    for job_id in jobs:
        same(teller.ask(b"delete %d" % job_id)[0], b"DELETED")


def dump_round(server, room, number, signals):
    """One dump that is interrupted at a random point. Returns whether that was in the middle."""
    path = os.path.join(room, f"dump-{number}")
    with teller_of(server) as here:
        first = here.last() + 1
        bodies = put_all(here, number)
        open(path, "wb").close()

        def begun():
            return b"\ncurrent-connections: 2\n" in here.ask(b"stats")[1]
        status, told = interrupted(server, path, "ab", ["--json", "dump", "mail"], signals, begun, random.uniform(0, 0.25))
        # The server releases what the program held once it sees that the connection is gone.
        awaits(lambda: b"\ncurrent-connections: 1\n" in here.ask(b"stats")[1] and b"\ncurrent-jobs-reserved: 0\n" in here.ask(b"stats")[1])
        left = here.jobs(first)
        written = [base64.b64decode(it["body"]) for it in lines_of(path)]
        found = collections.Counter([it[-1] for it in left.values()] + written)
        same(set(found), set(bodies))
        doubled = [body for body, count in found.items() if count > 1]
        if signal.SIGKILL in signals or "tubes" not in told:
            assert len(doubled) <= MOST_HELD, len(doubled)
        else:
            record, = json.loads(told.splitlines()[0])["tubes"]
            named = {(left.get(it) or (None,))[-1] for it in record["doubled"]}
            assert set(doubled) <= named, (doubled, record)
            if len(signals) == 1:
                same((record["doubled"], record["dumped"], len(written)), ([], JOBS - len(left), JOBS - len(left)))
                states = collections.Counter([it[1] for it in left.values()] + [it["state"] for it in lines_of(path)])
                same(states, dict.fromkeys(["ready", "delayed", "buried"], JOBS // 3))
        deletes(here, left)
        return 0 < len(written) < JOBS


def load_round(server, room, number, signals):
    """One load that is interrupted at a random point, and then goes on as it reported. Returns whether that was in the middle."""
    path = os.path.join(room, f"load-{number}")
    with open(path, "wb") as stream:
        for it in range(JOBS):
            state = ["ready", "delayed", "buried"][it % 3]
            stream.write(line(id=it, state=state, delay=1000 if state == "delayed" else 0, body=base64.b64encode(b"%d" % it).decode()))
    with teller_of(server) as there:
        first = there.last() + 1
        status, told = interrupted(server, path, "rb", ["--json", "load"], signals, lambda: there.last() >= first, random.uniform(0, 0.1))
        arrived = there.jobs(first)
        bodies = [it[-1] for it in arrived.values()]
        # They arrive in the order of the file, each once.
        same(bodies, [b"%d" % it for it in range(len(bodies))])
        if signal.SIGKILL not in signals and status == 1:
            record = json.loads(told.splitlines()[0])
            assert record["next"] - 1 <= len(bodies) <= record["next"] - 1 + record["sent"], (record, len(bodies))
            if len(signals) == 1:
                same(record["sent"], False)
        # After a kill, the number of puts that the server counted says where to go on.
        if len(bodies) < JOBS:
            same(beside(server)("load", path, "--from", str(len(bodies) + 1)).status, 0)
        same(sorted(int(it[-1]) for it in there.jobs(first).values()), list(range(JOBS)))
        deletes(there, there.jobs(first))
        return 0 < len(bodies) < JOBS


def each_run_ctl_dump_interrupted(start):
    """Dumps and loads that are interrupted at random points, once or twice, and ended or killed: no job is lost."""
    rounds = [[signal.SIGINT]] * 25 + [[signal.SIGINT] * 2] * 20 + [[signal.SIGTERM]] * 10 + [[signal.SIGKILL]] * 25
    with start() as server, tempfile.TemporaryDirectory() as room:
        for one in [dump_round, load_round]:
            cut = sum(one(server, room, number, signals) for number, signals in enumerate(rounds))
            # Many of the points have to be within the work; otherwise little is tested.
            assert cut >= 15, (one, cut)
