"""Runs of bqd-top and bqd-drain against a server with prepared answers."""
import json
import os
import tempfile

from canned import Canned, drain, ok, statistics, top, tube, tubes, yaml
from programs import Ended, same
from servers import free_port

# One picture with a short interval and a short timeout, for failures that come later.
QUICK = ["--once", "--interval", "0.1", "--timeout", "0.5"]


def tells(found, name, fault):
    """Checks that a program ended with this fault and nothing else."""
    same(found, Ended(1, b"", f"{name}: {fault}\n".encode()))


def run_bad_words():
    """Bad options end with status 2 and a message on standard error."""
    for program, bad in [
        (top, ["--interval", "0"]),
        (top, ["--interval", "nan"]),
        (top, ["--interval", "soon"]),
        (top, ["--timeout", "3601"]),
        (top, ["--sort", "size"]),
        (top, ["--on"]),
        (top, ["127.0.0.1:65536"]),
        (top, ["127.0.0.1:"]),
        (top, [""]),
        (top, ["::1"]),
        (top, ["127.0.0.1:11300", "127.0.0.1:11301"]),
        (drain, ["--limit", "-1"]),
        (drain, ["--limit", "soon"]),
        (drain, ["--timeout", "0"]),
        (drain, ["127.0.0.1:0"]),
        (drain, ["--control"]),
    ]:
        found = program(*bad)
        same((found.status, found.output), (2, b""))
        assert b"error: " in found.errors, found.errors


def run_nobody_listens():
    """An address at which no server listens."""
    address = f"127.0.0.1:{free_port()}"
    wanted = f"cannot connect to {address}: Connection refused"
    tells(top("--once", address), "bqd-top", wanted)
    tells(drain(address), "bqd-drain", wanted)


def run_goes_away():
    """A server that goes away: before its answers, between them, and within one."""
    for answers in [[], [statistics()], [statistics(), tubes("a")], [statistics()[:20]], [statistics()[:-3]]]:
        with Canned(*answers) as server:
            found = top(*QUICK, server.address)
            same((found.status, found.output), (1, b""))
            assert found.errors.startswith(f"bqd-top: {server.address} ".encode()), found.errors
            assert b"closed the connection" in found.errors or b"is lost: " in found.errors, found.errors


def run_slow():
    """A server that gives no answer, and one that gives only a part of it."""
    for answers in [[], [statistics()], [statistics()[:-3]], [b"OK"]]:
        with Canned(*answers, stays=True) as server:
            wanted = f"{server.address} gave no answer within 0.5 seconds; are all of its seats taken?"
            tells(top(*QUICK, server.address), "bqd-top", wanted)


def run_odd_answers():
    """Answers that do not follow the protocol, or do not fit the command."""
    for answers, of in [
        ([b"HTTP/1.1 400 Bad Request\r\n"], "stats by 'HTTP/1.1 400 Bad Request'"),
        ([b"\xff\x00\x1b[2J\r\n"], "stats by '\ufffd\\x00\\x1b[2J'"),
        ([b"x" * 300], "stats by a line without end"),
        ([b"OK 999999999\r\n"], "stats by 'OK 999999999'"),
        ([b"OK 3\r\nabc\r\n"], "stats by a text that is none of its kind"),
        ([ok(b"---\nabc\n")], "stats by no statistics"),
        ([ok(yaml(uptime=1))], "stats without a number for current-jobs-ready"),
        ([statistics(total_jobs="many")], "stats without a number for total-jobs"),
        ([statistics(), tubes("a", "b c")], "list-tubes by no list of tubes"),
        ([statistics(), tubes("\x1b[2J")], "list-tubes by no list of tubes"),
        ([statistics(), ok(b"---\nname: a\n")], "list-tubes by no list of tubes"),
        ([statistics(), tubes("a"), b"BAD_FORMAT\r\n"], "stats-tube a by 'BAD_FORMAT'"),
        ([statistics(), tubes("a"), ok(yaml(name="a"))], "stats-tube a without a number for current-jobs-ready"),
    ]:
        with Canned(*answers, stays=True) as server:
            tells(top(*QUICK, server.address), "bqd-top", f"{server.address} answered {of}")


def run_rates():
    """The rates of puts and deletions come from two readings; a tube that was made again counts from 0."""
    first = [statistics(total_jobs=100), tubes("a", "b", "gone")]
    first += [tube("a", total_jobs=50, cmd_delete=10), tube("b", total_jobs=50), tube("gone")]
    second = [statistics(total_jobs=130, job_timeouts=5), tubes("a", "b", "new", "going")]
    second += [tube("a", total_jobs=60, cmd_delete=30), tube("b", total_jobs=8), tube("new", total_jobs=4), b"NOT_FOUND\r\n"]
    with Canned(*first, *second) as server:
        found = top("--once", "--json", "--interval", "0.5", server.address)
        same((found.status, found.errors), (0, b""))
        shown = json.loads(found.output)
        rates = {it["name"]: (it["put_rate"], it["deleted_rate"]) for it in shown["tubes"]}
        times = {name: tuple(round(it * shown["seconds"], 6) for it in pair) for name, pair in rates.items()}
        same(times, {"a": (10, 20), "b": (8, 0), "new": (4, 0)})
        same(round(shown["put_rate"] * shown["seconds"], 6), 30)
        same(round(shown["timeout_rate"] * shown["seconds"], 6), 5)
        assert 0.5 <= shown["seconds"] < 2, shown["seconds"]
        asked = ["stats", "list-tubes", "stats-tube a", "stats-tube b", "stats-tube gone"]
        asked += ["stats", "list-tubes", "stats-tube a", "stats-tube b", "stats-tube new", "stats-tube going"]
        same([it.decode() for it in server.lines], [it + "\r\n" for it in asked])


def run_table():
    """The exact table, sorted by ready jobs."""
    told = [statistics(current_jobs_ready=12, current_jobs_buried=1, current_connections=7, draining="true")]
    told += [tubes("default", "mail"), tube("default", current_jobs_buried=1)]
    told += [tube("mail", current_jobs_ready=12, current_watching=3, current_waiting=2, pause_time_left=60)]
    with Canned(*told, *told) as server:
        found = top("--once", "--interval", "0.1", "--sort", "ready", server.address)
    wanted = f"""{server.address}  7 connections, 0 waiting  DRAINING
jobs: 12 ready, 0 reserved, 0 delayed, 1 buried  0.0 put/s, 0.0 timeouts/s

tube     ready  reserved  delayed  buried  put/s  deleted/s  using  watching  waiting  pause
mail        12         0        0       0    0.0        0.0      0         3        2     60
default      0         0        0       1    0.0        0.0      0         0        0      0
"""
    same(found, Ended(0, wanted.encode(), b""))


def run_unwritten():
    """A picture that can't be written is a fault, unless its reader has gone."""
    for target, wanted in [("/dev/full", (1, b"bqd-top: cannot write: No space left on device\n")), (None, (0, b""))]:
        with Canned(*[statistics(), tubes()] * 2, stays=True) as server:
            read, write = os.pipe()
            os.close(read)
            with open(target, "wb") if target else os.fdopen(write, "wb") as stream:
                found = top(*QUICK, server.address, stdout=stream)
        same((found.status, found.errors), wanted)


def run_drain_by_no_pipe():
    """A control line that does not exist, has no reader, is not a pipe, or is no server's; no file is created."""
    with tempfile.TemporaryDirectory() as room:
        pipe, held, file, none = (os.path.join(room, it) for it in ["pipe", "held", "file", "none"])
        os.mkfifo(pipe)
        os.mkfifo(held)
        open(file, "wb").close()
        reader = os.open(held, os.O_RDWR | os.O_NONBLOCK)
        for path, why in [
            (none, "No such file or directory"),
            (pipe, "nobody reads it"),
            (file, "it is no named pipe"),
            (held, "it is no standard input of a process that this user can see"),
        ]:
            with Canned(statistics()) as server:
                found = drain("--control", path, server.address)
            tells(found, "bqd-drain", f"cannot drain by {path}: {why}")
        same((sorted(os.listdir(room)), os.path.getsize(file)), (["file", "held", "pipe"], 0))
        nothing_came(reader)


def nothing_came(reader):
    """Checks that nothing was written to a pipe that is open for reading, and closes it."""
    try:
        same(os.read(reader, 100), b"")
    except BlockingIOError:
        pass
    finally:
        os.close(reader)


def run_drain_of_beanstalkd():
    """A server whose statistics have a process id is beanstalkd, and its control line is not looked for."""
    with Canned(statistics(pid=1)) as server:
        wanted = f"nothing was drained: {server.address} is beanstalkd, which drains by the signal SIGUSR1"
        tells(drain("--control", "/nowhere", server.address), "bqd-drain", wanted)
