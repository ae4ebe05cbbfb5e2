"""Runs of bqctl, except its moves."""
import json
import os
import pty
import signal
import subprocess
import sys
import tempfile

from canned import PROGRAMS, Canned, ctl, ok, statistics, tube, tubes
from jobs import Teller
from programs import Ended, ended, has_all, same
from servers import awaits, free_port

LONG = "n" * 200

BYTES = bytes(range(256)) * 4


def tells(found, *lines):
    """Checks that a program succeeded and wrote these lines."""
    same(found, Ended(0, "".join(it + "\n" for it in lines).encode(), b""))


def fails(found, *lines):
    """Checks that it ended with status 1 and exactly these lines on standard error."""
    same(found, Ended(1, b"", "".join(f"bqctl: {it}\n" for it in lines).encode()))


def beside(server):
    """Returns bqctl for that server."""
    return lambda *words, **more: ctl("--server", f"127.0.0.1:{server.port}", *words, **more)


def run_ctl_bad_words():
    """Bad words end with status 2 and a message on standard error, and no server is contacted."""
    for bad in [
        [],
        ["look"],
        ["--server", "127.0.0.1:0", "tubes"],
        ["--timeout", "soon", "tubes"],
        ["tubes", "mail"],
        ["tubes", "--all"],
        ["stats", "-mail"],
        ["stats", "a", "b"],
        ["peek"],
        ["peek", "mail", "reserved"],
        ["peek", "mail", "--raw"],
        ["peek", "--raw"],
        ["peek", "mail", "--id", "1"],
        ["peek", "--id", "mail"],
        ["stats", "mail", "--id", "1"],
        ["kick"],
        ["kick", "--id", "1", "--all"],
        ["kick", "mail", "--id", "1"],
        ["delete"],
        ["delete", "mail"],
        ["delete", "18446744073709551616"],
        ["dump"],
        ["dump", "mail", "--all"],
        ["dump", "a b"],
        ["load", "a", "b"],
        ["load", "a", "--from", "0"],
        ["put", "mail box"],
        ["put", "n" * 201],
        ["put", "mail", "--ttr", "0"],
        ["put", "mail", "--priority", "4294967296"],
        ["put", "mail", "--delay", "-1"],
        ["kick", "mail", "0"],
        ["kick", "mail", "many"],
        ["kick", "mail", "5", "--all"],
        ["pause", "mail"],
        ["pause", "mail", "0"],
        ["unpause", "mail", "5"],
        ["clear"],
        ["clear", "mail", "--state", "ready,reserved"],
        ["clear", "mail", "--state", "ready,ready"],
        ["clear", "mail", "--state", ""],
        ["clear", "mail", "--limit", "0"],
        ["clear", "--dry", "mail"],
        ["move", "mail"],
        ["move", "mail", "--to", ""],
        ["move", "mail", "--to", "127.0.0.1/"],
        ["move", "mail", "--to", "127.0.0.1:11300/a b"],
        ["move", "mail", "--to", "::1"],
    ]:
        found = ctl(*bad)
        same((found.status, found.output), (2, b""))
        assert b"error: " in found.errors, (bad, found.errors)


def run_ctl_nobody_listens():
    """An address at which no server listens."""
    address = f"127.0.0.1:{free_port()}"
    for words in [["tubes"], ["clear", "mail"], ["put", "mail"]]:
        fails(ctl(*words, "--server", address), f"cannot connect to {address}: Connection refused")


def run_ctl_options_before_the_command():
    """Options count before the command as well as after it; after it they count if both are given."""
    with Canned(stays=True) as server:
        for words in [["--timeout", "0.3", "tubes"], ["tubes", "--timeout", "0.3"], ["--timeout", "20", "tubes", "--timeout", "0.3"]]:
            wanted = f"{server.address} gave no answer within 0.3 seconds; are all of its seats taken?"
            fails(ctl("--server", server.address, *words), wanted)
    with Canned(tubes(), tubes()) as server:
        same(ctl("--json", "--server", server.address, "tubes"), Ended(0, b"[]\n", b""))


def run_ctl_server_of_the_environment():
    """$BQD_SERVER names the server of bqctl and bqd-top, unless the command line does; a malformed one is bad use."""
    def ran(program, server, *words):
        return ended("env", f"BQD_SERVER={server}", sys.executable, PROGRAMS / program, *words)

    own, other = f"127.0.0.1:{free_port()}", f"127.0.0.1:{free_port()}"
    refused = "cannot connect to {}: Connection refused"
    fails(ran("bqctl", own, "tubes"), refused.format(own))
    fails(ran("bqctl", own, "tubes", "--server", other), refused.format(other))
    fails(ran("bqctl", "::", "tubes", "--server", other), refused.format(other))
    same(ran("bqd-top", own).errors, f"bqd-top: {refused.format(own)}\n".encode())
    same(ran("bqd-top", own, other).errors, f"bqd-top: {refused.format(other)}\n".encode())
    for program, words in [("bqctl", ["tubes"]), ("bqd-top", []), ("bqd-web", [])]:
        found = ran(program, "::", *words)
        same((found.status, found.output), (2, b""))
        assert found.errors.endswith(f"{program}: error: $BQD_SERVER: '::' is no address such as 127.0.0.1:11300\n".encode()), found


def bqd_run_ctl_versions(bqd):
    """Each program prints its name and the version of the server."""
    _, version = ended(bqd, "--version").output.split()
    for it in ["bqctl", "bqd-drain", "bqd-top", "bqd-web"]:
        same(ended(sys.executable, PROGRAMS / it, "--version"), Ended(0, b"%s %s\n" % (it.encode(), version), b""))


def run_ctl_goes_away():
    """A server that goes away in the middle: what was done until then is reported."""
    begun = [tube("mail", current_jobs_ready=3), b"USING mail\r\n", b"FOUND 1 1\r\na\r\n"]
    once = [*begun, b"DELETED\r\n", b"FOUND 2 1\r\nb\r\n"]
    for answers, done, command in [
        (begun, "deleted 0 jobs of mail", "delete"),
        (once, "deleted 1 job of mail: 1 ready", "delete"),
        ([*once, b"DELETED\r\n"], "deleted 1 job of mail: 1 ready", "peek-ready"),
    ]:
        with Canned(*answers) as server:
            found = ctl("clear", "mail", "--server", server.address)
        same((found.status, found.output), (1, b""))
        lost = f"bqctl: {server.address} is lost: Connection reset by peer: {done}\n".encode()
        gone = f"bqctl: {server.address} closed the connection before it answered {command}: {done}\n".encode()
        assert found.errors in (lost, gone), found.errors


def run_ctl_json_of_failure():
    """What was done is also reported as JSON if the work fails."""
    answers = [tube("mail", current_jobs_buried=2000), b"USING mail\r\n", b"KICKED 1000\r\n", b"OUT_OF_MEMORY\r\n"]
    with Canned(*answers, stays=True) as server:
        found = ctl("--json", "kick", "mail", "--all", "--server", server.address)
    why = f"{server.address} refused kick: it has no memory for it"
    same((found.status, json.loads(found.output)), (1, {"tube": "mail", "kicked": 1000, "state": "buried", "failed": why}))
    same(found.errors, f"bqctl: {why}: kicked 1000 buried jobs of mail\n".encode())


def run_ctl_odd_answers():
    """Answers that do not follow the protocol."""
    begun = [tube("mail"), b"USING mail\r\n"]
    for answers, words, of in [
        ([tubes("\x1b[2J")], ["tubes"], "list-tubes by no list of tubes"),
        ([ok(b"---\nabc\n")], ["stats"], "stats by no statistics"),
        ([ok(b"---\nname: mail\n")], ["stats", "mail"], "stats-tube mail without a number for current-jobs-ready"),
        ([tube("mail"), b"USING post\r\n"], ["peek", "mail"], "use by 'USING post'"),
        ([*begun, b"FOUND 1\r\n"], ["peek", "mail"], "peek-ready by 'FOUND 1'"),
        ([*begun, b"FOUND 1 9999999999\r\n"], ["peek", "mail"], "peek-ready by 'FOUND 1 9999999999'"),
        ([*begun, b"FOUND 1 1\r\nabc\r\n"], ["peek", "mail"], "peek-ready by a body without its end"),
        ([statistics()], ["put", "mail"], "stats without a number for max-job-size"),
        ([*begun, b"KICKED some\r\n"], ["kick", "mail"], "kick by 'KICKED some'"),
        ([b"DONE\r\n"], ["pause", "mail", "5"], "pause-tube by 'DONE'"),
    ]:
        with Canned(*answers, stays=True) as server:
            found = ctl(*words, "--server", server.address)
            errors = f"{server.address} answered {of}"
            assert found.status == 1 and found.errors.startswith(f"bqctl: {errors}".encode()), (errors, found)


def run_ctl_refusals():
    """A refusal is reported in plain words."""
    begun = [statistics(max_job_size=9), b"USING mail\r\n"]
    for answers, words, of in [
        ([*begun, b"DRAINING\r\n"], ["put", "mail"], "put: it drains, and takes no further jobs"),
        ([*begun, b"JOB_TOO_BIG\r\n"], ["put", "mail"], "put: the job is larger than it takes"),
        ([*begun, b"OUT_OF_MEMORY\r\n"], ["put", "mail"], "put: it has no memory for it, or the most jobs that it may have"),
        ([b"OUT_OF_MEMORY\r\n"], ["stats"], "stats: it has no memory for it"),
        ([b"INTERNAL_ERROR\r\n"], ["tubes"], "list-tubes: it has an internal error"),
    ]:
        with Canned(*answers, stays=True) as server:
            fails(ctl(*words, "--server", server.address), f"{server.address} refused {of}")


def run_ctl_unwritten():
    """A result that can't be written is a fault, unless its reader has gone."""
    for target, wanted in [("/dev/full", (1, b"bqctl: cannot write: No space left on device\n")), (None, (0, b""))]:
        with Canned(statistics(), stays=True) as server:
            read, write = os.pipe()
            os.close(read)
            with open(target, "wb") if target else os.fdopen(write, "wb") as stream:
                found = ctl("stats", "--server", server.address, stdout=stream)
        same((found.status, found.errors), wanted)


def each_run_ctl_put_and_peek(start):
    """A job is put from standard input and from a file, and is shown unchanged, without being reserved."""
    with start("-z", "1048576") as server, tempfile.TemporaryDirectory() as room:
        ask, teller = beside(server), Teller(server)
        tells(ask("put", "mail", sent=b"hello"), "put job 1 into mail")
        path = os.path.join(room, "body")
        for job_id, body in [(2, b""), (3, BYTES), (4, os.urandom(1 << 20))]:
            with open(path, "wb") as stream:
                stream.write(body)
            words = ["put", LONG, path, "--priority", "7", "--delay", "1000", "--ttr", "9"]
            tells(ask(*words), f"put job {job_id} into {LONG}")
            tube, state, pri, left, ttr, found = teller.job(job_id)
            same((tube, state, pri, ttr, 990 < left <= 1000, found == body), (LONG, "delayed", 7, 9, True, True))
            if job_id > 2:
                same(ask("peek", LONG, "delayed", "--raw") == Ended(0, body, b""), True)
                shown, = json.loads(ask("peek", LONG, "delayed", "--json").output)
                same((shown["id"], shown["state"], shown["size"]), (job_id, "delayed", len(body)))
                same(bytes.fromhex(shown["body_hex"]) == body, True)
            tells(ask("clear", LONG), f"deleted 1 job of {LONG}: 1 delayed")
        with open(path, "ab") as stream:
            stream.write(b"x")
        wanted = f"the body is too large: 127.0.0.1:{server.port} takes at most 1048576 bytes"
        fails(ask("put", "mail", path), wanted)
        fails(ask("put", "mail", path + "s"), f"cannot read {path}s: No such file or directory")
        lines = ask("peek", "mail").output.decode().splitlines()
        same((lines[0], lines[-1], "state: ready" in lines), ("id: 1", "hello", True))
        same(teller.job(1)[1], "ready")


def each_run_ctl_peek_shows_no_control_bytes(start):
    """A body that tries to control the terminal is shown in hexadecimal, and a long one is cut."""
    with start() as server:
        ask, teller = beside(server), Teller(server)
        teller.put(b"\x1b[2J\x1b]0;title\x07")
        teller.put("ä".encode() * 3000, delay=1000)
        teller.put("\u202egnp.exe".encode(), state="buried")
        shown = ask("peek", "mail").output
        same([it in shown for it in [b"\x1b", b"\x07", "\u202e".encode()]], [False, False, False])
        has_all(shown.replace("ä".encode() * 2048, b"much"), [
            b"\n\n00000000  1b 5b 32 4a 1b 5d 30 3b  74 69 74 6c 65 07        .[2J.]0;title.\n\n",
            b"\n\nmuch\n(the first 4096 of 6000 bytes; --raw writes all)\n\n",
            b"\n\n00000000  e2 80 ae 67 6e 70 2e 65  78 65                    ...gnp.exe\n",
        ])


def each_run_ctl_no_tube(start):
    """A tube that does not exist is a fault, and only put creates one."""
    with start() as server:
        for words in [["stats"], ["peek"], ["kick"], ["unpause"], ["clear"], ["move", "--to", "/other"]]:
            fails(beside(server)(words[0], "none", *words[1:]), f"127.0.0.1:{server.port} has no tube none")
        same([it["name"] for it in json.loads(beside(server)("tubes", "--json").output)], ["default"])


def each_run_ctl_kick_and_pause(start):
    """Buried jobs are kicked, or delayed ones if none is buried, and a tube is paused."""
    with start() as server:
        ask, teller = beside(server), Teller(server)
        for _ in range(3):
            teller.put(b"a", state="buried")
            teller.put(b"b", delay=1000)
        tells(ask("kick", "mail"), "kicked 1 buried job of mail")
        tells(ask("kick", "mail", "--all"), "kicked 2 buried jobs of mail")
        tells(ask("kick", "mail", "2"), "kicked 2 delayed jobs of mail")
        tells(ask("kick", "--all", "mail"), "kicked 1 delayed job of mail")
        same(json.loads(ask("kick", "mail", "--json").output), {"tube": "mail", "kicked": 0, "state": "delayed"})
        tells(ask("pause", "mail", "1000"), "paused mail for 1000 seconds")
        about = json.loads(ask("stats", "mail", "--json").output)
        same((about["current-jobs-ready"], about["pause"], about["pause-time-left"] > 900), (6, 1000, True))
        tells(ask("unpause", "mail"), "mail is not paused any more")
        same(teller.ask(b"watch mail")[0], b"WATCHING 2")
        same(teller.ask(b"reserve-with-timeout 5")[0], b"RESERVED 1 1")
        same(json.loads(ask("stats", "--json").output)["current-jobs-reserved"], 1)


def each_run_ctl_clear(start):
    """Jobs are deleted by state, up to a limit; reserved jobs stay."""
    with start() as server:
        ask, teller = beside(server), Teller(server)
        for _ in range(3):
            teller.put(b"a")
            teller.put(b"b", delay=1000)
            teller.put(b"c", state="buried")
            teller.put(b"d", tube=b"other")
        same(teller.ask(b"reserve-job 1")[0], b"RESERVED 1 1")
        plan = "would delete 8 jobs of mail: 2 ready, 3 delayed, 3 buried; 1 reserved job stays"
        tells(ask("clear", "mail", "--dry-run"), plan)
        tells(ask("clear", "mail", "--dry-run", "--limit", "4", "--state", "buried,ready"),
              "would delete 4 jobs of mail: 3 buried, 1 ready; 1 reserved job stays")
        tells(ask("clear", "mail", "--limit", "2", "--state", "buried"),
              "deleted 2 jobs of mail: 2 buried; 1 reserved job stays")
        same(json.loads(ask("clear", "mail", "--json", "--state", "delayed").output),
             {"tube": "mail", "dry_run": False, "deleted": 3, "delayed": 3, "reserved": 1})
        tells(ask("clear", "mail"), "deleted 3 jobs of mail: 2 ready, 1 buried; 1 reserved job stays")
        tells(ask("clear", "mail"), "deleted 0 jobs of mail; 1 reserved job stays")
        same([about[:2] for about in teller.jobs().values()], [("mail", "reserved")] + [("other", "ready")] * 3)


def each_run_ctl_many_tubes(start):
    """2,000 tubes of the longest names."""
    names = [f"{number:0200}" for number in range(2000)]
    with start() as server:
        teller = Teller(server)
        for it in names:
            teller.put(b"", tube=it.encode())
        found = json.loads(beside(server)("tubes", "--json").output)
        same([it["name"] for it in found], [*names, "default"])
        same({it["ready"] for it in found[:-1]}, {1})
        lines = beside(server)("tubes").output.decode().splitlines()
        same((len(lines), len(set(map(len, lines)))), (2002, 1))


def each_run_ctl_clear_interrupted(start):
    """An interrupt ends a clear after the current job, and it reports exactly what it deleted."""
    with start() as server:
        teller = Teller(server)
        for _ in range(3000):
            teller.put(b"a")
        command = [sys.executable, PROGRAMS / "bqctl", "--server", f"127.0.0.1:{server.port}", "--json", "clear", "mail"]
        with subprocess.Popen(command, stdout=subprocess.PIPE, stderr=subprocess.PIPE) as process:
            awaits(lambda: b"ready: 3000" not in teller.ask(b"stats")[1])
            process.send_signal(signal.SIGTERM)
            output, _ = process.communicate(timeout=20)
        deleted = json.loads(output)["deleted"]
        same(len(teller.jobs()), 3000 - deleted)
        same((process.returncode, deleted > 0), (1 if deleted < 3000 or b"interrupted" in output else 0, True))


def each_run_ctl_by_id(start):
    """Jobs are shown, kicked and deleted by their ids, whatever their tube; what cannot be done says why."""
    with start() as server:
        ask, teller = beside(server), Teller(server)
        for state, delay in [("ready", 0), ("delayed", 1000), ("buried", 0), ("buried", 0), ("ready", 0)]:
            teller.put(BYTES, pri=7, delay=delay, state=state, tube=state.encode())
        same(teller.ask(b"reserve-job 5")[0].split()[:2], [b"RESERVED", b"5"])
        name = f"127.0.0.1:{server.port}"
        about = json.loads(ask("stats", "--id", "3", "--json").output)
        same([about[it] for it in ["id", "tube", "state", "pri", "ttr"]], [3, "buried", "buried", 7, 60])
        for job_id in ["1", "2", "3", "5"]:
            same(ask("peek", "--id", job_id, "--raw"), Ended(0, BYTES, b""))
        shown, = json.loads(ask("peek", "--id", "5", "--json").output)
        same((shown["id"], shown["state"], shown["body_hex"]), (5, "reserved", BYTES.hex()))
        tells(ask("kick", "--id", "2"), "kicked delayed job 2 of delayed")
        same(json.loads(ask("kick", "--id", "3", "--json").output), {"id": 3, "tube": "buried", "kicked": 1, "state": "buried"})
        same([about[1] for about in teller.jobs().values()], ["ready", "ready", "ready", "buried", "reserved"])
        fails(ask("kick", "--id", "1"), "job 1 of ready is ready: only buried and delayed jobs are kicked")
        for words in [["peek"], ["stats"], ["kick"]]:
            fails(ask(*words, "--id", "9"), f"{name} has no job 9")
        tells(ask("delete", "4", "2"), "deleted buried job 4 of buried", "deleted ready job 2 of delayed")
        fails(ask("delete", "9", "1", "5"), f"2 jobs could not be deleted: {name} has no job 9", "job 5 of ready is reserved",
              "deleted ready job 1 of ready")
        same(json.loads(ask("delete", "3", "4", "--json").output), {"deleted": [3], "left": [4], "failed": "1 job could not be deleted"})
        same(list(teller.jobs()), [5])


def asked_on_terminal(server, answer, *words):
    """Returns the question of a bqctl at a terminal, which gets this answer, and how it ends."""
    own, other = pty.openpty()
    command = [sys.executable, PROGRAMS / "bqctl", "--server", f"127.0.0.1:{server.port}", *words]
    with subprocess.Popen(command, stdin=other, stdout=subprocess.PIPE, stderr=other) as process:
        os.close(other)
        told = b""
        if answer is not None:
            while not told.endswith(b"[y/N] "):
                told += os.read(own, 4096)
            if isinstance(answer, bytes):
                os.write(own, answer)
            else:
                process.send_signal(answer)
        output, _ = process.communicate(timeout=20)
    os.close(own)
    return told, process.returncode, output


def each_run_ctl_clear_asks(start):
    """On a terminal clear asks, and deletes only after a yes; with --yes it does not ask."""
    with start() as server:
        teller = Teller(server)
        for _ in range(2):
            teller.put(b"a")
            teller.put(b"b", state="buried")
        question = f"delete 4 jobs of mail at 127.0.0.1:{server.port}: 2 ready, 2 buried? [y/N] ".encode()
        for answer in [b"n\n", b"\n", b"\x04", signal.SIGINT, signal.SIGTERM]:
            same(asked_on_terminal(server, answer, "clear", "mail"), (question, 1, b""))
            same(len(teller.jobs()), 4)
        same(asked_on_terminal(server, None, "clear", "mail", "--dry-run")[1:], (0, b"would delete 4 jobs of mail: 2 ready, 2 buried\n"))
        same(asked_on_terminal(server, None, "clear", "mail", "--state", "buried", "--yes")[1:], (0, b"deleted 2 jobs of mail: 2 buried\n"))
        found = asked_on_terminal(server, b"yes\n", "clear", "mail")
        same(found[1:], (0, b"deleted 2 jobs of mail: 2 ready\n"))
