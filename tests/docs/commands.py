"""What is done with each command that a page shows: it is run with the given programs, or there is a reason not to run
it.

A rule is a pattern of commands and a function that tries one. The function returns None if the command was run and did
what it should, or the reason why it isn't run. A command without a rule is a fault of the page, or needs a rule.
"""
import contextlib
import os
import pathlib
import re
import shutil
import signal
import subprocess
import sys
import tempfile
import threading
import time
import urllib.request

from pages import ROOT, codes, manual_commands, manuals, markdown, place, shell_lines
from programs import PATIENCE
from servers import Server, free_port

# The port in the pages, that of a second server, and the pipe of the service.
PORT = "11300"
OTHER = "11301"
CONTROL = "/run/bqd.control"

RULES = []

# How many seconds a command of a page may take. The command that makes a package takes a while on a busy computer.
LONGEST = 5 * PATIENCE

# Most of the time that a package takes is its compression, which is not what is tried.
QUICK_PACKAGE = {"DPKG_DEB_COMPRESSOR_TYPE": "gzip", "DPKG_DEB_COMPRESSOR_LEVEL": "1"}

# The operator's programs, which the package installs next to the server.
OPERATORS = ["bqctl", "bqd-drain", "bqd-top", "bqd-web"]

# The first words of commands. A program's name on its own is not a command.
HEADS = """rt env docker tools/build tools/needless_answers.py tools/refused_by_prover.py tools/shorter_proofs.py nc telnet systemctl
    journalctl apt echo bqd bq bqctl bqd-top bqd-drain bqd-web prlimit ulimit
    python3 sed printf packaging/deb.sh promtool curl ss ssh (cd crates/bqd/out/bqd crates/bq/out/bq bash""".split()


def is_command(text):
    """Returns true if code in a sentence is a command."""
    words = text.split()
    return text == ".ci/run" or (len(words) > 1 and words[0] in HEADS)


def shown():
    """Returns each command that a page shows, with the place where it first appears."""
    found = {}
    for page in markdown():
        for piece in [*shell_lines(page), *(it for it in codes(page) if is_command(it.text))]:
            found.setdefault(piece.text, place(piece))
    for page in manuals():
        for piece in manual_commands(page):
            found.setdefault(piece.text, place(piece))
    return found


def rule(shape):
    """Registers a function that tries the commands that match a pattern."""
    def put(function):
        RULES.append((re.compile(shape), function))
        return function
    return put


def rules_of(text):
    """Returns the function that tries each part of a command, with the match of the part."""
    rules = []
    for step in re.split(r" && (?![^(]*\))", text):
        found = next(((function, match) for shape, function in RULES for match in [shape.fullmatch(step)] if match), None)
        if not found:
            raise AssertionError(f"no rule of tests/docs knows {step!r}")
        rules.append(found)
    return rules


def tried(text, room):
    """Tries a command. Returns the reasons why parts of it weren't run; raises an exception if a part is wrong."""
    whys = [function(room, *match.groups()) for function, match in rules_of(text)]
    return [it for it in whys if it]


def is_for_a_machine(text):
    """Returns true if a part of a command needs root and systemd. tests/container runs these."""
    return any(function in (installs, services, changes_options) for function, _ in rules_of(text))


def left_to_nobody():
    """Returns the commands that need root and systemd and that tests/container does not have."""
    text = (ROOT / "tests/container/inside.py").read_text()
    return [f"{where}: tests/container does not run `{it}`" for it, where in shown().items() if is_for_a_machine(it) and it not in text]


class Room:
    """A folder like a clone with built programs, and a folder of programs as the package installs them."""

    def __init__(self, bq, bqd):
        self.bq, self.bqd = bq, bqd
        self.folder = tempfile.mkdtemp(prefix="pages-")
        for it in ["README.md", "CHANGELOG.md", "LICENSE", "docs", "packaging", "tests", "tools"]:
            os.symlink(ROOT / it, f"{self.folder}/{it}")
        for name, program in [("bq", bq), ("bqd", bqd)]:
            os.makedirs(f"{self.folder}/crates/{name}/out")
            os.symlink(program, f"{self.folder}/crates/{name}/out/{name}")
        os.mkdir(f"{self.folder}/bin")
        for name, program in [("bq", bq), ("bqd", bqd)]:
            os.symlink(program, f"{self.folder}/bin/{name}")
        for name in OPERATORS:
            os.symlink(ROOT / "packaging/programs" / name, f"{self.folder}/bin/{name}")

    def close(self):
        shutil.rmtree(self.folder)

    def started(self, command, **more):
        """Starts the command in a shell, in a session of its own. It is ended at the end."""
        path = f"{self.folder}/bin:{os.environ['PATH']}"
        return started(["bash", "-c", command], cwd=self.folder, env={**os.environ, **QUICK_PACKAGE, "PATH": path}, **more)

    def ends(self, command, sent=b"", status=0):
        """Returns the output of a command that ends by itself with this status."""
        with self.started(command, stderr=subprocess.STDOUT) as process:
            output, _ = process.communicate(sent, LONGEST)
        if process.returncode != status:
            raise AssertionError(f"{command!r} ended with {process.returncode}: {output.decode(errors='replace')}")
        return output.decode(errors="replace")


@contextlib.contextmanager
def started(words, **more):
    streams = {"stdin": subprocess.PIPE, "stdout": subprocess.PIPE, "start_new_session": True, **more}
    with subprocess.Popen(words, **streams) as process:
        try:
            yield process
        finally:
            # Only its own session, which contains everything that it started.
            with contextlib.suppress(ProcessLookupError):
                os.killpg(process.pid, signal.SIGKILL)


def session(server):
    """Checks that a job can be put, reserved and deleted."""
    client = server.client()
    client.asks(b"put 5 0 10 3\r\nabc\r\nreserve\r\n", b"INSERTED 1\r\nRESERVED 1 3\r\nabc\r\n")
    client.asks(b"delete 1\r\n", b"DELETED\r\n")


class Running(Server):
    """A server that a page's command started."""

    def __init__(self, process, port):
        self.process, self.port, self.clients = process, port, []


@rule(r"((?:crates/bqd/out/)?bqd (?:-l|--listen) .*)|(env --ignore-signal=\S+ bqd .*)")
def serves(room, plain, ignoring):
    port = free_port()
    command = plain or ignoring
    with room.started(command.replace(PORT, str(port)), stderr=subprocess.STDOUT) as process:
        told = process.stdout.readline().decode()
        if not re.fullmatch(rf"listening \S+:{port}\n", told):
            raise AssertionError(f"{command!r} told {told!r}")
        server = Running(process, port)
        session(server)
        if ignoring:
            outlives(server, ignoring.split("=")[1].split(" ")[0].split(","))
        process.kill()


def outlives(server, names):
    """Checks that signals do not end a server that a shell became, and that the service and an image ignore the same."""
    for it in names:
        server.process.send_signal(getattr(signal, f"SIG{it}"))
    server.client().asks(b"list-tube-used\r\n", b"USING default\r\n")
    for file in ["packaging/bqd.service", "packaging/container-start"]:
        assert f"env --ignore-signal={','.join(names)} /usr/bin/bqd" in (ROOT / file).read_text(), file


@rule(r"docker (?:compose -f (\S+) )?(build|run|exec|stop|up|compose)(?: .*)?")
def contains(room, compose, word):
    for it in ["packaging/Dockerfile", compose or "packaging/compose.yml"]:
        assert (ROOT / it).is_file(), f"no {it}"
    return "there is no docker here; packaging/README.md says what was tried instead"


@rule(r"bqd \.\. &")
def goes_to_the_background(room):
    return "it is a form"


@rule(r"bqd (--[-a-z]+)(?: [A-Z]+)?")
def is_form_of_an_option(room, option):
    assert option in room.ends("bqd --help"), f"bqd has no {option}"
    return "it is a form"


@rule(r"(?:crates/bq/out/)?bq|(printf '.*' \| bq)")
def one_session(room, command):
    told = room.ends(command or "bq", b"" if command else b"put 5 0 10 3\r\nabc\r\nreserve\r\nquit\r\n")
    if told != "INSERTED 1\r\nRESERVED 1 3\r\nabc\r\n":
        raise AssertionError(f"{command!r} told {told!r}")


@rule(r"(nc -C) 127\.0\.0\.1 11300|(telnet) 127\.0\.0\.1 11300")
def by_hand(room, nc, telnet):
    if telnet or not shutil.which("nc"):
        return "it wants a terminal" if telnet else "there is no nc here"
    with Server(room.bqd) as server:
        told = room.ends(f"{nc} 127.0.0.1 {server.port}", b"put 5 0 10 3\nabc\nreserve\ndelete 1\nquit\n")
    if told != "INSERTED 1\r\nRESERVED 1 3\r\nabc\r\nDELETED\r\n":
        raise AssertionError(f"by nc came {told!r}")


@rule(r"((?:packaging/programs/)?bqd-top(?: .*)?)")
def watches(room, command):
    with Server(room.bqd) as server:
        address = f"127.0.0.1:{server.port}"
        told = command.replace("127.0.0.1:" + PORT, address) if PORT in command else f"{command} {address}"
        if "--once" in command:
            output = room.ends(told)
        else:
            with room.started("exec " + told) as process:
                output = "".join(process.stdout.readline().decode() for _ in range(5))
                process.send_signal(signal.SIGINT)
                if process.wait(PATIENCE):
                    raise AssertionError(f"{command!r} ended with {process.returncode}")
    if "default" not in output:
        raise AssertionError(f"{command!r} told {output!r}")


@rule(r"bqctl (clear|move|dump|load)")
def is_command_of_bqctl(room, name):
    room.ends(f"bqctl {name} --help")
    return "it is a part of a command"


@rule(r"(bqctl .*)")
def tidies(room, command):
    """Runs a command on a server whose tube default has a job in each state; a move goes to a second server."""
    with Server(room.bqd) as server, Server(room.bqd) as other:
        client = server.client()
        client.asks(b"put 0 0 60 1\r\na\r\nput 0 60 60 1\r\nb\r\n", b"INSERTED 1\r\nINSERTED 2\r\n")
        client.asks(b"put 0 0 60 1\r\nc\r\nreserve-job 3\r\nbury 3 0\r\n", b"INSERTED 3\r\nRESERVED 3 1\r\nc\r\nBURIED\r\n")
        # A page's job is the buried one.
        words = command.split(" ", 1)[1].replace("4711", "3")
        for port, running in [(OTHER, other), (PORT, server)]:
            words = words.replace(f"127.0.0.1:{port}", f"127.0.0.1:{running.port}")
        told = f"bqctl --server 127.0.0.1:{server.port} {words}"
        if not room.ends(told, b"body"):
            raise AssertionError(f"{command!r} told nothing")


@rule(r"bqd-web((?: .*)?)")
def serves_a_page(room, words):
    """Runs bqd-web with a server, at a port of its own: checks the page and the metrics, and its end by an interrupt.
    """
    with Server(room.bqd) as server:
        port = free_port()
        own = [("--server", f"127.0.0.1:{server.port}"), ("--listen", f"127.0.0.1:{port}")]
        kept = re.sub(r" --(?:server|listen) \S+", "", words)
        with room.started("exec bqd-web" + kept + "".join(f" {name} {value}" for name, value in own)) as process:
            told = process.stdout.readline().decode()
            if told != f"listening http://127.0.0.1:{port}/\n":
                raise AssertionError(f"bqd-web{words} told {told!r}")
            for path, wanted in [("", "<title>bqd</title>"), ("metrics", "bqd_up ")]:
                with urllib.request.urlopen(f"http://127.0.0.1:{port}/{path}", timeout=PATIENCE) as answer:
                    assert wanted in answer.read().decode(), path
            process.send_signal(signal.SIGINT)
            if process.wait(PATIENCE):
                raise AssertionError(f"bqd-web{words} ended with {process.returncode}")


@rule(r"promtool check rules (\S+)")
def checks_rules(room, path):
    path = path.replace("/usr/share/bqd/", "packaging/")
    assert (ROOT / path).is_file(), f"no rules {path}"
    if not shutil.which("promtool"):
        return "there is no promtool here"
    room.ends(f"promtool check rules {path}")


@rule(r"(ss -tn[op](?: '.*')?)")
def shows_connections(room, command):
    if not shutil.which("ss"):
        return "there is no ss here"
    with Server(room.bqd) as server:
        client = server.client()
        assert f":{server.port}" in room.ends(command.replace(PORT, str(server.port))), f"{command!r} shows no connection"
        client.asks(b"list-tube-used\r\n", b"USING default\r\n")


@rule(r"ssh -L (\d+):127\.0\.0\.1:(\d+) \S+")
def tunnels(room, here, there):
    assert f":{here}" in (ROOT / "packaging/bqd-web.default").read_text() and here == there, "another port"
    return "it wants a second machine"


@contextlib.contextmanager
def piped(room):
    """Starts a server whose control line is a named pipe, as the service's is. Returns it with the pipe's path."""
    pipe = f"{room.folder}/control"
    os.mkfifo(pipe)
    held = os.open(pipe, os.O_RDWR)
    port = free_port()
    try:
        with started([room.bqd, "-l", "127.0.0.1", "-p", str(port)], stdin=held, stderr=subprocess.PIPE) as process:
            process.stdout.readline()
            yield Running(process, port), pipe
    finally:
        os.close(held)
        os.unlink(pipe)


@rule(rf"(bqd-drain(?: (?!127).*)?)(?: 127\.0\.0\.1:{OTHER})?")
def drains(room, command):
    with piped(room) as (server, pipe):
        told = room.ends(f"{command} --control {pipe} 127.0.0.1:{server.port}")
    if told.splitlines()[-1] != "drained":
        raise AssertionError(f"{command!r} told {told!r}")


@rule(rf"(echo drain > {CONTROL})")
def drains_by_hand(room, command):
    socket = (ROOT / "packaging/bqd.socket").read_text()
    assert f"ListenFIFO={CONTROL}\n" in socket, "the pipe of bqd.socket is another"
    with piped(room) as (server, pipe):
        room.ends(command.replace(CONTROL, pipe))
        assert server.process.stderr.readline() == b"bqd: draining\n"


@rule(r"packaging/deb\.sh (?:\.|packaging)")
def packs(room):
    wanted = ["strip", "dpkg-shlibdeps", "dpkg-gencontrol", "dpkg-parsechangelog", "dpkg-deb"]
    lacking = [it for it in wanted if not shutil.which(it)]
    if lacking:
        return f"there is no {lacking[0]} here"
    room.ends("packaging/deb.sh .")
    made = [it for it in os.listdir(room.folder) if re.fullmatch(r"bqd_[0-9.]+_\w+\.deb", it)]
    if len(made) != 1:
        raise AssertionError(f"{made} was made")


@rule(r"apt (?:install \./(\w+)_\*\.deb|(?:remove|purge) (\w+))")
def installs(room, installed, gone):
    names = re.findall(r"^Package: (\S+)$", (ROOT / "packaging/debian/control").read_text(), re.M)
    assert (installed or gone) in names, f"no package {installed or gone}"
    return "tests/container runs it"


@rule(r"(?:systemctl (?:start|stop|restart|reload|status|(?:en|dis)able --now)|journalctl -u) ([-\w.]+)")
def services(room, unit):
    own = unit if "." in unit else f"{unit}.service"
    assert unit == "beanstalkd" or (ROOT / "packaging" / own).is_file(), f"no unit {unit}"
    return "tests/container runs it"


@rule(r"journalctl (?:-u ([-\w.]+) )?-p warning")
def filters_the_journal(room, unit):
    assert not unit or (ROOT / "packaging" / f"{unit}.service").is_file(), f"no unit {unit}"
    return "it needs a journal; tests/runs checks the priorities"


@rule(r"(sed -i \S+ )/etc/default/(\w+)")
def changes_options(room, command, name):
    """Runs the command on a copy of the options, which it has to change. A page that goes the other way comes second."""
    copy = pathlib.Path(room.folder, f"{name}.default")
    if not copy.exists():
        shutil.copy(ROOT / "packaging" / f"{name}.default", copy)
    before = copy.read_text()
    room.ends(command + str(copy))
    assert copy.read_text() != before, f"it does not change the options of {name}"
    return "tests/container runs it"


@rule(r"ulimit -[nv]|prlimit --as=\d+")
def limits(room):
    return "it is a part of a command"


@rule(r"tools/build( --warm)?((?: \w+)*)")
def builds(room, warm, names):
    for name in names.split():
        assert (ROOT / "crates" / name / ("src" if warm else "src/main.rt")).exists(), f"no {name} to build"
    return "it proves for a quarter of an hour; what it builds was given"


@rule(r"\.ci/run")
def gate(room):
    assert os.access(ROOT / ".ci/run", os.X_OK), "it can't be run"
    return "it is the gate, which takes an hour"


@rule(r"\(cd crates/(\w+) && rt (?:run|try --seconds \d+)(?: -- (.*))?\)")
def runs_from_a_clone(room, name, words):
    assert (ROOT / "crates" / name / "src/main.rt").is_file(), f"no program {name}"
    if name == "bqd":
        serves(room, f"bqd {words}", None)
    else:
        room.ends(f"bq {words or ''}")


@rule(r"sed -u '([^']*)'(?: jobs\.txt)? \| (?:bq|\(cd crates/bq && rt run\))")
def by_sed(room, script):
    sent = b"put 5 0 10 3\nabc\nreserve\nquit\n"
    assert room.ends(f"sed -u '{script}' | bq", sent) == "INSERTED 1\r\nRESERVED 1 3\r\nabc\r\n"


@rule(r"rt run -- (.*)")
def with_words(room, words):
    room.ends(f"bq {words}")


@rule(r"rt (?:ci|doc|version|fmt|tidy|check|try|test|lemma|plant|must-fail)(?: .*)?")
def toolchain(room):
    return "it is the toolchain's"


@rule(r"(?:python3 )?((?:tools|tests)/(?:needless_answers\.py|refused_by_prover\.py|shorter_proofs\.py|caught_by_tests|speed|model|runs|memory_faults|operator|container|docs))((?: .*)?)")
def own_tools(room, script, words):
    told = subprocess.run([sys.executable, ROOT / script, "--help"], capture_output=True, text=True, timeout=PATIENCE).stdout
    for option in re.findall(r"(?<=\s)--?[a-z][-\w]*", words):
        assert re.search(rf"(?<![-\w]){option}(?![-\w])", told), f"{script} has no {option}"
    return "it takes minutes; its options were looked for"
