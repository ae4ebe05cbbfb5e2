"""Runs of bqd-web."""
import contextlib
import json
import os
import re
import socket
import subprocess
import sys
import tempfile
import threading
import time
import types

from canned import PROGRAMS, Canned, statistics, tube, tubes
from ctl_runs import BYTES
from jobs import Teller
from journal import Journal
from programs import Ended, ended, has_all, same
from servers import Server, awaits, free_port
from web import Web

SCRIPT = b"<script>alert(1)</script><img src=x onerror=alert(2)>"

SECURE = {
    "X-Content-Type-Options": "nosniff",
    "X-Frame-Options": "DENY",
    "Referrer-Policy": "no-referrer",
    "Cache-Control": "no-store",
}


def web(*words):
    """Returns how bqd-web ends with these words."""
    return ended(sys.executable, PROGRAMS / "bqd-web", *words)


def run_web_bad_words():
    """Bad options end with status 2, and actions are rejected if other computers can reach them."""
    for bad in [
        ["127.0.0.1:1"],
        ["--listen", "127.0.0.1:65536"],
        ["--listen", "unix:web"],
        ["--listen", "unix:/" + "n" * 107],
        ["--listen", ""],
        ["--server", "::1"],
        ["--timeout", "0"],
        ["--allow"],
        ["--allow-actions", "--listen", "0.0.0.0:0"],
        ["--allow-actions", "--listen", f"0.0.0.0:{free_port()}"],
        ["--allow-actions", "--listen", f"[::]:{free_port()}"],
    ]:
        found = web(*bad)
        same((found.status, found.output), (2, b""))
        assert b"error: " in found.errors, (bad, found.errors)


def run_web_cannot_listen():
    """An address that is in use."""
    with socket.create_server(("127.0.0.1", 0)) as taken:
        port = taken.getsockname()[1]
        found = web("--listen", f"127.0.0.1:{port}")
        same((found.status, found.output), (1, b""))
        assert found.errors.startswith(f"bqd-web: cannot listen: http://127.0.0.1:{port}/: ".encode()), found.errors


def run_web_priorities():
    """Lines for systemd's journal begin with their priority, those of bad options too, and other lines don't."""
    with socket.create_server(("127.0.0.1", 0)) as taken:
        for words in (["--listen", f"127.0.0.1:{taken.getsockname()[1]}"], ["--seats", "none"]):
            command = [sys.executable, PROGRAMS / "bqd-web", *words]
            plain = subprocess.run(command, stderr=subprocess.PIPE).stderr.splitlines()
            for by, first in [(0, b"<3>"), (1, b"")]:
                with Journal() as journal:
                    subprocess.run(command, env=journal.named(by), stderr=journal.file)
                    same(journal.lines(1), [first + it for it in plain])


def bqd_run_web_priority_of_an_action(bqd):
    """An action is no error: its line has the priority of one for information."""
    with Journal() as journal, Server(bqd) as server:
        with Web(server.port, "--allow-actions", env=journal.named(), stderr=journal.file) as page:
            page.is_up()
            same(page.act("kick", {"tube": "default", "count": 1}).status, 200)
            same(journal.lines(1), [b"<6>bqd-web: 127.0.0.1: kicked 0 of default"])


def run_web_labels():
    """Labels of metrics are quoted by the rules of the format."""
    sys.path.insert(0, str(PROGRAMS))
    from queue_web.exposition import labels
    same(labels(tube='a"b\\c\nd', state="x"), '{tube="a\\"b\\\\c\\nd",state="x"}')


def run_web_history():
    """The last ten minutes: the newest point last, a gap without readings, and no tubes that have gone."""
    sys.path.insert(0, str(PROGRAMS))
    from queue_web.history import EVERY, MOST_TUBES, POINTS, SPARK_POINTS, History

    def reading(moment, **ready):
        keys = ["current-jobs-reserved", "current-jobs-delayed", "current-jobs-buried", "current-using", "current-watching",
                "current-waiting", "pause-time-left", "cmd-delete"]
        told = {name: {**dict.fromkeys(keys, 0), "current-jobs-ready": count, "total-jobs": 10 * count} for name, count in ready.items()}
        return types.SimpleNamespace(moment=moment, tubes=told)

    history = History()
    history.add(reading(0, mail=1), 0)
    history.add(reading(1, mail=9), EVERY / 2)
    history.add(reading(2, mail=3), EVERY)
    history.add(None, 2 * EVERY)
    history.add(reading(6, mail=4, post=7), 3 * EVERY)
    same(history.of("mail")["ready"][-5:], [None, 1, 3, None, 4])
    # The rate is between two readings, and there is none after a gap.
    same(history.of("mail")["put_rate"][-5:], [None, None, 10, None, None])
    same(history.of("post")["ready"][-2:], [None, 7])
    same({name: (len(it), it[-1]) for name, it in history.sparks().items()}, {"mail": (SPARK_POINTS, 4), "post": (SPARK_POINTS, 7)})
    same(len(history.of("none")["ready"]), 0)
    history.add(reading(12, mail=5), 6 * EVERY)
    same(history.of("mail")["ready"][-5:], [None, 4, 5, 5, 5])
    history.add(reading(38, mail=6), 19 * EVERY)
    same(history.of("mail")["ready"][-15:], [5, 5, *[None] * 12, 6])
    for number in range(20, POINTS + 21):
        history.add(reading(2 * number, post=1), number * EVERY)
    same((list(history.rings), history.of("post")["ready"]), (["post"], [1] * POINTS))
    history.add(reading(9000, **{f"n{number}": 1 for number in range(MOST_TUBES + 9)}), 9000 * EVERY)
    same(len(history.rings), MOST_TUBES)


def run_web_page_makes_no_markup():
    """No script of the page makes markup from text, and the page contacts no other host."""
    for name in os.listdir(PROGRAMS / "queue_web/page"):
        text = (PROGRAMS / "queue_web/page" / name).read_text()
        for it in ["innerHTML", "outerHTML", "insertAdjacent", "document.write", "eval(", "Function(", "DOMParser", "srcdoc",
                   "javascript:", "https:", "style=", "onclick=", "onload="]:
            assert it not in text, (name, it)
        same([it for it in text.split('"') if it.startswith("http")], ["http://www.w3.org/2000/svg"] * text.count("http"))


def run_web_page_contrast():
    """Each colour of text has a contrast of 4.5 to what it can be on, in both modes, and each border of a field of 3."""
    text = (PROGRAMS / "queue_web/page/page.css").read_text()

    def light(colour):
        parts = [int(colour[at: at + 2], 16) / 255 for at in (1, 3, 5)]
        parts = [it / 12.92 if it <= 0.03928 else ((it + 0.055) / 1.055) ** 2.4 for it in parts]
        return sum(weight * it for weight, it in zip((0.2126, 0.7152, 0.0722), parts))

    modes = [dict(re.findall(r"--([a-z-]+): (#[0-9a-f]{6})", it)) for it in re.findall(r":root \{(.*?)\}", text, re.S)]
    same(len(modes), 2)
    for colours in modes:
        pairs = [(it, on, 4.5) for it in ["text", "muted", "accent", "warn", "bad", "buried"] for on in ["card", "page", "hover"]]
        pairs += [("warn", "warn-back", 4.5), ("bad", "bad-back", 4.5), ("card", "accent", 4.5), ("card", "bad", 4.5), ("card", "text", 4.5)]
        pairs += [("edge", "card", 3), ("edge", "page", 3)]
        for it, on, least in pairs:
            dark, bright = sorted([light(colours[it]), light(colours[on])])
            assert (bright + 0.05) / (dark + 0.05) >= least, (it, on, (bright + 0.05) / (dark + 0.05))
    # No other colour is used for text.
    used = set(re.findall(r"(?<![-a-z])color: ([^;]+);", text))
    same(used, {"inherit", *(f"var(--{it})" for it in ["text", "muted", "accent", "warn", "bad", "buried", "card"])})


def run_web_history_of_restarts():
    """A restart is seen by a counter that fell, by a connection that was not counted, or by beanstalkd's id."""
    sys.path.insert(0, str(PROGRAMS))
    from queue_web.watcher import is_restarted

    before = {"total-jobs": 5, "job-timeouts": 2, "total-connections": 9}
    for changed, is_new, wanted in [
        ({}, False, False), ({"total-jobs": 6}, False, False), ({"total-jobs": 4}, False, True), ({"job-timeouts": 1}, False, True),
        ({"total-connections": 10}, True, False), ({}, True, True), ({"total-connections": 8}, False, True), ({"id": "a"}, False, True),
    ]:
        same((changed, is_new, is_restarted(before, {**before, **changed}, is_new)), (changed, is_new, wanted))
    same(is_restarted({**before, "id": "a"}, {**before, "id": "a"}, False), False)


def each_run_web_restart(start):
    """After a restart it is known when that was and how many jobs were gone; a server that was only away is none."""
    port = free_port()
    with Web(port, "--seats", "77") as page:
        with start(port=port) as server:
            same([page.is_up()[it] for it in ["restart", "seats"]], [None, 77])
            teller = Teller(server)
            for state in ["ready", "buried", "ready"]:
                teller.put(b"a", state=state)
            page.reads(lambda it: it["up"] and (it["ready"], it["buried"]) == (2, 1))
        page.reads(lambda it: not it["up"])
        begun = time.time()
        with start(port=port) as server:
            found = page.reads(lambda it: it["up"])
            same((found["restart"]["jobs"], begun - 1 <= found["restart"]["time"] <= time.time() + 1), (3, True))
            same({it["put_rate"] for it in found["tubes"]} <= {0, None}, True)
            Teller(server).put(b"a")
            page.reads(lambda it: it["up"] and it["ready"] == 1)
        page.reads(lambda it: not it["up"])
        with start(port=port):
            same(page.reads(lambda it: it["up"])["restart"]["jobs"], 1)


def bqd_run_web_seats(bqd):
    """The number of seats comes from the option, else from the options of the server's service."""
    with Server(bqd) as server:
        for words, options, wanted in [
            (["--seats", "7"], "--seats 256", 7), ([], "--listen 127.0.0.1:1 --seats 256 --event-loop", 256), ([], "--seats=12", 12),
            ([], "--event-loop", None), ([], "--seats 256x", None), ([], "", None),
        ]:
            with Web(server.port, *words, env={"BQD_OPTIONS": options}) as page:
                same((words, options, page.is_up()["seats"]), (words, options, wanted))
    for bad in [["--seats", "0"], ["--seats", "many"]]:
        same(web(*bad).status, 2)


def each_run_web_shows(start):
    """The page's numbers, a tube with its first jobs, and the metrics, with jobs in each state."""
    with start() as server, Web(server.port) as page:
        teller = Teller(server)
        for state, delay in [("ready", 0), ("ready", 0), ("delayed", 1000), ("buried", 0)]:
            teller.put(b"hello", delay=delay, state=state)
        teller.ask(b"pause-tube mail 600")
        found = page.reads(lambda it: it["up"] and it["buried"] == 1)
        mail = next(it for it in found["tubes"] if it["name"] == "mail")
        same([mail[it] for it in ["ready", "reserved", "delayed", "buried", "using"]], [2, 0, 1, 1, 1])
        assert 590 <= mail["pause"] <= 600, mail
        same((found["server"], found["why"], found["draining"]), (f"127.0.0.1:{server.port}", None, False))
        shown = page.json("/api/tube?name=mail")
        jobs = [(shown["first"][it]["id"], shown["first"][it]["state"], shown["first"][it]["text"]) for it in ["ready", "delayed", "buried"]]
        same(jobs, [("1", "ready", "hello"), ("3", "delayed", "hello"), ("4", "buried", "hello")])
        same({key: len(it) for key, it in shown["points"].items()},
             dict.fromkeys(["ready", "reserved", "delayed", "buried", "put_rate", "deleted_rate"], 300))
        metrics = page.metrics()
        wanted = {'bqd_jobs{tube="mail",state="ready"}': 2, 'bqd_jobs{tube="mail",state="reserved"}': 0,
                  'bqd_jobs{tube="mail",state="delayed"}': 1, 'bqd_jobs{tube="mail",state="buried"}': 1,
                  'bqd_puts_total{tube="mail"}': 4, 'bqd_deletes_total{tube="mail"}': 0, 'bqd_pauses_total{tube="mail"}': 1,
                  'bqd_server_jobs{state="ready"}': 2, "bqd_up": 1, "bqd_draining": 0, "bqd_waiting": 0, "bqd_connections": 2,
                  "bqd_server_puts_total": 4, "bqd_tubes": 2, "bqd_max_job_size_bytes": 65535}
        same({name: metrics.get(name) for name in wanted}, wanted)
        same(teller.ask(b"list-tube-used")[0], b"USING mail")


def each_run_web_of_strangers(start):
    """Bodies that try to be markup, or aren't text, become JSON text, cut at 4,096 bytes; a tube's name is unchanged.
    """
    name = b"a+b/c;d.$_()-" + b"n" * 187
    with start("-z", "1048576") as server, Web(server.port) as page:
        teller = Teller(server)
        teller.put(SCRIPT, tube=name)
        teller.put(BYTES * 1024, tube=name, delay=1000)
        teller.put("ä".encode() * 300000, tube=name, state="buried")
        page.reads(lambda it: it["up"] and it["buried"] == 1)
        quoted = name.decode().replace("+", "%2B").replace(";", "%3B").replace("/", "%2F")
        answer = page.ask(f"/api/tube?name={quoted}")
        same((answer.status, answer.headers["Content-Type"], answer.headers["X-Content-Type-Options"]), (200, "application/json", "nosniff"))
        first = json.loads(answer.body)["first"]
        same([(it["kind"], it["shown"], it["size"]) for it in first.values()],
             [("text", len(SCRIPT), len(SCRIPT)), ("hex", 4096, 1 << 20), ("text", 4096, 600000)])
        same((first["ready"]["text"], first["buried"]["text"]), (SCRIPT.decode(), "ä" * 2048))
        same(first["delayed"]["text"].splitlines()[8], "00000040  40 41 42 43 44 45 46 47  @ABCDEFG")
        for path in ["/", "/page.js"]:
            assert SCRIPT not in page.ask(path).body
        has_all(page.ask("/metrics").body, [b'bqd_jobs{tube="' + name + b'",state="ready"} 1\n'])


def each_run_web_many_tubes(start):
    """2,000 tubes of the longest names."""
    names = [f"{number:0200}" for number in range(2000)]
    with start() as server, Web(server.port) as page:
        teller = Teller(server)
        for it in names:
            teller.put(b"", tube=it.encode())
        found = page.reads(lambda it: it["up"] and len(it["tubes"]) == 2001)
        same(sorted(it["name"] for it in found["tubes"]), [*names, "default"])
        metrics = page.metrics()
        same({metrics[f'bqd_jobs{{tube="{it}",state="ready"}}'] for it in names}, {1})
        same(page.json(f"/api/tube?name={names[1999]}")["ready"], 1)
        awaits(lambda: len(page.json("/api/sparks")["tubes"]) >= 2000)


def each_run_web_is_one_connection(start):
    """However many look, bqd-web has one connection to the server, and looking creates no tube."""
    with start() as server, Web(server.port) as page:
        page.is_up()
        teller = Teller(server)
        teller.put(b"a")
        teller.ask(b"use default")
        page.reads(lambda it: len(it["tubes"]) == 2)
        threads = [threading.Thread(target=lambda: [page.json(it) for it in ["/api/state", "/api/tube?name=mail"] * 5]) for _ in range(30)]
        for it in threads:
            it.start()
        same(page.ask("/api/tube?name=none").status, 404)
        for it in threads:
            it.join()
        _, text = teller.ask(b"stats")
        has_all(text, [b"\ncurrent-connections: 2\n", b"\ncurrent-tubes: 2\n"])
        has_all(teller.ask(b"stats-tube mail")[1], [b"\ncurrent-using: 0\n"])


def each_run_web_goes_on_without_server(start):
    """A server that is missing, comes, goes away and comes back is shown correctly."""
    port = free_port()
    with Web(port) as page:
        down = page.reads(lambda it: "cannot connect" in it["why"])
        same((down["up"], down["why"], page.metrics()), (False, f"cannot connect to 127.0.0.1:{port}: Connection refused", {"bqd_up": 0}))
        same(page.ask("/api/tube?name=default").status, 503)
        for _ in range(2):
            with start(port=port):
                page.is_up()
                same(page.metrics()["bqd_up"], 1)
            page.reads(lambda it: not it["up"])
            same(page.metrics(), {"bqd_up": 0})
    same(page.errors, b"")


def run_web_of_silent_server():
    """A server that gives no answer is down, and the page is served meanwhile."""
    with Canned(statistics(), tubes("a"), tube("a"), stays=True) as server:
        with Web(server.address.split(":")[1], "--timeout", "0.5") as page:
            page.reads(lambda it: "gave no answer within 0.5 seconds" in (it["why"] or ""))
            same(page.ask("/").status, 200)


def run_web_of_odd_server():
    """Names that are invalid are a fault of the server, and never reach the page."""
    with Canned(statistics(), tubes("<b>x</b>"), stays=True) as server:
        with Web(server.address.split(":")[1]) as page:
            page.reads(lambda it: "answered list-tubes by no list of tubes" in (it["why"] or ""))


def bqd_run_web_paths(bqd):
    """Only the page and its requests are served: no path of the file system, and nothing can be written."""
    with Server(bqd) as server, Web(server.port) as page:
        page.is_up()
        for path, kind in [("/", "text/html"), ("/page.css", "text/css"), ("/page.js", "text/javascript"), ("/charts.js", "text/javascript"),
                           ("/icon.svg", "image/svg+xml"), ("/api/state", "application/json"), ("/api/sparks", "application/json"),
                           ("/metrics", "text/plain")]:
            found = page.ask(path)
            same((found.status, found.headers["Content-Type"].split(";")[0]), (200, kind))
            same({it: found.headers[it] for it in SECURE}, SECURE)
            has_all(found.headers["Content-Security-Policy"], ["default-src 'none'", "script-src 'self'", "frame-ancestors 'none'"])
            head = page.ask(path, "HEAD")
            same((head.status, head.body), (200, b""))
            same(page.ask(path, "POST").status, 405)
            same(page.ask(path, "DELETE").status, 405)
        for path in ["/page.html", "/../bqd-web", "/..%2f..%2fetc/passwd", "/%2e%2e/", "//etc/passwd", "/etc/passwd", "/api", "/queue_web",
                     "/page.js/", "/api/tube/../../x", "/api/kick", "/api/delete", "/api/pause", "/api/unpause",
                     "/api/kick-job", "/api/clear"]:
            found = page.ask(path, "POST" if path.startswith("/api/") else "GET")
            same((path, found.status, found.body), (path, 404, b"there is nothing here\n"))
            same({it: found.headers[it] for it in SECURE}, SECURE)
        assert b'content=""' in page.ask("/").body


def bqd_run_web_limits(bqd):
    """Requests that are too large or malformed are rejected, and the connection is then closed."""
    with Server(bqd) as server, Web(server.port) as page:
        own = b"Host: 127.0.0.1\r\n"
        for data, status in [
            (b"GET / HTTP/1.1\r\n" + own + b"X: " + b"x" * 9000 + b"\r\n\r\n", 431),
            (b"GET /" + b"x" * 9000, 431),
            (b"POST / HTTP/1.1\r\n" + own + b"Content-Length: 4097\r\n\r\n", 413),
            (b"POST / HTTP/1.1\r\n" + own + b"Content-Length: 99999999999999999999\r\n\r\n", 400),
            (b"POST / HTTP/1.1\r\n" + own + b"Content-Length: -1\r\n\r\n", 400),
            (b"POST / HTTP/1.1\r\n" + own + b"Content-Length: 1\r\nContent-Length: 2\r\n\r\n", 400),
            (b"POST / HTTP/1.1\r\n" + own + b"Transfer-Encoding: chunked\r\n\r\n", 501),
            (b"GET / HTTP/1.1\r\n" + own + own + b"\r\n", 400),
            (b"GET / HTTP/1.1\r\nHost : 127.0.0.1\r\n\r\n", 400),
            (b"GET / HTTP/1.1\r\n\xff: x\r\n\r\n", 400),
            (b"GET / HTTP/2.0\r\n" + own + b"\r\n", 400),
            (b"stats\r\n\r\n", 400),
            (b"GET http://127.0.0.1/ HTTP/1.1\r\n" + own + b"\r\n", 400),
            (b"GET /api/tube?name HTTP/1.1\r\n" + own + b"\r\n", 400),
            (b"GET / HTTP/1.1\r\n\r\n", 421),
            (b"GET / HTTP/1.0\r\n" + own + b"\r\n", 200),
        ]:
            with socket.create_connection(("127.0.0.1", page.port), 10) as stream, contextlib.suppress(ConnectionResetError):
                stream.sendall(data)
                told = stream.makefile("rb").readline()
                same((data[:60], told[:12]), (data[:60], b"HTTP/1.1 %d" % status))
        with socket.create_connection(("127.0.0.1", page.port), 10) as stream:
            stream.sendall((b"HEAD / HTTP/1.1\r\n" + own + b"\r\n") * 3)
            read = stream.makefile("rb")
            for _ in range(3):
                same(read.readline(), b"HTTP/1.1 200 OK\r\n")
                while read.readline() != b"\r\n":
                    pass


def bqd_run_web_slow_clients(bqd):
    """100 clients that send slowly, 100 that send nothing and 100 that read nothing do not keep others out."""
    with Server(bqd) as server, Web(server.port) as page, contextlib.ExitStack() as clients:
        page.is_up()
        for number in range(300):
            stream = clients.enter_context(socket.create_connection(("127.0.0.1", page.port), 10))
            if number % 3 == 0:
                stream.sendall(b"GET / HTTP/1.1\r\nHost: 127.0")
            elif number % 3 == 1:
                with contextlib.suppress(OSError):
                    stream.sendall(b"GET /page.js HTTP/1.1\r\nHost: 127.0.0.1\r\n\r\n" * 100)
        begun = time.monotonic()
        for path in ["/", "/api/state", "/metrics"] * 5:
            same(page.ask(path).status, 200)
        assert time.monotonic() - begun < 5, time.monotonic() - begun
    same(page.errors, b"")


def bqd_run_web_names(bqd):
    """Another site whose name resolves to this address reads nothing but metrics, unless the name is configured."""
    with Server(bqd) as server, Web(server.port, "--host", "queue.example") as page:
        page.is_up()
        for host, status in [("evil.example", 421), ("evil.example:11380", 421), ("127.0.0.1.evil.example", 421), ("", 421), ("a b", 421),
                             ("queue.example", 200), ("QUEUE.example:80", 200), ("localhost:1", 200), ("[::1]:11380", 200), ("10.0.0.7", 200)]:
            for path in ["/", "/api/state"]:
                same((host, page.ask(path, host=host).status), (host, status))
            same(page.ask("/metrics", host=host).status, 200)


def each_run_web_actions(start):
    """The effects of the page's actions; a job that is shown is deleted only in the state in which it was shown."""
    with start() as server, Web(server.port, "--allow-actions") as page:
        teller = Teller(server)
        for _ in range(3):
            teller.put(b"a", state="buried")
        page.reads(lambda it: it["up"] and it["buried"] == 3)
        for what, asked, status, told in [
            ("kick", {"tube": "mail", "count": 2}, 200, {"done": "kicked 2 of mail"}),
            ("pause", {"tube": "mail", "seconds": 600}, 200, {"done": "paused mail for 600 seconds"}),
            ("unpause", {"tube": "mail"}, 200, {"done": "mail is not paused any more"}),
            ("delete", {"tube": "mail", "id": "3"}, 200, {"done": "deleted job 3 of mail"}),
            ("delete", {"tube": "mail", "id": "3"}, 409, {"failed": "job 3 is not in mail any more, or a worker has it"}),
            ("delete", {"tube": "post", "id": "1"}, 409, {"failed": "job 1 is not in post any more, or a worker has it"}),
            ("kick", {"tube": "none", "count": 1}, 409, {"failed": "there is no tube none any more"}),
            ("pause", {"tube": "none", "seconds": 1}, 409, {"failed": "there is no tube none any more"}),
            ("unpause", {"tube": "none"}, 409, {"failed": "there is no tube none any more"}),
        ]:
            found = page.act(what, asked)
            same((found.status, json.loads(found.body)), (status, told))
        same([it[1] for it in teller.jobs().values()], ["ready", "ready"])
        for what, asked, status, told in [
            ("kick-job", {"tube": "mail", "id": "1"}, 409, {"failed": "job 1 of mail is not buried or delayed any more"}),
            ("clear", {"tube": "mail", "state": "buried", "count": 9}, 200, {"done": "deleted 0 buried jobs of mail", "count": 0}),
            ("clear", {"tube": "none", "state": "ready", "count": 9}, 409, {"failed": "there is no tube none any more"}),
        ]:
            found = page.act(what, asked)
            same((found.status, json.loads(found.body)), (status, told))
        for what, asked in [("kick", {"tube": "mail"}), ("kick", {"tube": "mail", "count": 0}), ("kick", {"tube": "mail", "count": 1001}),
                            ("kick", {"tube": "mail", "count": True}), ("kick", {"tube": "a b", "count": 1}), ("kick", {"tube": 5, "count": 1}),
                            ("kick", {"tube": "mail\r\ndelete 1", "count": 1}), ("pause", {"tube": "mail", "seconds": 0}), ("unpause", {}),
                            ("kick-job", {"tube": "mail", "id": 1}), ("kick-job", {"tube": "mail"}), ("clear", {"tube": "mail", "count": 1}),
                            ("clear", {"tube": "mail", "state": "reserved", "count": 1}), ("clear", {"tube": "mail", "state": "ready", "count": 1001}),
                            ("clear", {"tube": "mail", "state": ["ready"], "count": 1}), ("delete", {"tube": "mail", "id": "one"}), ("delete", {"tube": "mail", "id": None}), ("kick", []), ("kick", 7)]:
            same((asked, page.act(what, asked).status), (asked, 400))
        for body in [b"", b"{", b"[" * 4000, b"\xff"]:
            found = page.ask("/api/kick", "POST", body, content_type="application/json", origin=f"http://127.0.0.1:{page.port}", x_bqd_token=page.token())
            same((body[:9], found.status), (body[:9], 400))
        same(len(teller.jobs()), 2)
    # One line for each action that was carried out or failed, and none for those that were malformed.
    told = ["kicked 2 of mail", "paused mail for 600 seconds", "mail is not paused any more", "deleted job 3 of mail",
            "delete failed: job 3 is not in mail any more, or a worker has it", "delete failed: job 1 is not in post any more, or a worker has it",
            "kick failed: there is no tube none any more", "pause failed: there is no tube none any more",
            "unpause failed: there is no tube none any more", "kick-job failed: job 1 of mail is not buried or delayed any more",
            "deleted 0 buried jobs of mail", "clear failed: there is no tube none any more"]
    same(page.errors.decode().splitlines(), [f"bqd-web: 127.0.0.1: {it}" for it in told])


def each_run_web_buried(start):
    """Buried jobs are listed, some ids at a time, kicked by their ids, and deleted by state, up to the number asked for."""
    with start() as server, Web(server.port, "--allow-actions") as page:
        teller = Teller(server)
        # The first one to be buried has not the smallest id.
        late = teller.put(b"late")
        for number in range(2100):
            teller.put(b"x", state="buried" if number in (3, 4, 2050) else "ready")
        teller.put(b"y", tube=b"post", state="buried")
        same([teller.ask(b"reserve-job %d" % late)[0][:8], teller.ask(b"bury %d 0" % late)[0]], [b"RESERVED", b"BURIED"])
        page.reads(lambda it: it["up"] and it["buried"] == 5)

        def found(words):
            answer = page.json(f"/api/buried?name=mail{words}")
            return [it["id"] for it in answer["jobs"]], answer["first"], answer["next"]

        same(found(""), (["5", "6"], "5", "2005"))
        same(found("&from=2005"), (["2052"], "2005", None))
        same(found("&from=1&until=4"), (["1"], "1", None))
        same(found("&from=1&until=0"), ([], "1", None))
        job, = page.json("/api/buried?name=mail&from=1&until=1")["jobs"]
        same([job[it] for it in ["id", "state", "text", "kind", "size"]], ["1", "buried", "late", "text", 4])
        same(page.json("/api/buried?name=mail&from=9")["count"], 4)
        for words, status in [("name=none", 404), ("name=mail&from=x", 400), ("name=mail&from=-1", 400), ("name=mail&until=1e9", 400), ("", 404)]:
            same((words, page.ask(f"/api/buried?{words}").status), (words, status))
        same(json.loads(page.act("kick-job", {"tube": "mail", "id": "6"}).body), {"done": "kicked job 6 of mail"})
        same(page.act("kick-job", {"tube": "post", "id": "5"}).status, 409)
        same((teller.job(5)[1], teller.job(6)[1]), ("buried", "ready"))
        same(json.loads(page.act("clear", {"tube": "mail", "state": "buried", "count": 2}).body), {"done": "deleted 2 buried jobs of mail", "count": 2})
        same(json.loads(page.act("clear", {"tube": "mail", "state": "buried", "count": 2}).body), {"done": "deleted 1 buried job of mail", "count": 1})
        same(json.loads(page.act("clear", {"tube": "mail", "state": "ready", "count": 1000}).body)["count"], 1000)
        page.reads(lambda it: it["up"] and (it["ready"], it["buried"]) == (1098, 1))


def bqd_run_web_forged_actions(bqd):
    """An action that does not come from the page with its token is rejected, and changes nothing."""
    with Server(bqd) as server, Web(server.port, "--allow-actions") as page:
        teller = Teller(server)
        teller.put(b"a")
        page.reads(lambda it: it["up"] and it["ready"] == 1)
        assert len(page.token()) >= 40
        wanted = {"tube": "mail", "id": "1"}
        for changed, status in [
            ({"x_bqd_token": None}, 403),
            ({"x_bqd_token": ""}, 403),
            ({"x_bqd_token": "a" * 43}, 403),
            ({"origin": None}, 403),
            ({"origin": "null"}, 403),
            ({"origin": "https://evil.example"}, 403),
            ({"origin": f"http://127.0.0.1:{page.port + 1}"}, 403),
            ({"sec_fetch_site": "cross-site"}, 403),
            ({"sec_fetch_site": "same-site"}, 403),
            ({"content_type": "text/plain"}, 415),
            ({"content_type": None}, 415),
            ({"host": "evil.example", "origin": "http://evil.example"}, 421),
        ]:
            for what, more in [("delete", {}), ("kick-job", {}), ("clear", {"state": "ready", "count": 1})]:
                same((what, changed, page.act(what, {**wanted, **more}, **changed).status), (what, changed, status))
        same(page.ask("/api/delete").status, 404)
        same(len(teller.jobs()), 1)
        same(page.act("delete", wanted, sec_fetch_site="same-origin").status, 200)
        same(len(teller.jobs()), 0)


def bqd_run_web_unix_socket(bqd):
    """A Unix socket, which is taken over only from a process that has ended."""
    with Server(bqd) as server, tempfile.TemporaryDirectory() as room:
        path = os.path.join(room, "web")
        for _ in range(2):
            with Web(server.port, "--allow-actions", listen=f"unix:{path}") as page:
                same(page.told, f"listening unix:{path}\n".encode())
                with socket.socket(socket.AF_UNIX, socket.SOCK_STREAM) as stream:
                    stream.connect(path)
                    stream.sendall(b"GET / HTTP/1.1\r\nHost: queue.example\r\n\r\n")
                    same(stream.makefile("rb").readline(), b"HTTP/1.1 200 OK\r\n")
                found = web("--listen", f"unix:{path}")
                same(found, Ended(1, b"", f"bqd-web: cannot listen: unix:{path}: Address already in use\n".encode()))
                page.process.kill()
                page.process.wait(10)
        with Web(server.port, listen=f"unix:{path}"):
            pass
        same(os.listdir(room), [])
