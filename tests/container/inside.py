"""The steps that go in the container, as root of a system with systemd, beanstalkd and no package of ours yet.

Each step goes on from what the one before it left. Commands of the pages are run as they are written there.
"""
import glob
import os
import pathlib
import re
import socket
import subprocess
import sys
import time
import traceback

sys.path[1:1] = ["/srv/clone/tests/docs", "/srv/clone/tests/runs"]

import commands
from programs import same
from servers import Client, value

# The folder with the package.
OUT = pathlib.Path("/srv/out")
OPTIONS = pathlib.Path("/etc/default/bqd")
PIPE = pathlib.Path("/run/bqd.control")

# The port in the pages, and that of a second server.
PORT, OTHER = 11300, 11301

# The commands of the pages that were run.
RUN = set()


def sh(command, status=0, sent=b"y\n"):
    """Returns the output of a command that ends with this status, or with any but 0 if it is None."""
    environment = {**os.environ, "NEEDRESTART_SUSPEND": "1", "DEBIAN_FRONTEND": "noninteractive", "LC_ALL": "C", "SYSTEMD_PAGER": "cat"}
    found = subprocess.run(["bash", "-c", command], cwd=OUT, input=sent, stdout=subprocess.PIPE, stderr=subprocess.STDOUT,
                           env=environment, timeout=120)
    told = found.stdout.decode(errors="replace")
    if found.returncode != status if status is not None else not found.returncode:
        raise AssertionError(f"{command!r} ended with {found.returncode}: {told}")
    return told


def awaits(is_so):
    """Waits until something is true, at most half a minute."""
    for _ in range(100):
        if is_so():
            return
        time.sleep(0.3)
    raise AssertionError("it never came about")


def page(command, **more):
    """Does the same with a command that a page shows."""
    RUN.add(command)
    return sh(command, **more)


def state(unit):
    return subprocess.run(["systemctl", "is-active", unit], capture_output=True, text=True).stdout.strip()


def process():
    """Returns the server's process."""
    return int(sh("systemctl show --property=MainPID --value bqd"))


def lines_logged():
    """Returns how many lines the journal has of the server's unit."""
    return len(sh("journalctl --no-pager -q --unit=bqd").splitlines())


def at(port):
    """Returns a client of the server at that port, which listens now."""
    socket.create_connection(("127.0.0.1", port), 5).close()
    return Client(port)


def put(port, body=b"a"):
    """Puts a job, and returns its id."""
    client = at(port)
    client.sends(b"put 0 0 60 %d\r\n%b\r\n" % (len(body), body))
    told = client.stream.makefile("rb").readline().split()
    client.close()
    same(told[0], b"INSERTED")
    return int(told[1])


def jobs_at(port):
    """Returns how many ready jobs there are."""
    client = at(port)
    try:
        return value(client, b"current-jobs-ready")
    finally:
        client.close()


def work(port):
    """Reserves and deletes each ready job."""
    client = at(port)
    lines = client.stream.makefile("rb")
    while True:
        client.sends(b"reserve-with-timeout 0\r\n")
        told = lines.readline().split()
        if told[0] != b"RESERVED":
            break
        lines.read(int(told[2]) + 2)
        client.asks(b"delete %d\r\n" % int(told[1]), b"")
        same(lines.readline(), b"DELETED\r\n")
    client.close()


def options(text):
    OPTIONS.write_text(f'BQD_OPTIONS="{text}"\n')


def step_installed_beside_beanstalkd():
    """Beside beanstalkd, which has the port, the package enables the service, does not start it and says so."""
    same(state("beanstalkd"), "active")
    told = page("apt install ./bqd_*.deb")
    assert "it was not started" in told and "Address already in use" in told, told
    same((state("bqd"), sh("systemctl is-enabled bqd").strip(), PIPE.exists()), ("inactive", "enabled", False))
    logged = lines_logged()
    sh("systemctl stop beanstalkd")
    time.sleep(2)
    sh("systemctl start beanstalkd")
    time.sleep(1)
    same((state("beanstalkd"), state("bqd"), lines_logged()), ("active", "inactive", logged))


def step_start_that_fails():
    """Starting the service fails while another server has the port, and it starts by itself once the port is free."""
    sh("systemctl start bqd", status=None)
    sh("systemctl stop beanstalkd")
    awaits(lambda: state("bqd") == "active")
    put(PORT)
    sh("systemctl stop bqd")
    sh("systemctl start beanstalkd")


def step_another_port():
    """With another port the service starts, and listens as soon as the start has succeeded."""
    page("sed -i s/:11300/:11301/ /etc/default/bqd")
    page("systemctl start bqd")
    put(OTHER)
    work(OTHER)


def step_jobs_move():
    """Delayed and buried jobs move from beanstalkd, and the commands of the move work."""
    client = at(PORT)
    client.asks(b"put 0 100 60 1\r\na\r\nput 0 0 60 1\r\nb\r\n", b"INSERTED 1\r\nINSERTED 2\r\n")
    client.asks(b"reserve-job 2\r\nbury 2 0\r\n", b"RESERVED 2 1\r\nb\r\nBURIED\r\n")
    client.close()
    page("bqctl tubes")
    page("bqctl move default --to 127.0.0.1:11301 --state delayed,buried --dry-run")
    page("bqctl move default --to 127.0.0.1:11301 --state delayed,buried")
    found = at(OTHER)
    same([value(found, key) for key in [b"current-jobs-delayed", b"current-jobs-buried"]], [1, 1])
    found.close()


def step_drain_of_the_wrong_server():
    """With beanstalkd at the default port, bqd-drain without an address drains nothing."""
    told = sh("bqd-drain", status=1)
    assert "127.0.0.1:11300 is beanstalkd" in told, told
    put(OTHER)


def step_way_back():
    """All jobs go back to beanstalkd, and the service is switched off."""
    before = process()
    put(OTHER)
    page("bqctl --server 127.0.0.1:11301 move default --to 127.0.0.1:11300")
    client = at(PORT)
    same([value(client, b"current-jobs-" + it) for it in [b"ready", b"delayed", b"buried"]], [2, 1, 1])
    client.close()
    page("systemctl disable --now bqd")
    same((state("bqd"), state("bqd.socket"), subprocess.run(["systemctl", "is-enabled", "-q", "bqd"]).returncode), ("inactive", "inactive", 1))
    sh("systemctl enable --now bqd")
    assert process() != before


def step_port_of_beanstalkd():
    """beanstalkd goes, and the drained server comes back at its port."""
    put(OTHER)
    work(OTHER)
    page("systemctl disable --now beanstalkd")
    page("bqd-drain 127.0.0.1:11301")
    page("sed -i s/:11301/:11300/ /etc/default/bqd")
    page("systemctl restart bqd")
    put(PORT)


def step_ignored_signals():
    """Signals that other servers take for a drain or a reload change nothing, and the jobs stay."""
    before, jobs = process(), jobs_at(PORT)
    for it in ["HUP", "USR1", "USR2"]:
        sh(f"systemctl kill --signal={it} bqd")
    time.sleep(2)
    same((process(), jobs_at(PORT)), (before, jobs))
    assert jobs, "there is no job that could be lost"


def step_signals_that_end_it():
    """After other signals the service comes back by itself."""
    for it in ["INT", "TERM", "KILL", "ABRT"]:
        before = process()
        sh(f"systemctl kill --signal={it} bqd")
        awaits(lambda: state("bqd") == "active" and process() not in (0, before))
        put(PORT)


def step_pipe_that_is_not_stopped():
    """The control line can't be stopped by itself, and the server goes on."""
    before, jobs = process(), jobs_at(PORT)
    told = page("systemctl stop bqd.socket", status=None)
    assert "Operation refused" in told, told
    same((process(), jobs_at(PORT), state("bqd"), PIPE.is_fifo()), (before, jobs, "active", True))


def step_pipe_that_is_lost():
    """If the pipe's unit goes nevertheless, the server goes on, and is drained through its process."""
    drop = pathlib.Path("/run/systemd/system/bqd.socket.d")
    drop.mkdir(parents=True)
    (drop / "manual.conf").write_text("[Unit]\nRefuseManualStop=no\n")
    sh("systemctl daemon-reload && systemctl stop bqd.socket")
    (drop / "manual.conf").unlink()
    drop.rmdir()
    sh("systemctl daemon-reload")
    same((state("bqd"), PIPE.exists()), ("active", False))
    work(PORT)
    same(sh(f"bqd-drain --control /proc/{process()}/fd/0"), "drained\n")
    sh("systemctl restart bqd")
    same((state("bqd.socket"), PIPE.is_fifo()), ("active", True))


def step_bad_options():
    """Bad options are not tried again, and a start reports them."""
    good = OPTIONS.read_text()
    sh("systemctl stop bqd")
    options("--seats 0 --listen 127.0.0.1:11300")
    sh("systemctl start bqd", status=None)
    time.sleep(2)
    same((state("bqd"), sh("systemctl show --property=NRestarts --value bqd").strip()), ("failed", "0"))
    OPTIONS.write_text(good)
    sh("systemctl start bqd")


def step_service():
    """What the pages say of the service."""
    put(PORT)
    assert "active (running)" in page("systemctl status bqd")
    assert re.search(r" bqd\[\d+\]: listening 127\.0\.0\.1:11300$", page("journalctl -u bqd"), re.M)
    page("systemctl reload bqd", status=None)
    assert jobs_at(PORT)
    page("systemctl enable --now bqd-web")
    awaits(lambda: "bqd_up 1" in sh("curl --silent --retry 9 --retry-connrefused http://127.0.0.1:11380/metrics"))
    same(sh("printf 'list-tube-used\\r\\nquit\\r\\n' | nc -C 127.0.0.1 11300"), "USING default\r\n")
    page("systemctl stop bqd")
    same((state("bqd"), PIPE.exists()), ("inactive", False))
    sh("systemctl start bqd")


def step_upgrade():
    """A package is installed beside the running server, which keeps its jobs, and is drained and restarted later."""
    put(PORT)
    before = process()
    sh("apt install --reinstall ./bqd_*.deb")
    same((process(), jobs_at(PORT)), (before, 1))
    work(PORT)
    told = page("bqd-drain && systemctl restart bqd")
    assert "drained\n" in told and process() != before, told
    put(PORT)


def step_drain():
    """It drains to the end and stops, as root of the container."""
    work(PORT)
    page("bqd-drain --limit 600 && systemctl stop bqd")
    same(state("bqd"), "inactive")
    sh("systemctl start bqd")
    page("echo drain > /run/bqd.control")
    awaits(lambda: "bqd: draining" in sh("journalctl -u bqd -n 1"))
    sh("systemctl restart bqd")


def step_needrestart():
    """needrestart restarts services whose C library was replaced, and not the server."""
    library, = glob.glob("/lib/*/libc.so.6")
    sh(f"cp -a {library} {library}.new && mv {library}.new {library}")
    before, web = process(), sh("systemctl show --property=MainPID --value bqd-web")
    sh("env -u NEEDRESTART_SUSPEND needrestart -r a")
    same(process(), before)
    assert sh("systemctl show --property=MainPID --value bqd-web") != web, "needrestart restarted nothing"


def step_removal():
    """It is removed while it serves, and purged, and nothing is left."""
    put(PORT)
    page("apt remove bqd")
    same((state("bqd"), state("bqd.socket"), PIPE.exists(), OPTIONS.exists()), ("inactive", "inactive", False, True))
    page("apt purge bqd")
    left = sh("find / -xdev -path /proc -prune -o -path /srv -prune -o -name '*bqd*' -print | grep -v -e ^/sys -e ^/var/log -e ^/run/log -e '^/var/cache' || true")
    same(left, "")


def step_installed_alone():
    """Without another server at the port, the package starts the service at once."""
    told = sh("apt install ./bqd_*.deb")
    assert "not started" not in told, told
    put(PORT)


def step_commands_of_pages():
    """The commands that tests/docs leaves to this container are those that were run."""
    same({it for it in commands.shown() if commands.is_for_a_machine(it)} - RUN, set())


def main():
    passed, failed = 0, 0
    # systemd may still be starting beanstalkd.
    awaits(lambda: state("beanstalkd") == "active")
    for name, step in [(name, it) for name, it in globals().items() if name.startswith("step_")]:
        begun = time.monotonic()
        try:
            step()
            passed += 1
            print(f"{name[5:]}: passed, {time.monotonic() - begun:.1f} s", flush=True)
        except Exception:
            failed += 1
            print(f"FAILED {name[5:]}: {step.__doc__}\n{traceback.format_exc()}", flush=True)
    print(f"{passed} passed, {failed} failed", flush=True)


main()
