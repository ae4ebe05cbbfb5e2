"""Installs the package in a Debian container that boots systemd, and does there what the pages say.

    python3 tests/container --bq PATH --bqd PATH [--root FOLDER] [--keep]

It needs root, Debian's debootstrap, systemd-container, dpkg-dev and binutils, and the network. It makes a folder with
Debian 12 (--root keeps such a folder, for the next time), builds the package of these programs, and boots a copy of the
folder with a network of its own. In it inside.py goes step by step; what was done is printed. The commands of the pages
that tests/docs leaves to a container with systemd have to be those that inside.py runs.

Run it by hand, and before a release; packaging/README.md says when it last ran. It takes two minutes, and three more to
make the folder, which takes 300 MB. The last line is 'N passed, M failed', and the status is 1 if one failed.
"""
import argparse
import os
import pathlib
import shutil
import subprocess
import sys
import tempfile

# Nothing is left behind beside these files.
sys.dont_write_bytecode = True
ROOT = pathlib.Path(__file__).resolve().parent.parent.parent
sys.path[1:1] = [str(ROOT / "tests/docs"), str(ROOT / "tests/runs")]

import commands

RELEASE = "bookworm"

# What is in the container besides a minimal system.
PACKAGES = ["systemd", "systemd-sysv", "dbus", "python3", "beanstalkd", "needrestart", "netcat-openbsd", "curl", "procps"]

# A unit that goes through the steps when the container has started, and ends it.
UNIT = """[Unit]
Description=Tests of the package
After=multi-user.target

[Service]
Type=oneshot
ExecStart=/bin/sh -c 'exec python3 -B /srv/clone/tests/container/inside.py > /srv/out/log 2>&1'
ExecStopPost=/bin/systemctl --no-block poweroff

[Install]
WantedBy=multi-user.target
"""

# How long the container may take, in seconds.
LONGEST = 900


def run(*words, **more):
    subprocess.run(words, check=True, **more)


def system_at(folder):
    """Makes a folder with Debian, unless it is there."""
    if not (folder / "etc/debian_version").exists():
        run("debootstrap", "--variant=minbase", f"--include={','.join(PACKAGES)}", RELEASE, folder, stdout=subprocess.DEVNULL)
        for it in (folder / "var/cache/apt/archives").glob("*.deb"):
            it.unlink()


def package_of(bq, bqd, folder):
    """Builds the package of these programs in a folder."""
    room = commands.Room(bq, bqd)
    try:
        quick = {**os.environ, **commands.QUICK_PACKAGE}
        run("packaging/deb.sh", folder, cwd=room.folder, stdout=subprocess.DEVNULL, env=quick)
    finally:
        room.close()


def boot(system, out):
    """Boots the container, and waits until it has ended."""
    unit = system / "etc/systemd/system/tried.service"
    unit.write_text(UNIT)
    wanted = system / "etc/systemd/system/multi-user.target.wants"
    wanted.mkdir(parents=True, exist_ok=True)
    (wanted / "tried.service").symlink_to("/etc/systemd/system/tried.service")
    with open(out / "console", "wb") as console:
        subprocess.run(
            ["systemd-nspawn", "--quiet", "--register=no", "--keep-unit", "--private-network", "--console=pipe", "-b", "-D", system,
             f"--bind-ro={ROOT}:/srv/clone", f"--bind={out}:/srv/out"],
            stdin=subprocess.DEVNULL, stdout=console, stderr=console, timeout=LONGEST,
        )


def main():
    parser = argparse.ArgumentParser(prog="tests/container")
    parser.add_argument("--bq", required=True, help="the built program bq")
    parser.add_argument("--bqd", required=True, help="the built program bqd")
    parser.add_argument("--root", type=pathlib.Path, help="a folder with Debian, which is made if it is not there")
    parser.add_argument("--keep", action="store_true", help="leave the container's folder, and say where it is")
    words = parser.parse_args()
    if os.geteuid():
        parser.error("it needs root")
    room = pathlib.Path(tempfile.mkdtemp(prefix="container-"))
    system, out = room / "system", room / "out"
    out.mkdir()
    try:
        package_of(os.path.abspath(words.bq), os.path.abspath(words.bqd), out)
        if words.root:
            system_at(words.root)
            run("cp", "-a", "--reflink=auto", words.root, system)
        else:
            system_at(system)
        boot(system, out)
        log = (out / "log").read_text() if (out / "log").exists() else (out / "console").read_text(errors="replace")
    finally:
        if words.keep:
            print(f"its folder is {room}")
        else:
            shutil.rmtree(room)
    print(log, end="")
    return 0 if log.endswith(" 0 failed\n") else 1


if __name__ == "__main__":
    sys.exit(main())
