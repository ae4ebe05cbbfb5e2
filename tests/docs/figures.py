"""Figures that are on several pages, or on a page and in the code: each has to be the same everywhere."""
import re

from pages import ROOT

# What a figure is, and where it is: a file, and what is around the figure there. A place has to have it once or more.
FIGURES = {
    "minutes of the gate on four processors": {
        "README.md": r"\| check everything \| (\S+ to \S+) minutes",
        "CONTRIBUTING.md": r"`\.ci/run` \| (\S+ to \S+) min",
    },
    "minutes of a build": {
        "README.md": r"\| build it[^|]*\| (\S+ to \S+) minutes",
        "CONTRIBUTING.md": r"`tools/build bqd` \| (\S+ to \S+) min",
    },
    "minutes until a program listens without a proof": {
        "README.md": r"\| try it[^|]*\| (\w+) minutes",
        "CONTRIBUTING.md": r"\| (\w+) minutes until it listens",
    },
    "GB for each processor in the gate": {
        "README.md": r"\| check everything \|[^|]*\| (\d+) GB for each processor",
        "CONTRIBUTING.md": r"if there are (\d+) GB for each",
        ".ci/run": r"\$2 / (\d+)000000",
    },
    "GB of a check": {
        "README.md": r"\| build it[^|]*\|[^|]*\| (\d+) GB for each processor",
        "CONTRIBUTING.md": r"a check takes up to (\d+) GB",
        ".ci/run": r"up to (\d+) GB,",
    },
    "the most seats": {
        "README.md": r"[Aa]t most (\d+) clients at a time",
        "docs/OPERATING.md": r"and (\d+) at most",
        "docs/MOVING.md": r"above it, (\d+) at most",
        "docs/PROTOCOL.md": r"by default, (\d+) at most",
        "docs/CLIENTS.md": r"there are (\d+) at most",
        "docs/DECISIONS.md": r": (\d+) seats at most",
        "packaging/bqd.1": r"served at a time, 1 to (\d+);",
        "crates/bq_job/src/limits.rt": r"MOST_SEATS: u16 = (\d+)",
    },
    "the usual seats": {
        "README.md": r"at a time; (\d+) by default",
        "docs/OPERATING.md": r"There are (\d+) seats by default",
        "docs/PROTOCOL.md": r"seats: (\d+) by default",
        "packaging/bqd.1": r"1 to 256; the default is (\d+)",
    },
    "bytes that a job with a body of 64 bytes takes": {
        "docs/SPEED.md": r"body of 64 bytes takes (\d+) bytes",
        "docs/OPERATING.md": r"body of 64 bytes takes (\d+) bytes",
    },
    "KB of an idle connection with threads": {
        "docs/OPERATING.md": r"up to (\d+) kilobytes, once it used",
        "docs/DECISIONS.md": r"takes up to (\d+) KB, with its stack",
    },
    "seconds until keepalive begins": {
        "docs/OPERATING.md": r"sends nothing for (\d+) seconds",
        "docs/PROTOCOL.md": r"silent connection after (\d+) seconds",
        "docs/DECISIONS.md": r"inherit it: after (\d+) seconds",
        "crates/bq_cli/src/listening.rt": r"KEEP_IDLE: i32 = (\d+)",
    },
    "connections that wait for a seat": {
        "docs/OPERATING.md": r"accepts up to (\S+) further connections",
        "CHANGELOG.md": r"(\S+) connections can wait for a seat",
    },
    "commands": {
        "docs/PROTOCOL.md": r"There are (\d+) commands",
        "docs/PROOF.md": r"for all (\d+) commands",
    },
}

# The loads whose ratios README.md repeats: by the first words of their row there and in docs/SPEED.md.
LOADS = {"1 connection": "1 connection: put", "64 connections": "64", "1 connection, 50 commands at once": "1 connection that sends 50"}


def found(file, shape):
    """Returns the values of a figure at a place."""
    return set(re.findall(shape, (ROOT / file).read_text()))


def cells(file, row):
    """Returns the cells of the first row of a table whose first cell begins with this."""
    for line in (ROOT / file).read_text().splitlines():
        parts = [it.strip() for it in line.strip("|").split("|")]
        if line.startswith("|") and (parts[0] == row or (len(row) > 4 and parts[0].startswith(row))):
            return parts[1:]
    return []


def faults_of_speed():
    """Returns the ratios of README.md that are not those of docs/SPEED.md."""
    wrong = []
    for row, measured in LOADS.items():
        shown, whole = cells("README.md", row), cells("docs/SPEED.md", measured)
        if not shown or shown != whole[:len(shown)]:
            wrong.append(f"README.md: speed of {row} is {shown}, and {whole} in docs/SPEED.md")
    return wrong


def faults_of_the_picture():
    """Returns the first figure of docs/speed.svg that is not that of the table in docs/SPEED.md."""
    picture, page = ((ROOT / "docs" / it).read_text() for it in ["speed.svg", "SPEED.md"])
    drawn = re.findall(r">(\d+\.\d\d)</text>", picture)
    servers = len(re.findall(r'y="38"', picture))
    table = re.search(r"^\| speed \|.*\n\|---.*\n((?:\|.*\n)+)", page, re.M)
    rows = [[it.strip() for it in line.strip("|").split("|")][1:] for line in table[1].splitlines()] if table else []
    wanted = [it for row in rows for it in row[:servers]]
    return [] if drawn and drawn == wanted else [f"docs/speed.svg draws {drawn}, and the table of docs/SPEED.md has {wanted}"]


def faults():
    """Returns the figures that differ, or are not where they should be."""
    wrong = []
    for figure, places in FIGURES.items():
        values = {file: found(file, shape) for file, shape in places.items()}
        if len(set().union(*values.values())) != 1 or not all(values.values()):
            wrong.append(f"{figure}: {values}")
    return wrong + faults_of_speed() + faults_of_the_picture()
