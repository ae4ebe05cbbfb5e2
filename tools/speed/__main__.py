"""Compares the speed of bqd with that of beanstalkd.

    tools/speed --bqd PATH [--beanstalkd PATH] [--engine NAME] [--rounds N] [--time MS] [--only a,b]
    tools/speed --page LABEL=FILE .. [--plot FILE]

Each round starts beanstalkd, bqd (with each of its engines) and the floor anew, one after the other, on loopback, and
puts the same load on each (load.c). The floor (floor.c) is a server on one thread with next to no queue: it shows what
the system costs. Both are built with cc. The output is a table of ratios for each, to beanstalkd: the median over the
rounds with its quartiles. --engine measures only one engine. --save FILE keeps every round as a line of a table, after a
line about the computer. --pin LIST binds servers and load to these processors.

--page prints the tables of docs/SPEED.md and the rows of README.md from such files, a group of columns for each. --plot
FILE draws the medians of the first.

--count counts instructions instead, with valgrind (count.py).
"""
import argparse
import datetime
import os
import pathlib
import platform
import re
import socket
import statistics
import subprocess
import sys
import tempfile
import time

import count

HERE = pathlib.Path(__file__).resolve().parent
MOST_BYTES = 1048576

# The engines of bqd, and the options that select each.
ENGINES = {"threads": [], "event-loop": ["--event-loop"]}

# What is compared with beanstalkd: how tables call it, and its colour.
COMPARED = {"threads": ("threads", "#4c78a8"), "event-loop": ("event loop", "#2a7f62"), "floor": ("floor", "#b8b8b8")}

# The name of a scenario, the words for load.c, and a description.
SCENARIOS = [
    ("one", ("pairs", 1), "1 connection: put, reserve, delete, each after the last was answered"),
    ("four", ("pairs", 4), "4 such connections, each with its own tube"),
    ("sixteen", ("pairs", 16), "16"),
    ("sixty-four", ("pairs", 64), "64"),
    ("ahead", ("ahead", 1), "1 connection that sends 50 commands at once"),
    ("ahead-16", ("ahead", 16), "16 such connections"),
    ("shared", ("fan", 16), "one tube, 16 clients that put and 16 that reserve and delete"),
    ("large", ("large", 1), "bodies of 60,000 bytes"),
    ("deep", ("deep", 100000), "reserve, delete and put among 100,000 jobs"),
    ("idle", ("idle", 250), "50 commands at once while 250 workers wait"),
    ("tubes", ("tubes", 2000), "use and put over 2,000 tubes"),
    ("hand-off", ("handoff", 1), "a put to a waiting worker: until it has the job"),
]

# What the picture calls a load, if that is shorter.
LABELS = {"one": "1 connection", "four": "4 connections", "sixteen": "16 connections", "sixty-four": "64 connections",
          "ahead": "50 commands at once, 1 connection", "ahead-16": "50 commands at once, 16 connections",
          "shared": "16 producers, 16 workers, one tube",
          "idle": "50 commands at once, 250 workers wait", "deep": "among 100,000 jobs", "hand-off": "a put to a waiting worker: speed"}

# The loads whose times are shown, and those that README.md has.
LATENCIES = ["one", "sixty-four", "ahead", "large", "hand-off"]
README = {"one": "1 connection", "sixty-four": "64 connections", "ahead": "1 connection, 50 commands at once"}


def free_port():
    with socket.socket() as s:
        s.bind(("127.0.0.1", 0))
        return s.getsockname()[1]


class Server:
    """A running server, with the processor time that it took."""

    def __init__(self, words, port, pin):
        words = (["taskset", "-c", pin] if pin else []) + words
        self.process = subprocess.Popen(words, stdin=subprocess.PIPE, stdout=subprocess.DEVNULL, stderr=subprocess.DEVNULL)
        for _ in range(200):
            try:
                socket.create_connection(("127.0.0.1", port), 1).close()
                return
            except OSError:
                time.sleep(0.02)
        self.stop()
        sys.exit(f"speed: {words[0]} doesn't listen")

    def processor_seconds(self):
        fields = pathlib.Path(f"/proc/{self.process.pid}/stat").read_text().rsplit(")", 1)[1].split()
        return (int(fields[11]) + int(fields[12])) / os.sysconf("SC_CLK_TCK")

    def stop(self):
        self.process.kill()
        self.process.wait()


def measured(load, words_of, told, span, pin):
    """Returns operations per second, processor time per operation, and three percentiles of a batch's time."""
    port = free_port()
    server = Server(words_of(port), port, pin)
    try:
        pinned = ["taskset", "-c", pin] if pin else []
        begun = server.processor_seconds()
        ran = subprocess.run(pinned + [load, "127.0.0.1", str(port), told[0], str(told[1]), str(span)], capture_output=True, text=True)
        if ran.returncode:
            sys.exit(f"speed: {told[0]}: {ran.stderr.strip()}")
        many, seconds, *times = (float(it) for it in ran.stdout.split())
        return many / seconds, (server.processor_seconds() - begun) / max(many, 1), *times
    finally:
        server.stop()


def servers_of(chosen, floor=None):
    """Returns the servers to measure, each with what gives the words that start it at a port."""
    servers = {"beanstalkd": lambda port: [chosen.beanstalkd, "-l", "127.0.0.1", "-p", str(port), "-z", str(MOST_BYTES)]}
    for engine, words in ENGINES.items():
        if chosen.engine in (None, engine):
            servers[engine] = lambda port, words=words: [chosen.bqd, "--listen", f"127.0.0.1:{port}", "--seats", "256", "-z", str(MOST_BYTES), *words]
    if floor:
        servers["floor"] = lambda port: [floor, str(port)]
    return servers


def machine(chosen):
    """Returns a line about what is measured, and where."""
    model = re.search(r"^model name\s*: (.*)$", pathlib.Path("/proc/cpuinfo").read_text(), re.M)
    commit = subprocess.run(["git", "rev-parse", "--short", "HEAD"], cwd=HERE, capture_output=True, text=True).stdout.strip()
    version = subprocess.run([chosen.bqd, "--version"], capture_output=True, text=True).stdout.strip()
    other = subprocess.run([chosen.beanstalkd, "-v"], capture_output=True, text=True).stdout.strip()
    where = f"{model[1] if model else platform.machine()}, {os.cpu_count()} processors, Linux {platform.release()}"
    pinned = f", bound to {chosen.pin}" if chosen.pin else ""
    versions = f"commit {commit or 'unknown'}, {version}, {other}"
    return f"{datetime.date.today()}, {versions}; {where}{pinned}; {chosen.rounds} rounds of {chosen.time} ms"


def measure(chosen, save):
    rows = []
    with tempfile.TemporaryDirectory() as folder:
        load, floor = os.path.join(folder, "load"), os.path.join(folder, "floor")
        for program in (load, floor):
            source = HERE / f"{os.path.basename(program)}.c"
            subprocess.run(["cc", "-O2", "-D_GNU_SOURCE", "-o", program, str(source)], check=True)
        servers = servers_of(chosen, floor)
        for name, told, _ in SCENARIOS:
            if chosen.only and name not in chosen.only.split(","):
                continue
            for number in range(chosen.rounds):
                # Each server is the first one in turn.
                first = number % len(servers)
                for server in [*servers][first:] + [*servers][:first]:
                    rows.append((name, number, server, *measured(load, servers[server], told, chosen.time, chosen.pin)))
                    save(rows[-1])
    return rows


def ratios(rows, name, field, server):
    """Returns the ratio of a server's value to beanstalkd's, round by round."""
    ours = {row[1]: row[field] for row in rows if row[0] == name and row[2] == server}
    theirs = {row[1]: row[field] for row in rows if row[0] == name and row[2] == "beanstalkd"}
    return sorted(ours[it] / theirs[it] for it in ours if theirs.get(it))


def speeds(rows, name, server):
    """Returns how much faster a server is, round by round: above 1 it is ahead of beanstalkd."""
    # The number of operations of a hand-off is determined by the load, so its median time counts.
    return sorted(1 / it for it in ratios(rows, name, 5, server)) if name == "hand-off" else ratios(rows, name, 3, server)


def compared(rows):
    """Returns the servers that have rows, besides beanstalkd."""
    return [it for it in COMPARED if any(row[2] == it for row in rows)]


def table(rows, server):
    heading = "speed (quartiles) | processor time an operation | time of a batch, median | 99th percentile | 99.9th"
    lines = [f"| {server} | {heading} |", "|---|---|---|---|---|---|"]
    for name, _, words in SCENARIOS:
        speed, columns = speeds(rows, name, server), [ratios(rows, name, field, server) for field in (4, 5, 6, 7)]
        if not speed:
            continue
        low, high = speed[len(speed) // 4], speed[len(speed) * 3 // 4]
        middle = [f"{statistics.median(it):.2f}" if it else "" for it in columns]
        lines.append(f"| {words} | {statistics.median(speed):.2f} ({low:.2f} to {high:.2f}) | {' | '.join(middle)} |")
    return "\n".join(lines)


def median_of(rows, name, server, field):
    """Returns the median of a value itself, or None."""
    values = [row[field] for row in rows if row[0] == name and row[2] == server]
    return statistics.median(values) if values else None


def shown(value, digits=2):
    return "" if value is None else f"{value:,.{digits}f}"


def wide_table(runs, value, title):
    """Returns a table with a row for each load, and for each run a column for each server."""
    columns = [(label, rows, server) for label, rows in runs for server in compared(rows)]
    names = [f"{label}: {COMPARED[server][0]}" if not at or columns[at - 1][0] != label else COMPARED[server][0]
             for at, (label, _, server) in enumerate(columns)]
    lines = [f"| {title} | {' | '.join(names)} |", "|---" * (len(columns) + 1) + "|"]
    for name, _, words in SCENARIOS:
        cells = [value(rows, name, server) for _, rows, server in columns]
        if any(cells):
            lines.append(f"| {words} | {' | '.join(cells)} |")
    return "\n".join(lines)


def middle(values):
    return shown(statistics.median(values)) if values else ""


def absolute(rows, name):
    """Returns two cells: how many commands beanstalkd answers in a second, and its processor time for each."""
    many, seconds = (median_of(rows, name, "beanstalkd", field) for field in (3, 4))
    return f"{shown(many, 0)} | {shown(seconds * 1e6, 1) if seconds else ''}"


def page(runs, notes):
    """Prints the tables of docs/SPEED.md and the rows of README.md: `runs` has a label and the rows of each."""
    print("\n".join(f"- {label}: {note}" for (label, _), note in zip(runs, notes)), "\n")
    print(wide_table(runs, lambda rows, name, server: middle(speeds(rows, name, server)), "speed"), "\n")
    print(wide_table(runs, lambda rows, name, server: middle(ratios(rows, name, 4, server)), "processor time"), "\n")
    headings = [f"{label}: commands a second | microseconds of a processor each" for label, _ in runs]
    print(f"| beanstalkd itself | {' | '.join(headings)} |\n" + "|---" * (2 * len(runs) + 1) + "|")
    for name, _, words in SCENARIOS:
        print(f"| {words} | {' | '.join(absolute(rows, name) for _, rows in runs)} |")
    label, rows = runs[0]
    print(f"\n| microseconds until a batch is answered, {label} | server | median | 99th percentile | 99.9th |\n|---|---|---|---|---|")
    for name, _, words in SCENARIOS:
        for server in ["beanstalkd", *compared(rows)]:
            times = [median_of(rows, name, server, field) for field in (5, 6, 7)]
            if times[0] is not None and name in LATENCIES:
                print(f"| {words} | {COMPARED.get(server, [server])[0]} | {' | '.join(shown(it, 0) for it in times)} |")
    print("\nREADME.md:")
    for name, words in README.items():
        print(f"| {words} | {' | '.join(middle(speeds(rows, name, it)) for it in ENGINES)} |")


def plot(label, rows, note):
    """Draws a bar for each server and load, from 0 on one scale: beyond 1, which is beanstalkd, a server is faster."""
    servers = compared(rows)
    loads = [(name, LABELS.get(name, words)) for name, _, words in SCENARIOS if speeds(rows, name, servers[0])]
    values = {(name, it): statistics.median(speeds(rows, name, it)) for name, _ in loads for it in servers if speeds(rows, name, it)}
    bar, gap, left, top, room = 11, 12, 290, 74, 560
    most = max(2, *values.values())
    scale, height = room / most, len(servers) * bar + gap
    whole = top + len(loads) * height
    size = f'width="{left + room + 60}" height="{whole + 66}"'
    title = f"Commands answered in a second, compared with beanstalkd 1.12 ({label})"
    out = [f'<svg xmlns="http://www.w3.org/2000/svg" {size} font-family="sans-serif" font-size="12">',
           '<rect width="100%" height="100%" fill="white"/>',
           f'<text x="16" y="24" font-size="15" font-weight="bold">{title}</text>']
    for at, it in enumerate(servers):
        name, colour = COMPARED[it]
        told = {"floor": "floor: one thread, next to no queue"}.get(it, f"bqd, {name}")
        out.append(f'<rect x="{16 + at * 150}" y="38" width="12" height="12" fill="{colour}"/>')
        out.append(f'<text x="{34 + at * 150}" y="48">{told}</text>')
    for step in range(int(most) + 1):
        x = left + step * scale
        out.append(f'<line x1="{x:.0f}" y1="{top - 8}" x2="{x:.0f}" y2="{whole}" stroke="{"#444" if step == 1 else "#ddd"}"/>')
        out.append(f'<text x="{x:.0f}" y="{whole + 16}" text-anchor="middle">{step}</text>')
    out.append(f'<text x="{left + scale:.0f}" y="{whole + 32}" text-anchor="middle">beanstalkd</text>')
    for row, (name, words) in enumerate(loads):
        y = top + row * height
        out.append(f'<text x="{left - 10}" y="{y + len(servers) * bar / 2 + 4:.0f}" text-anchor="end">{words}</text>')
        for at, it in enumerate(servers):
            if (name, it) in values:
                width = values[name, it] * scale
                place, around = f'x="{left + width + 4:.0f}" y="{y + at * bar + 9}"', 'stroke="white" stroke-width="3" paint-order="stroke"'
                out.append(f'<rect x="{left}" y="{y + at * bar}" width="{width:.0f}" height="{bar - 1}" fill="{COMPARED[it][1]}"/>')
                out.append(f'<text {place} font-size="10" {around}>{values[name, it]:.2f}</text>')
    words = note.split("; ")[0] + "; a waiting worker: how much sooner it has its job"
    out.append(f'<text x="16" y="{whole + 54}" font-size="10" fill="#555">{words}</text></svg>')
    return "\n".join(out) + "\n"


def read_rows(path):
    """Returns the line about the computer, and the rows."""
    lines = pathlib.Path(path).read_text().splitlines()
    note = lines[0][2:] if lines and lines[0].startswith("# ") else ""
    cells = [it.split("\t") for it in lines if not it.startswith("#")]
    return note, [(it[0], int(it[1]), it[2], *(float(x) for x in it[3:])) for it in cells]


def main():
    words = argparse.ArgumentParser(prog="tools/speed", description=__doc__, formatter_class=argparse.RawDescriptionHelpFormatter)
    words.add_argument("--bqd", default="crates/bqd/out/bqd")
    words.add_argument("--beanstalkd", default="beanstalkd")
    words.add_argument("--engine", choices=sorted(ENGINES))
    words.add_argument("--rounds", type=int, default=7)
    words.add_argument("--time", type=int, default=700, metavar="MS")
    words.add_argument("--only", metavar="NAMES")
    words.add_argument("--pin", metavar="LIST")
    words.add_argument("--save", metavar="FILE")
    words.add_argument("--page", nargs="+", metavar="LABEL=FILE")
    words.add_argument("--plot", metavar="FILE")
    words.add_argument("--count", action="store_true", help="count instructions with valgrind")
    chosen = words.parse_args()
    if chosen.count:
        count.table(servers_of(chosen), free_port)
        return
    if chosen.page:
        labels = [it.split("=", 1)[0] for it in chosen.page]
        notes, tables = zip(*(read_rows(it.split("=", 1)[1]) for it in chosen.page))
        page(list(zip(labels, tables)), notes)
        if chosen.plot:
            pathlib.Path(chosen.plot).write_text(plot(labels[0], tables[0], notes[0]))
        return
    note = machine(chosen)
    kept = open(chosen.save, "w") if chosen.save else None
    if kept:
        print("#", note, file=kept, flush=True)
    rows = measure(chosen, lambda row: kept and print(*row, sep="\t", file=kept, flush=True))
    print(note, *(table(rows, it) for it in compared(rows)), sep="\n\n")
    if chosen.plot:
        pathlib.Path(chosen.plot).write_text(plot("this machine", rows, note))


main()
