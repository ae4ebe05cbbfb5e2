"""Runs of bq, which serves one client over standard input and output."""
import os
import socket
import struct
import subprocess
import time

from programs import PATIENCE, Ended, ended, has_all, has_no_memory, refuses_words, same, tells_version


def run_session(bq):
    """A session of put, reserve, delete and quit."""
    sent = b"put 5 0 10 3\r\nabc\r\nreserve\r\ndelete 1\r\nquit\r\n"
    wanted = b"INSERTED 1\r\nRESERVED 1 3\r\nabc\r\nDELETED\r\n"
    same(ended(bq, sent=sent), Ended(0, wanted, b""))
    same(ended(bq, "--still", sent=sent), Ended(0, wanted, b""))


def run_end_of_input(bq):
    """At the end of the input the status is 0: after nothing, after a command, and after a part of one."""
    same(ended(bq), Ended(0, b"", b""))
    same(ended(bq, sent=b"reserve\r\n"), Ended(0, b"TIMED_OUT\r\n", b""))
    same(ended(bq, sent=b"list-tube-used\r\nlist-tube-used"), Ended(0, b"USING default\r\n", b""))


def run_read_fault(bq):
    """A failed read is reported on standard error, with status 1."""
    folder = os.open("/", os.O_RDONLY)
    same(ended(bq, stdin=folder), Ended(1, b"", b"bq: read failed\n"))
    os.close(folder)


def run_read_fault_behind_commands(bq):
    """The commands before a read fault are answered."""
    with socket.create_server(("127.0.0.1", 0)) as listener:
        client = socket.create_connection(listener.getsockname())
        server, _ = listener.accept()
    with subprocess.Popen([bq], stdin=server, stdout=subprocess.PIPE, stderr=subprocess.PIPE) as process:
        server.close()
        client.sendall(b"put 0 0 9 1\r\nx\r\nput")
        same(process.stdout.readline(), b"INSERTED 1\r\n")
        # The connection is reset instead of closed.
        client.setsockopt(socket.SOL_SOCKET, socket.SO_LINGER, struct.pack("ii", 1, 0))
        client.close()
        output, errors = process.communicate(timeout=PATIENCE)
    same(Ended(process.returncode, output, errors), Ended(1, b"", b"bq: read failed\n"))


def run_write_fault(bq):
    """A failed write is reported on standard error, with status 1."""
    wanted = Ended(1, None, b"bq: write failed\n")
    sent = b"list-tube-used\r\nlist-tube-used\r\n"
    with open("/dev/full", "wb") as full:
        same(ended(bq, sent=sent, stdout=full), wanted)
    reading, writing = os.pipe()
    os.close(reading)
    same(ended(bq, sent=sent, stdout=writing), wanted)
    os.close(writing)


def run_output_closed(bq):
    """A closed standard output is a write fault, as soon as there is something to write."""
    def close_output():
        os.close(1)
    same(ended(bq, sent=b"list-tube-used\r\n", before=close_output), Ended(1, b"", b"bq: write failed\n"))
    same(ended(bq, sent=b"quit\r\n", before=close_output), Ended(0, b"", b""))


def run_bad_options(bq):
    """Bad options end with status 2 and a message on standard error."""
    for words in [
        ["--max-job-size", "0"],
        ["--max-job-size", "1048577"],
        ["--max-job-size", "x"],
        ["--max-jobs", "0"],
        ["--max-jobs", "4294967296"],
        ["--max-job-size"],
        ["--listen", "127.0.0.1:0"],
        ["--seats", "1"],
        ["-z", "1"],
        ["-V"],
        ["--unknown"],
        ["more"],
        [b"\xff"],
    ]:
        refuses_words(bq, *words)


def run_help(bq):
    """Help goes to standard output, and lists the options with their ranges and defaults."""
    found = ended(bq, "--help")
    same((found.status, found.errors), (0, b""))
    has_all(found.output.decode(), ["bq", "--still", "--max-job-size", "1 to 1048576", "65535", "--version"])


def run_version(bq):
    """The version goes to standard output."""
    tells_version(bq, "bq")


def run_help_unwritten(bq):
    """Help that can't be written is a fault."""
    with open("/dev/full", "wb") as full:
        same(ended(bq, "--help", stdout=full), Ended(1, None, b"bq: write failed\n"))


def run_sizes(bq):
    """A body may have 65,535 bytes by default, or the chosen number: 1 to 1,048,576."""
    for words, most in [
        ([], 65535),
        (["--max-job-size", "65536"], 65536),
        (["--max-job-size", "1048576"], 1048576),
        (["--max-job-size", "101"], 101),
        (["--max-job-size", "1"], 1),
    ]:
        body = b"x" * most
        size = str(most).encode()
        more = str(most + 1).encode()
        sent = b"put 0 0 9 " + more + b"\r\n" + body + b"y\r\nput 0 0 9 " + size + b"\r\n" + body + b"\r\nreserve\r\n"
        wanted = b"JOB_TOO_BIG\r\nINSERTED 1\r\nRESERVED 1 " + size + b"\r\n" + body + b"\r\n"
        same(ended(bq, *words, sent=sent), Ended(0, wanted, b""))


def run_statistics(bq):
    """The statistics show the chosen limit on bodies, and one connection."""
    text = (
        b"---\n"
        b"current-jobs-urgent: 0\n"
        b"current-jobs-ready: 0\n"
        b"current-jobs-reserved: 0\n"
        b"current-jobs-delayed: 0\n"
        b"current-jobs-buried: 0\n"
        b"job-timeouts: 0\n"
        b"total-jobs: 0\n"
        b"max-job-size: 7\n"
        b"current-tubes: 1\n"
        b"current-connections: 1\n"
        b"current-waiting: 0\n"
        b"total-connections: 1\n"
        b"draining: false\n"
    )
    wanted = b"OK 263\r\n" + text + b"\r\n"
    same(ended(bq, "--max-job-size", "7", sent=b"stats\r\nquit\r\n"), Ended(0, wanted, b""))


def run_clock(bq):
    """A client's time passes normally, unless it is set to stand still."""
    began = [
        (lease, wanted, subprocess.Popen([bq, *words], stdin=subprocess.PIPE, stdout=subprocess.PIPE))
        for words, lease, wanted in [
            ([], 1, b"NOT_FOUND\r\n"),
            ([], 2, b"TOUCHED\r\n"),
            (["--still"], 1, b"TOUCHED\r\n"),
        ]
    ]
    answers = b"INSERTED 1\r\nRESERVED 1 1\r\nx\r\n"
    for lease, _, process in began:
        process.stdin.write(b"put 0 0 %d 1\r\nx\r\nreserve\r\n" % lease)
        process.stdin.flush()
        same(process.stdout.read(len(answers)), answers)
    # Longer than a lease of a second.
    time.sleep(1.1)
    for _, wanted, process in began:
        output, _ = process.communicate(b"touch 1\r\n", PATIENCE)
        same((process.returncode, output), (0, wanted))


def run_no_memory(bq):
    """If all allocations fail, that is reported on standard error, with status 1."""
    has_no_memory(bq, "bq")
