"""Refuses each allocation of the built programs in turn, and checks what they do.

    python3 tests/memory_faults --bq PATH --bqd PATH --library PATH [--engine NAME] [--minutes M] [--self-check]

A small library (refuse.c) is loaded before libc's own, and answers the Nth request of the program for memory with NULL.
Each case is run for N = 1, 2, .. until a run ends in which no request was refused. What the program did has to be one of
the outcomes that the rules allow. Runs are bounded in number and in time, and servers listen on loopback only. With
--self-check programs that are broken on purpose (broken.py) are swept instead, and each has to be found. The last line is
'N passed, M failed', and the status is 1 if one failed.
"""
import argparse
import pathlib
import subprocess
import sys
import tempfile
import time

HERE = pathlib.Path(__file__).resolve().parent
sys.path.insert(0, str(HERE.parent / "model"))
sys.path.insert(0, str(HERE))

from queue_model import engines  # noqa: E402
from refusal import Host, Program  # noqa: E402
import broken  # noqa: E402
import library_cases  # noqa: E402
import server_cases  # noqa: E402
import session_cases  # noqa: E402


def library(folder):
    """Builds the library that refuses memory. Returns its path."""
    made = f"{folder}/librefuse.so"
    subprocess.run(["cc", "-O2", "-shared", "-fPIC", "-o", made, HERE / "refuse.c", "-ldl"], check=True)
    return made


def broken_cases(bq, library_calls, folder):
    """Yields a case for each broken program, which passes if the sweep finds the bug."""
    for name, (turn, always) in broken.SESSIONS.items():
        cases = dict(session_cases.cases(broken.Broken(bq, turn, always)))
        yield name, lambda it=cases["bq: put"]: found(it)
    for name, turn in broken.LIBRARY.items():
        cases = dict(library_cases.cases(broken.Broken(library_calls, turn), None))
        yield name, lambda it=cases["library: calls"]: found(it)
    cases = dict(server_cases.cases(broken.early_server(bq.host, folder)))
    yield "doors_opened_before_the_last_request", lambda: found(cases["bqd: start"])


def found(case):
    """Runs a case, which has to fail."""
    runs, wrong = case()
    return runs, None if wrong else "the sweep lets it through"


def main():
    parser = argparse.ArgumentParser(prog="tests/memory_faults", description=__doc__, formatter_class=argparse.RawDescriptionHelpFormatter)
    parser.add_argument("--bq", required=True)
    parser.add_argument("--bqd", required=True)
    parser.add_argument("--library", required=True, help="the test program of bq_serve_tests")
    engines.add_choice(parser)
    parser.add_argument("--minutes", type=float, default=10, help="begin no further case after this many minutes")
    parser.add_argument("--self-check", action="store_true", help="sweep programs that are broken on purpose")
    asked = parser.parse_args()
    begun, passed, failed = time.monotonic(), 0, 0
    with tempfile.TemporaryDirectory(prefix="refuse-") as folder:
        host = Host(library(folder), folder)
        bq = Program(asked.bq, host)
        bqds = [Program(asked.bqd, host, *it.words) for it in engines.engines_of(asked.bqd, asked.engine)]
        library_calls, held = (Program(asked.library, host, it) for it in (library_cases.TEST, library_cases.HELD))
        cases = [*session_cases.cases(bq), *library_cases.cases(library_calls, held)]
        cases += [case for bqd in bqds for case in server_cases.cases(bqd)]
        if asked.self_check:
            cases = broken_cases(bq, library_calls, folder)
        for name, case in cases:
            if time.monotonic() - begun > 60 * asked.minutes:
                print(f"{name}: not begun, time is up")
                failed += 1
                continue
            runs, wrong = case()
            print(f"{name}: {runs} runs, {wrong or 'well'}", flush=True)
            passed, failed = passed + (not wrong), failed + bool(wrong)
    print(f"{passed} passed, {failed} failed")
    return 1 if failed else 0


if __name__ == "__main__":
    sys.exit(main())
