"""Runs of the built programs bq and bqd, from their words to their streams and statuses.

    python3 tests/runs --bq PATH --bqd PATH [--engine threads|event-loop] [--lanes N] [NAME ..]

A NAME is a part of a run's name, or a whole name that begins with run_. The name run_by_hand means those that the gate
leaves out for their time.

Every text and number that is expected here comes from the documents: README.md, docs/OPERATING.md and docs/PROTOCOL.md.
The last line is 'N passed, M failed', and the status is 1 if a run failed.
"""
import argparse
import os
import pathlib
import sys

# Nothing is left behind beside these files.
sys.dont_write_bytecode = True
sys.path.insert(0, str(pathlib.Path(__file__).resolve().parent.parent / "model"))

import answers_runs
import bq_runs
import bqd_runs
import crowd_runs
import fault_runs
import lost_runs
import memory_runs
import notices_runs
import preloaded
import rest_runs
import runner
import started_runs
import waiting_runs
from queue_model import engines

# How many runs go side by side unless chosen: most of them wait most of the time.
LANES = 2

OF_BQD = [bqd_runs, answers_runs, crowd_runs, fault_runs, lost_runs, memory_runs, notices_runs, rest_runs, started_runs, waiting_runs]


def all_tests(bq, bqd, engine):
    """Yields all runs as tests: those of bqd by each engine that they are meant for, or by this one only."""
    for run in runner.functions(bq_runs, "run_"):
        yield runner.Test(run, [bq], "bq")
    for program in engines.engines_of(bqd, engine):
        for module in OF_BQD:
            for run in runner.functions(module, "run_"):
                if program.name in getattr(run, "engines", engines.ENGINES):
                    yield runner.Test(run, [program], program.name)


def main():
    parser = argparse.ArgumentParser(prog="tests/runs")
    parser.add_argument("--bq", required=True, help="the built program bq")
    parser.add_argument("--bqd", required=True, help="the built program bqd")
    engines.add_choice(parser)
    parser.add_argument("--lanes", type=int, default=LANES, help="how many runs side by side")
    runner.add_names(parser)
    words = parser.parse_args()
    tests = all_tests(os.path.abspath(words.bq), os.path.abspath(words.bqd), words.engine)
    # Built here, since all lanes use them; their folders are removed when this process ends.
    for name in ("faults", "held"):
        preloaded.library(name)
    return runner.run_all([it for it in tests if runner.is_chosen(it.run, words.names)], words.lanes)


if __name__ == "__main__":
    sys.exit(main())
