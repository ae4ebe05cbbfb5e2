"""Runs of the programs for operators in packaging/programs: bqctl, bqd-drain, bqd-top and bqd-web.

    python3 tests/operator --bqd PATH [--beanstalkd PATH] [--chromium PATH] [--gate] [NAME ..]

Each run goes beside bqd, or beside a server made here that gives prepared answers. With beanstalkd, what works with it
too is run beside it as well. With Chromium the page is looked at. The gate runs those that do not measure time. The last
line is 'N passed, M failed', and the status is 1 if one failed.
"""
import argparse
import functools
import os
import pathlib
import re
import sys

# Nothing is left behind beside these files.
sys.dont_write_bytecode = True
sys.path.insert(1, str(pathlib.Path(__file__).resolve().parent.parent / "runs"))

import browser_runs
import canned_runs
import ctl_runs
import dump_runs
import metrics_runs
import move_runs
import runner
import server_runs
import top_runs
import web_runs
from beanstalkd import Beanstalkd
from servers import Server

MODULES = [canned_runs, server_runs, top_runs, ctl_runs, dump_runs, move_runs, web_runs, metrics_runs, browser_runs]

# The runs of the gate: they neither wait for a moment nor measure how long something takes, nor start a program dozens of
# times.
GATE = re.compile(r"_(ctl|move)_(?!.*(interrupted|asks|bad_files|environment))|_move$|_drain_(of|by_no|priority)|_metrics_|_web_(bad|labels|history|page|paths|limits|names|forged|priorit)")


def kinds(bqd, beanstalkd, chromium):
    """Returns the arguments for the runs of each kind, by how their names begin: each run goes once with each list.

    A run beside each server gets a call that starts one, and takes the server's words.
    """
    found = {"run_": [[]], "bqd_run_": [[bqd]], "each_run_": [[functools.partial(Server, bqd)]]}
    if beanstalkd:
        found["each_run_"].append([functools.partial(Beanstalkd, os.path.abspath(beanstalkd))])
        found["both_run_"] = [[it for words in found["each_run_"] for it in words]]
    if chromium:
        found["browser_run_"] = [[bqd, chromium]]
    return found


def main():
    parser = argparse.ArgumentParser(prog="tests/operator")
    parser.add_argument("--bqd", required=True, help="the built program bqd")
    parser.add_argument("--beanstalkd", help="the program beanstalkd")
    parser.add_argument("--chromium", help="the program chromium")
    parser.add_argument("--gate", action="store_true", help="only those that the gate runs")
    runner.add_names(parser)
    words = parser.parse_args()
    runner.allow_interrupts()
    given = kinds(os.path.abspath(words.bqd), words.beanstalkd, words.chromium)
    runs = [(kind, run) for module in MODULES for kind in given for run in runner.functions(module, kind)]
    return runner.run_all([
        runner.Test(run, arguments)
        for kind, run in runs
        if runner.is_chosen(run, words.names) and (not words.gate or GATE.search(run.__name__))
        for arguments in given[kind]
    ])


if __name__ == "__main__":
    sys.exit(main())
