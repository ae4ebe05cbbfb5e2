#!/usr/bin/env python3
"""Compares the built programs with the rules of the queue, which are written here a second time.

    python3 tests/model --bq PATH --bqd PATH [--engine NAME] [--seed N] [--minutes M] [--one-in N]

It runs worked sessions, random sessions of `bq`, many clients of `bqd` one command at a time, many side by side, and
clients that are cut off; those of `bqd` with each of its engines. The last line is 'N passed, M failed', and the status
is 0 if nothing failed. With --broken NAME one rule is changed, and the run has to fail; --self-check tries all of
these.
"""
import argparse
import sys

sys.dont_write_bytecode = True

from queue_model import engines, plan, programs  # noqa: E402


def parsed(words):
    parser = argparse.ArgumentParser(prog="tests/model", description="Holds bq and bqd to a second writing of the rules.")
    parser.add_argument("--bq", required=True, metavar="PATH", help="the built program bq")
    parser.add_argument("--bqd", required=True, metavar="PATH", help="the built program bqd")
    engines.add_choice(parser)
    parser.add_argument("--seed", type=int, default=1, metavar="N", help="what the random input begins with; 1 unless given")
    parser.add_argument("--minutes", type=float, default=0, metavar="M", help="goes on with further rounds for so long; one round unless given")
    parser.add_argument("--one-in", type=int, default=1, metavar="N", help="makes one in N of a round's runs alone")
    parser.add_argument("--broken", choices=sorted(plan.BROKEN), help="turns one rule")
    parser.add_argument("--self-check", action="store_true", help="tries that each turned rule is found, and nothing else")
    return parser.parse_args(words)


def main():
    options = parsed(sys.argv[1:])
    bq, bqd = programs.found_program(options.bq), programs.found_program(options.bqd)
    if options.self_check:
        passed, failed = plan.self_check(bq, engines.Engine(bqd), options.seed)
    else:
        bqds = engines.engines_of(bqd, options.engine)
        reports = plan.whole_run(bq, bqds, options.seed, options.minutes, plan.RULES[options.broken], options.one_in)
        print("\n".join(plan.summed(reports)))
        passed, failed = plan.counts(reports)
    print("%d passed, %d failed" % (passed, failed))
    return 1 if failed else 0


if __name__ == "__main__":
    sys.exit(main())
