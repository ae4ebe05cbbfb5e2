"""What is run, in how many processes, and what is reported."""
import concurrent.futures
import multiprocessing
import time

from . import beside, lockstep, programs, sessions, soak, worked
from .broken import BROKEN
from .machine import Machine

# A round: batches of sessions, runs of 8, of 60 and of 100 clients, runs of clients side by side, and soaks, with their
# sizes; and how many tubes come and go in one session.
BATCHES, SESSIONS = 40, 40
EIGHT, EIGHT_ACTIONS = 24, 300
SIXTY, SIXTY_ACTIONS = 6, 500
HUNDRED, HUNDRED_ACTIONS = 2, 600
BESIDE, BESIDE_CLIENTS = 3, 64
SOAKS, SOAK_SECONDS = 2, 10
TUBES = 10_000
WAITING, COMPUTING = 13, 3  # how many runs that mostly wait for moments go side by side, and how many of the other calls
LATE_TRIES = 4  # for runs that couldn't be judged, after all others: a computer is slow for a minute, not for ever


def pool():
    """Returns a pool of processes. Most of them wait, so there are more than processors."""
    return concurrent.futures.ProcessPoolExecutor(WAITING + COMPUTING, mp_context=multiprocessing.get_context("fork"))


def round_of(bq, bqds, known, rules, seed, one_in=1):
    """Returns the calls of a round, or one in so many of each kind, those of bqd with each of its engines. They are in
    groups, which go side by side: some of calls that compute, then each run that waits, the longest first."""
    def some(many):
        return range(-(-many // one_in))

    computing = [(sessions.tubes_in_turn, bq, rules, TUBES // one_in)]
    computing += [(soak.soak, bqd, "%s/soak/%d" % (seed, at), SOAK_SECONDS) for at in some(SOAKS) for bqd in bqds]
    computing += [(beside.beside, bqd, rules, "%s/beside/%d" % (seed, at), BESIDE_CLIENTS) for at in some(BESIDE) for bqd in bqds]
    computing += [(sessions.batch, bq, known["bq"], rules, "%s/sessions/%d" % (seed, at), SESSIONS) for at in some(BATCHES)]
    waiting = []
    for clients, actions, many, kind in [(100, HUNDRED_ACTIONS, HUNDRED, "hundred"), (60, SIXTY_ACTIONS, SIXTY, "sixty"), (8, EIGHT_ACTIONS, EIGHT, "eight")]:
        waiting += [(lockstep.lockstep, bqd, known["bqd"], rules, "%s/%s/%d" % (seed, kind, at), clients, actions) for at in some(many) for bqd in bqds]
    return [computing[at::COMPUTING] for at in range(COMPUTING)] + [[it] for it in waiting]


def is_unjudged(report):
    return report.passed + report.failed == 0


def in_turn(calls):
    """Makes calls one after another."""
    return [call(*given) for call, *given in calls]


def made(processes, groups, keep):
    """Makes these groups of calls. Keeps their reports, except those of runs that couldn't be judged, which it returns
    with their calls."""
    started = {processes.submit(in_turn, it): it for it in groups}
    left = []
    for ended in concurrent.futures.as_completed(started):
        for call, report in zip(started[ended], ended.result()):
            if is_unjudged(report):
                left.append((call, report))
            else:
                keep(report)
    return left


def made_with_patience(processes, groups, keep):
    """Makes these groups of calls, and repeats the runs that couldn't be judged."""
    left = made(processes, groups, keep)
    for _ in range(LATE_TRIES):
        if left:
            left = made(processes, [[call] for call, _ in left], keep)
    for _, report in left:
        keep(report)


def options_known(bq, bqd):
    return {"bq": programs.options_of(bq), "bqd": programs.options_of(bqd)}


def whole_run(bq, bqds, seed, minutes, rules, one_in=1):
    """Runs rounds, or a part of each, until the minutes are over, at least one. Prints all reports as they come, and
    returns them."""
    begun, known, reports = time.monotonic(), options_known(bq, bqds[0]), []

    def keep(it):
        reports.append(it)
        if it.failed:
            print("%s: FAILED, %s" % (it.name, it.note), flush=True)

    keep(worked.rules_alone(rules))
    keep(worked.program_too(bq, known["bq"]))
    with pool() as processes:
        number = 0
        while number == 0 or time.monotonic() - begun < 60 * minutes:
            round_seed = str(seed) if number == 0 else "%s.%d" % (seed, number)
            made_with_patience(processes, round_of(bq, bqds, known, rules, round_seed, one_in), keep)
            number += 1
    return reports


def summed(reports):
    """Returns a line for each kind of report."""
    lines = []
    for name in dict.fromkeys(it.name for it in reports):
        some = [it for it in reports if it.name == name]
        passed, failed, unjudged, commands = (sum(getattr(it, key) for it in some) for key in ("passed", "failed", "unjudged", "commands"))
        notes = [it.note for it in some if it.note and not it.failed] + (["%d made again" % unjudged] if unjudged else [])
        noted = " (%s)" % "; ".join(notes) if notes else ""
        lines.append("%s: %d passed, %d failed, %d commands%s" % (name, passed, failed, commands, noted))
    return lines


def finds(bq, bqd, known, name, seed):
    """Returns where a broken model is found to differ, and after how many seconds, or None."""
    rules, begun = BROKEN[name], time.monotonic()
    found = sessions.batch(bq, known["bq"], rules, "%s/%s" % (seed, name), 30, will_shrink=False)
    for at in range(12):
        if found.failed or time.monotonic() - begun > 80:
            break
        clients, many = ((8, EIGHT_ACTIONS), (60, SIXTY_ACTIONS))[at % 4 == 3]
        found = lockstep.lockstep(bqd, known["bqd"], rules, "%s/%s/%d" % (seed, name, at), clients, many, will_shrink=False)
    return (found.name, time.monotonic() - begun, found.note.split("\n")[0]) if found.failed else None


def self_check(bq, bqd, seed):
    """Checks that each broken model is found. Returns how many were found and how many weren't."""
    known, passed, failed = options_known(bq, bqd), 0, 0
    with pool() as processes:
        calls = {name: processes.submit(finds, bq, bqd, known, name, seed) for name in BROKEN}
        for name, call in calls.items():
            found = call.result()
            passed, failed = passed + (found is not None), failed + (found is None)
            print("%s: %s" % (name, "NOT FOUND" if found is None else "found by %s after %.1f s" % found[:2]), flush=True)
    return passed, failed


def counts(reports):
    """Returns how many parts passed and how many failed. If most runs couldn't be judged, that counts as a failure."""
    passed, failed = sum(it.passed for it in reports), sum(it.failed for it in reports)
    runs = [it for it in reports if it.name.endswith("clients")]
    empty = [it for it in runs if is_unjudged(it)]
    return passed, failed + (2 * len(empty) > len(runs))


RULES = {None: Machine, **BROKEN}
