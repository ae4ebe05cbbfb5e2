"""Random sessions of one client: `bq --still` writes exactly the bytes that the model answers."""
import random

from . import programs, report, shrink
from .commands import STILL, Chooser
from .machine import PLAIN
from .reader import requests_of

SEAT = 0
SHRINK_SECONDS = 40


def answers_to(rules, settings, text):
    """Returns the answers to a whole input and its number of requests; None if the session would wait for ever."""
    machine, out, asked = rules(settings), [], 0
    machine.step(0, SEAT, "connect")
    requests, rest = requests_of(text, settings.max_job_size)
    for place, request in enumerate(requests):
        asked += 1
        out += machine.step(0, SEAT, "ask", request)
        if machine.seats[SEAT].is_waiting():
            if rest or place + 1 < len(requests):
                return None
            out += machine.step(0, SEAT, "end")
    return b"".join(answer for _, answer in out), asked


def made_session(seed, rules, settings):
    """Returns the texts of a random session, chosen to fit the model."""
    chance = random.Random(seed)
    chooser, machine, texts, kept = Chooser(chance, STILL), rules(settings), [], b""
    machine.step(0, SEAT, "connect")
    for _ in range(chance.choice((5, 30, 80, 150))):
        text = chooser.text(machine, SEAT)
        requests, behind = requests_of(kept + text, settings.max_job_size)
        trial, waits_at = machine.copy(), None
        for place, request in enumerate(requests):
            if waits_at is None:
                trial.step(0, SEAT, "ask", request)
                waits_at = place if trial.seats[SEAT].is_waiting() else None
        if waits_at is not None:
            # It can only be the last request, with nothing after it.
            if not behind and waits_at + 1 == len(requests) and chance.random() < 0.2:
                return texts + [text]
            continue
        machine, kept = trial, behind
        texts.append(text)
        if requests and requests[-1].command == b"quit":
            return texts + [chooser.text(machine, SEAT)]
    return texts


def made_settings(seed, known):
    """Returns the settings of a session, among those that the program supports."""
    chance = random.Random("settings %s" % seed)
    size = chance.choice((1, 2, 9, 200, 65535, 65535, 65535, 5000, 1048576 if chance.random() < 0.1 else 100))
    jobs = chance.choice((None, 1, 2, 5, 20)) if "--max-jobs" in known else None
    return PLAIN._replace(max_job_size=size, max_jobs=jobs)


def difference(program, rules, settings, pieces, seconds=programs.PATIENCE):
    """Returns how the program and the rules differ on an input in pieces, or None."""
    expected = answers_to(rules, settings, b"".join(pieces))
    if expected is None:
        return None
    ran = programs.run_session(program, settings, pieces, seconds)
    if ran.status is None:
        return "it didn't end within %d seconds; it had written %s" % (seconds, report.told(ran.out))
    if ran.out != expected[0]:
        return report.apart(expected[0], ran.out)
    if ran.status != 0 or ran.complaint:
        return "status %d, and on standard error %s" % (ran.status, report.told(ran.complaint))
    return None


def one_session(program, known, rules, seed, will_shrink):
    """Runs one session, as a whole and in pieces. It returns its number of requests, and what differed."""
    settings = made_settings(seed, known)
    texts = made_session(seed, rules, settings)
    whole = b"".join(texts)
    cut = Chooser(random.Random("cuts %s" % seed), STILL).cuts(whole) if whole else [b""]
    expected = answers_to(rules, settings, whole)
    for pieces in ([whole], cut):
        told = difference(program, rules, settings, pieces, programs.PATIENCE if will_shrink else 2)
        if told:
            if will_shrink:
                texts = shrink.shrunk(texts, lambda fewer: difference(program, rules, settings, fewer, 2), SHRINK_SECONDS)
                told = difference(program, rules, settings, texts) or told
            return 0, "session %s, options %s, differs %s\n    input: %r" % (
                seed, " ".join(programs.words_for(settings)), told, texts)
    return expected[1], None


def in_turn(number):
    """Returns the commands for the tube with this number: its only job is put, gets into a state, is looked at, and is
    deleted two tubes later."""
    tube, body = b"t%d" % number, b"%d" % number
    delay = 100 if number % 4 == 1 else 0
    lines = [b"use " + tube, b"put %d %d 60 %d\r\n%s" % (number % 7, delay, len(body), body), b"watch " + tube]
    lines += [b"reserve-with-timeout 0"] * (number % 4 >= 2) + [b"bury %d 3" % number] * (number % 4 == 3)
    lines += [b"peek-ready", b"peek-delayed", b"peek-buried", b"stats-job %d" % number, b"ignore " + tube]
    lines += [b"delete %d" % (number - 2), b"stats-tube t%d" % (number - 2)] * (number > 2)
    return b"".join(line + b"\r\n" for line in lines + [b"list-tubes"] * (number % 500 == 0))


def tubes_in_turn(program, rules, many):
    """Runs a session in which many tubes come and go, each with a job: none is seen in another's tube."""
    texts = [in_turn(number) for number in range(1, many + 1)]
    told = difference(program, rules, PLAIN, [b"".join(texts)], 4 * programs.PATIENCE)
    if told:
        return report.failed("tubes in turn", 0, "%d tubes, differs %s" % (many, told))
    return report.passed("tubes in turn", 1, sum(text.count(b"\r\n") - 1 for text in texts))


def batch(program, known, rules, seed, many, will_shrink=True):
    """Runs some sessions, up to the first that differs."""
    commands = 0
    for place in range(many):
        asked, told = one_session(program, known, rules, "%s/%d" % (seed, place), will_shrink)
        if told:
            return report.Report("sessions", place, 1, 0, commands, told)
        commands += 2 * asked
    return report.passed("sessions", many, commands)
