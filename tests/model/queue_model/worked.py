"""Worked sessions and steps with their answers, found by hand. `~` is CR LF, and `^` is LF."""
from . import programs, report
from .machine import PLAIN, Machine
from .reader import requests_of
from .sessions import answers_to


def spelled(text):
    return text.replace(b"~", b"\r\n").replace(b"^", b"\n")


FRESH_TUBE = (b"---^name: default^current-jobs-urgent: 0^current-jobs-ready: 0^current-jobs-reserved: 0^current-jobs-delayed: 0^"
              b"current-jobs-buried: 0^total-jobs: 0^current-using: 1^current-watching: 1^current-waiting: 0^cmd-delete: 0^"
              b"cmd-pause-tube: 0^pause: 0^pause-time-left: 0^")
FRESH_SERVER = (b"---^current-jobs-urgent: 0^current-jobs-ready: 0^current-jobs-reserved: 0^current-jobs-delayed: 0^current-jobs-buried: 0^"
                b"job-timeouts: 0^total-jobs: 0^max-job-size: 65535^current-tubes: 1^current-connections: 1^current-waiting: 0^"
                b"total-connections: 1^draining: false^")
TUBE_AFTER_WORK = (FRESH_TUBE.replace(b"ready: 0", b"ready: 1").replace(b"total-jobs: 0", b"total-jobs: 2")
                   .replace(b"cmd-delete: 0", b"cmd-delete: 1"))
TUBE_COME_BACK = (b"---^name: t^current-jobs-urgent: 1^current-jobs-ready: 1^current-jobs-reserved: 0^current-jobs-delayed: 0^"
                  b"current-jobs-buried: 0^total-jobs: 1^current-using: 1^current-watching: 0^current-waiting: 0^cmd-delete: 0^"
                  b"cmd-pause-tube: 0^pause: 0^pause-time-left: 0^")
ONE_JOB = (b"---^id: 1^tube: default^state: ready^pri: 0^age: 0^delay: 0^ttr: 1^time-left: 0^reserves: 0^timeouts: 0^"
           b"releases: 0^buries: 0^kicks: 0^")

# What a session shows, its settings, its input and its output.
SESSIONS = (
    ("a job goes round", PLAIN, b"put 5 0 10 3~abc~reserve~delete 1~quit~", b"INSERTED 1~RESERVED 1 3~abc~DELETED~"),
    ("nothing", PLAIN, b"", b""),
    ("an empty body, and the last second of a lease", PLAIN, b"put 0 0 1 0~~put 0 0 1 1~a~reserve~reserve~reserve~",
     b"INSERTED 1~INSERTED 2~RESERVED 1 0~~RESERVED 2 1~a~DEADLINE_SOON~"),
    ("a body without its end", PLAIN, b"put 0 0 1 2~abXYreserve-with-timeout 0~", b"EXPECTED_CRLF~TIMED_OUT~"),
    ("a body too big", PLAIN, b"put 0 0 1 65536~" + b"x" * 65536 + b"~list-tube-used~", b"JOB_TOO_BIG~USING default~"),
    ("the largest body", PLAIN, b"put 0 0 1 65535~" + b"x" * 65535 + b"~list-tube-used~", b"INSERTED 1~USING default~"),
    ("bad lines", PLAIN, b"PUT~put 1~use -a~peek 4294967296~", b"UNKNOWN_COMMAND~BAD_FORMAT~BAD_FORMAT~NOT_FOUND~"),
    ("jobs of two tubes by priority", PLAIN,
     b"watch a~put 7 0 9 1~x~use a~put 3 0 9 1~y~use default~put 3 0 9 1~z~reserve~reserve~reserve~",
     b"WATCHING 2~INSERTED 1~USING a~INSERTED 2~USING default~INSERTED 3~RESERVED 2 1~y~RESERVED 3 1~z~RESERVED 1 1~x~"),
    ("buried jobs are kicked before delayed ones", PLAIN,
     b"put 0 0 9 1~x~put 0 0 9 1~y~put 0 100 9 1~z~reserve~reserve~bury 2 0~bury 1 0~peek-buried~kick 5~kick 5~",
     b"INSERTED 1~INSERTED 2~INSERTED 3~RESERVED 1 1~x~RESERVED 2 1~y~BURIED~BURIED~FOUND 2 1~y~KICKED 2~KICKED 1~"),
    ("kicks until nothing is left", PLAIN,
     b"put 0 0 9 1~x~put 0 0 9 1~y~put 0 100 9 1~z~reserve~reserve~bury 2 0~bury 1 0~kick 5~kick 5~kick 5~",
     b"INSERTED 1~INSERTED 2~INSERTED 3~RESERVED 1 1~x~RESERVED 2 1~y~BURIED~BURIED~KICKED 2~KICKED 1~KICKED 0~"),
    ("watch lists", PLAIN, b"ignore default~ignore b~watch b~watch b~ignore default~list-tubes-watched~list-tubes~",
     b"NOT_IGNORED~WATCHING 1~WATCHING 2~WATCHING 2~WATCHING 1~OK 8~---^- b^~OK 18~---^- b^- default^~"),
    ("a job's statistics", PLAIN, b"put 0 0 1 1~a~stats-job 1~", b"INSERTED 1~OK 135~" + ONE_JOB + b"~"),
    ("a paused tube", PLAIN,
     b"put 2 0 9 1~x~pause-tube default 60~reserve-with-timeout 0~peek-ready~reserve-job 1~reserve-job 1~pause-tube b 1~",
     b"INSERTED 1~PAUSED~TIMED_OUT~FOUND 1 1~x~RESERVED 1 1~x~NOT_FOUND~NOT_FOUND~"),
    ("a release with another priority", PLAIN,
     b"put 4 0 9 1~x~put 4 0 9 1~y~reserve~release 1 5 0~reserve~release 1 0 0~delete 1~",
     b"INSERTED 1~INSERTED 2~RESERVED 1 1~x~RELEASED~RESERVED 2 1~y~NOT_FOUND~DELETED~"),
    ("a line of 224 bytes", PLAIN, b"peek " + b"0" * 216 + b"1~", b"NOT_FOUND~"),
    ("a line of 225 bytes", PLAIN, b"peek " + b"0" * 217 + b"1~", b"BAD_FORMAT~"),
    ("a name of 200 bytes", PLAIN, b"use " + b"a" * 200 + b"~", b"USING " + b"a" * 200 + b"~"),
    ("a name of 201 bytes", PLAIN, b"use " + b"a" * 201 + b"~", b"BAD_FORMAT~"),
    ("half a body", PLAIN, b"put 0 0 1 5~ab", b""),
    ("half a line", PLAIN, b"list-tube-used", b""),
    ("bytes behind a quit", PLAIN, b"quit~stats~", b""),
    ("the end of the input behind a reserve", PLAIN, b"reserve~", b"TIMED_OUT~"),
    ("spaces at both ends of a line", PLAIN, b"~reserve ~ reserve~put 0 0 4294967296 1~",
     b"UNKNOWN_COMMAND~BAD_FORMAT~UNKNOWN_COMMAND~BAD_FORMAT~"),
    ("a bad end, and nothing to reserve", PLAIN, b"put 0 0 1 2~abXYreserve~", b"EXPECTED_CRLF~TIMED_OUT~"),
    ("deletes", PLAIN, b"put 0 0 1 1~a~delete 2~delete 1~delete 1~", b"INSERTED 1~NOT_FOUND~DELETED~NOT_FOUND~"),
    ("bodies of two bytes at most", PLAIN._replace(max_job_size=2), b"put 0 0 1 3~abc~put 0 0 1 2~ab~", b"JOB_TOO_BIG~INSERTED 1~"),
    ("the first delayed job", PLAIN, b"put 0 9 9 1~x~put 0 5 9 1~y~peek-delayed~", b"INSERTED 1~INSERTED 2~FOUND 2 1~y~"),
    ("the last urgent priority", PLAIN, b"put 1023 0 9 1~x~put 1024 0 9 1~y~reserve~delete 1~stats-tube default~",
     b"INSERTED 1~INSERTED 2~RESERVED 1 1~x~DELETED~OK 265~" + TUBE_AFTER_WORK + b"~"),
    ("a tube that comes back", PLAIN, b"use t~put 0 0 9 0~~use default~delete 1~stats-tube t~use t~put 0 0 9 0~~stats-tube t~",
     b"USING t~INSERTED 1~USING default~DELETED~NOT_FOUND~USING t~INSERTED 2~OK 259~" + TUBE_COME_BACK + b"~"),
    ("the tubes at the start", PLAIN, b"list-tubes~", b"OK 14~---^- default^~"),
    ("a tube at the start", PLAIN, b"stats-tube default~", b"OK 265~" + FRESH_TUBE + b"~"),
    ("the server at the start", PLAIN, b"stats~", b"OK 267~" + FRESH_SERVER + b"~"),
    ("222 letters", PLAIN, b"z" * 222 + b"~", b"UNKNOWN_COMMAND~"),
    ("223 letters", PLAIN, b"z" * 223 + b"~", b"BAD_FORMAT~"),
    ("a CR in a name", PLAIN, b"use a\rb~", b"BAD_FORMAT~"),
    ("a CR before the end of a quit", PLAIN, b"quit\r~", b"UNKNOWN_COMMAND~"),
    ("the greatest id", PLAIN, b"peek 18446744073709551615~peek 18446744073709551616~", b"NOT_FOUND~BAD_FORMAT~"),
    ("a body that never comes", PLAIN, b"put 0 0 1 4294967295~abc", b""),
    ("a size past its kind", PLAIN, b"put 0 0 1 4294967296~list-tube-used~", b"BAD_FORMAT~USING default~"),
    ("a put line of 224 bytes", PLAIN, b"put 0 0 1 " + b"0" * 211 + b"3~abc~", b"INSERTED 1~"),
    ("a put line of 225 bytes", PLAIN, b"put 0 0 1 " + b"0" * 212 + b"3~abc~", b"BAD_FORMAT~UNKNOWN_COMMAND~"),
    ("a quit in a body", PLAIN, b"put 0 0 9 6~quit~~reserve~", b"INSERTED 1~RESERVED 1 6~quit~~"),
    ("one job at most", PLAIN._replace(max_jobs=1), b"put 0 0 9 1~x~put 0 0 9 1~y~reserve~put 0 0 9 1~z~delete 1~put 0 0 9 1~w~",
     b"INSERTED 1~OUT_OF_MEMORY~RESERVED 1 1~x~OUT_OF_MEMORY~DELETED~INSERTED 2~"),
)

# What the steps show, the settings, and the steps: a moment, a seat, an event or a command, the answers, and the next
# due moment (None: not checked). All seats have connected at 0.
STEPS = (
    ("a job goes to who waits for its tube", PLAIN, (
        (0, 1, b"watch a~", [(1, b"WATCHING 2~")], None),
        (0, 1, b"ignore default~", [(1, b"WATCHING 1~")], None),
        (0, 1, b"reserve~", [], None),
        (0, 2, b"watch a~", [(2, b"WATCHING 2~")], None),
        (0, 2, b"watch b~", [(2, b"WATCHING 3~")], None),
        (0, 2, b"ignore default~", [(2, b"WATCHING 2~")], None),
        (0, 2, b"reserve~", [], None),
        (0, 0, b"use b~", [(0, b"USING b~")], None),
        (0, 0, b"put 0 0 9 1~p~", [(0, b"INSERTED 1~"), (2, b"RESERVED 1 1~p~")], None),
        (0, 0, b"use a~", [(0, b"USING a~")], None),
        (0, 0, b"put 0 0 9 1~q~", [(0, b"INSERTED 2~"), (1, b"RESERVED 2 1~q~")], None),
    )),
    ("a lease's last second", PLAIN, (
        (0, 0, b"put 0 0 2 0~~", [(0, b"INSERTED 1~")], None),
        (0, 0, b"reserve~", [(0, b"RESERVED 1 0~~")], None),
        (500, 0, b"reserve~", [], 1000),
        (999, 0, "tick", [], 1000),
        (1000, 0, "tick", [(0, b"DEADLINE_SOON~")], None),
    )),
    ("a lease that ends", PLAIN, (
        (0, 0, b"put 0 0 2 0~~", [(0, b"INSERTED 1~")], None),
        (0, 0, b"reserve~", [(0, b"RESERVED 1 0~~")], None),
        (500, 0, b"reserve~", [], 1000),
        (2000, 0, "tick", [(0, b"RESERVED 1 0~~")], None),
        (2500, 0, b"stats-job 1~", [(0, b"OK 138~---^id: 1^tube: default^state: reserved^pri: 0^age: 2^delay: 0^ttr: 2^time-left: 1^"
                                        b"reserves: 2^timeouts: 1^releases: 0^buries: 0^kicks: 0^~")], None),
    )),
    ("a delay, a pause and a timeout that end together", PLAIN, (
        (0, 0, b"put 0 5 9 0~~", [(0, b"INSERTED 1~")], None),
        (0, 0, b"pause-tube default 5~", [(0, b"PAUSED~")], None),
        (0, 1, b"reserve-with-timeout 5~", [], None),
        (4999, 0, "tick", [], None),
        (5000, 0, "tick", [(1, b"RESERVED 1 0~~")], None),
    )),
    ("a close gives jobs back", PLAIN, (
        (0, 0, b"put 0 0 9 1~x~", [(0, b"INSERTED 1~")], None),
        (0, 1, b"reserve~", [(1, b"RESERVED 1 1~x~")], None),
        (0, 2, b"reserve~", [], None),
        (0, 0, b"delete 1~", [(0, b"NOT_FOUND~")], None),
        (0, 0, b"peek 1~", [(0, b"FOUND 1 1~x~")], None),
        (0, 1, "close", [(2, b"RESERVED 1 1~x~")], None),
    )),
    ("draining", PLAIN, (
        (0, 0, b"put 0 0 9 0~~", [(0, b"INSERTED 1~")], None),
        (0, 0, "drain", [], None),
        (0, 0, b"put 0 0 9 0~~", [(0, b"DRAINING~")], None),
        (0, 0, b"reserve~", [(0, b"RESERVED 1 0~~")], None),
    )),
    ("a lease that is touched", PLAIN, (
        (0, 0, b"put 0 0 2 0~~", [(0, b"INSERTED 1~")], None),
        (0, 0, b"reserve~", [(0, b"RESERVED 1 0~~")], None),
        (1500, 0, b"touch 1~", [(0, b"TOUCHED~")], 3500),
        (2000, 0, "tick", [], None),
        (3500, 0, b"touch 1~", [(0, b"NOT_FOUND~")], None),
    )),
    ("a release with a delay", PLAIN, (
        (0, 0, b"put 0 0 9 0~~", [(0, b"INSERTED 1~")], None),
        (0, 0, b"reserve~", [(0, b"RESERVED 1 0~~")], None),
        (0, 0, b"release 1 7 3~", [(0, b"RELEASED~")], None),
        (2999, 0, b"reserve~", [], 3000),
        (3000, 0, "tick", [(0, b"RESERVED 1 0~~")], None),
    )),
    ("timeouts in the order of the waits", PLAIN, (
        (0, 2, b"reserve-with-timeout 1~", [], None),
        (0, 1, b"reserve-with-timeout 1~", [], None),
        (1000, 0, "tick", [(2, b"TIMED_OUT~"), (1, b"TIMED_OUT~")], None),
    )),
    ("the end of a client's input", PLAIN, (
        (0, 0, b"reserve~", [], None),
        (0, 0, "end", [(0, b"TIMED_OUT~")], None),
    )),
    ("a pause that is ended", PLAIN, (
        (0, 0, b"put 0 0 9 0~~", [(0, b"INSERTED 1~")], None),
        (0, 0, b"pause-tube default 5~", [(0, b"PAUSED~")], None),
        (0, 1, b"reserve~", [], 5000),
        (1000, 0, b"pause-tube default 0~", [(0, b"PAUSED~"), (1, b"RESERVED 1 0~~")], None),
    )),
    ("draining is told before the limit on jobs", PLAIN._replace(max_jobs=1), (
        (0, 0, b"put 0 0 9 0~~", [(0, b"INSERTED 1~")], None),
        (0, 0, "drain", [], None),
        (0, 0, b"put 0 0 9 0~~", [(0, b"DRAINING~")], None),
    )),
    ("a lost connection's job comes back later", PLAIN._replace(requeue_delay=5), (
        (0, 0, b"put 0 0 9 1~x~", [(0, b"INSERTED 1~")], None),
        (0, 1, b"reserve~", [(1, b"RESERVED 1 1~x~")], None),
        (0, 2, b"reserve~", [], None),
        (1000, 1, "close", [], 6000),
        (2000, 0, b"stats-job 1~", [(0, b"OK 137~---^id: 1^tube: default^state: delayed^pri: 0^age: 2^delay: 0^ttr: 9^time-left: 4^"
                                        b"reserves: 1^timeouts: 0^releases: 0^buries: 0^kicks: 0^~")], None),
        (6000, 0, "tick", [(2, b"RESERVED 1 1~x~")], None),
    )),
    ("a lost connection's job can be kicked", PLAIN._replace(requeue_delay=5), (
        (0, 0, b"put 0 0 9 1~x~", [(0, b"INSERTED 1~")], None),
        (0, 1, b"reserve~", [(1, b"RESERVED 1 1~x~")], None),
        (0, 2, b"reserve~", [], None),
        (1000, 1, "close", [], 6000),
        (1500, 0, b"kick 1~", [(0, b"KICKED 1~"), (2, b"RESERVED 1 1~x~")], None),
    )),
)


def steps_differ(rules, settings, steps):
    """Returns how the rules answer worked steps differently, or None."""
    machine = rules(settings)
    for seat in range(3):
        machine.step(0, seat, "connect")
    for moment, seat, event, answers, due in steps:
        if isinstance(event, bytes):
            requests, _ = requests_of(spelled(event), settings.max_job_size)
            given = machine.step(moment, seat, "ask", requests[0])
        else:
            given = machine.step(moment, seat, event)
        wanted = [(it, spelled(text)) for it, text in answers]
        if given != wanted or due is not None and machine.next_due() != due:
            return "%r at %d: %r and not %r; the next due moment is %r" % (event, moment, given, wanted, machine.next_due())
    return None


def rules_alone(rules):
    """Runs the worked sessions and steps with the rules alone."""
    passed, notes = 0, []
    for name, settings, text, wanted in SESSIONS:
        given = answers_to(rules, settings, spelled(text))
        well = given is not None and given[0] == spelled(wanted)
        passed += well
        notes += [] if well else ["%s: %s" % (name, "waits without end" if given is None else report.apart(spelled(wanted), given[0]))]
    for name, settings, steps in STEPS:
        told = steps_differ(rules, settings, steps)
        passed += told is None
        notes += [] if told is None else ["%s: %s" % (name, told)]
    return report.Report("worked rows, the rules alone", passed, len(notes), 0, 0, "\n  ".join(notes))


def program_too(program, known):
    """Runs the worked sessions with the program: as a whole and, if they are short, byte by byte."""
    passed, commands, notes = 0, 0, []
    for name, settings, text, wanted in SESSIONS:
        if settings.max_jobs is not None and "--max-jobs" not in known:
            continue
        text = spelled(text)
        cuts = [[text]] + ([[text[at:at + 1] for at in range(len(text))]] if 0 < len(text) < 300 else [])
        for pieces in cuts:
            ran = programs.run_session(program, settings, pieces, 10)
            well = ran.status == 0 and ran.out == spelled(wanted)
            passed += well
            commands += len(requests_of(text, settings.max_job_size)[0])
            notes += [] if well else ["%s: status %s, %s" % (name, ran.status, report.apart(spelled(wanted), ran.out))]
    return report.Report("worked rows, the program", passed, len(notes), 0, commands, "\n  ".join(notes))
