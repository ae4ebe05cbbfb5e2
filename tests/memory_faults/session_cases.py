"""Sessions of `bq --still`, in which every allocation fails once."""
import itertools

from queue_model import sessions
from queue_model.machine import PLAIN, Machine

from judge import judged
from refusal import each_in_turn

NEEDS = (b"the options", b"the queue and its seats")
NO_MEMORY = [(1, b"", b"bq: no memory\nbq: could not allocate memory for " + need + b"\n") for need in NEEDS]

# Each input with its answers if no allocation fails, and the place of the command that can fail.
PUT = b"put 0 0 1 1\r\na\r\n"
TABLE = {
    "put": (PUT + b"reserve-with-timeout 0\r\n", b"INSERTED 1\r\nRESERVED 1 1\r\na\r\n", b"OUT_OF_MEMORY\r\nTIMED_OUT\r\n"),
    "use": (b"use t\r\nlist-tube-used\r\n", b"USING t\r\nUSING t\r\n", b"OUT_OF_MEMORY\r\nUSING default\r\n"),
    "watch": (b"watch t\r\nignore default\r\n", b"WATCHING 2\r\nWATCHING 1\r\n", b"OUT_OF_MEMORY\r\nNOT_IGNORED\r\n"),
    "list-tubes": (b"list-tubes\r\n", b"OK 14\r\n---\n- default\n\r\n", b"OUT_OF_MEMORY\r\n"),
    "list-tubes-watched": (b"list-tubes-watched\r\n", b"OK 14\r\n---\n- default\n\r\n", b"OUT_OF_MEMORY\r\n"),
}
# Those that count: the model judges their full answers.
COUNTING = {
    "stats": b"stats\r\n",
    "stats-job": PUT + b"stats-job 1\r\n",
    "stats-tube": b"stats-tube default\r\n",
}
LONG_SESSIONS = 12
EACH_NTH = (2, 3, 5, 7)


def ending(ran):
    """Returns what is wrong with how a session ended, or None: it reported a fault, or has status 0."""
    status, out, complaint = ran
    if status == 0 and not complaint or ran in NO_MEMORY:
        return None
    return f"status {status}, {out[-60:]!r} on standard output, {complaint[-120:]!r} on standard error"


def by_table(bq, text, full, without):
    """One of the inputs whose outcomes are known by hand: each of them occurs, and no other."""
    seen = set()

    def run(nth):
        ran = bq.run(["--still"], text + b"quit\r\n", at=nth)
        refused = bq.host.was_refused()
        wrong = ending(ran)
        if not wrong and ran not in NO_MEMORY:
            seen.add(ran[1])
            if ran[1] not in ((full, without) if refused else (full,)):
                wrong = f"it wrote {ran[1]!r}"
        if not wrong and not refused and ran[0] != 0:
            wrong = "a fault though nothing was refused"
        return refused, wrong

    runs, wrong = each_in_turn(run)
    return runs, wrong or (None if seen == {full, without} else f"outcomes seen: {sorted(seen)}")


def by_model(bq, settings, text, **pattern):
    """Runs a session once that the model judges. It returns whether an allocation failed, and what is wrong."""
    ran = bq.run(["--still", "--max-job-size", str(settings.max_job_size)], text, **pattern)
    refused = bq.host.was_refused()
    wrong = ending(ran)
    if wrong or ran in NO_MEMORY:
        return refused, wrong or (None if refused else "a fault though nothing was refused")
    refusals, wrong = judged(settings, text, ran[1])
    if not wrong and refusals and not refused:
        wrong = "OUT_OF_MEMORY though nothing was refused"
    if not wrong and "at" in pattern and refusals > 1:
        wrong = f"{refusals} commands answered OUT_OF_MEMORY for one refusal"
    return refused, wrong


def long_session(bq, seed):
    """A random session in which each allocation fails, and then every nth."""
    settings = PLAIN._replace(max_job_size=(200, 65535)[seed % 2])
    text = b"".join(sessions.made_session(f"refused {seed}", Machine, settings)) + b"quit\r\n"
    if sessions.answers_to(Machine, settings, text) is None:
        return 0, None
    runs, wrong = each_in_turn(lambda nth: by_model(bq, settings, text, at=nth))
    for nth in () if wrong else EACH_NTH:
        wrong = wrong or by_model(bq, settings, text, every=nth)[1]
    return runs + len(EACH_NTH), wrong


def words_refused(bq):
    """Help and bad options, while each allocation fails: their text, or that there was no memory."""
    def run(words, status):
        full = bq.run(words, b"", at=0)
        if full[0] != status:
            return 1, f"{words}: status {full[0]}"

        def one(nth):
            ran = bq.run(words, b"", at=nth)
            return bq.host.was_refused(), None if ran in [full, *NO_MEMORY] else f"{words}: {ran!r}"
        return each_in_turn(one)
    (first, wrong), (second, other) = run(["--help"], 0), run(["--no-such-word"], 2)
    return first + second, wrong or other


def cases(bq):
    """Returns the cases by name. Each is a call that returns how many runs it made, and what is wrong or None."""
    for name, (text, full, without) in TABLE.items():
        yield f"bq: {name}", lambda t=text, f=full, w=without: by_table(bq, t, f, w)
    for name, text in COUNTING.items():
        yield f"bq: {name}", lambda t=text: each_in_turn(lambda nth: by_model(bq, PLAIN, t + b"quit\r\n", at=nth))
    for seed in range(LONG_SESSIONS):
        yield f"bq: session {seed}", lambda s=seed: long_session(bq, s)
    yield "bq: help and bad options", lambda: words_refused(bq)
