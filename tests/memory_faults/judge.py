"""What a session may be answered if allocations fail: the rules of the model; the bytes show which command failed."""
from queue_model.machine import Machine
from queue_model.reader import requests_of

SEAT = 0
REFUSED = b"OUT_OF_MEMORY\r\n"

# The commands that may be answered OUT_OF_MEMORY. They include a put with a wrong end, because its body is allocated
# before its end is checked.
MAY_BE_REFUSED = {b"put", b"use", b"watch", b"stats", b"stats-job", b"stats-tube", b"list-tubes", b"list-tubes-watched"}
# The answers for which nothing is allocated.
UNREFUSABLE = {b"DRAINING\r\n", b"NOT_FOUND\r\n"}


def may_be_refused(request, answer):
    if request.command == b"refused":
        return request.arguments == (b"EXPECTED_CRLF",)
    return request.command in MAY_BE_REFUSED and answer not in UNREFUSABLE


def judged(settings, text, out):
    """Returns how many commands of a session failed for lack of memory, according to its output; or what is wrong."""
    machine, refusals = Machine(settings), 0
    machine.step(0, SEAT, "connect")
    requests, _ = requests_of(text, settings.max_job_size)
    for request in requests:
        trial = machine.copy()
        answers = trial.step(0, SEAT, "ask", request)
        if trial.seats[SEAT].is_waiting():
            answers += trial.step(0, SEAT, "end")
        answer = b"".join(it for _, it in answers)
        if out.startswith(answer):
            machine, out = trial, out[len(answer):]
        elif may_be_refused(request, answer) and out.startswith(REFUSED):
            refusals, out = refusals + 1, out[len(REFUSED):]
        else:
            return None, f"{request.command.decode()} was answered {out[:60]!r} and not {answer[:60]!r}"
    return (refusals, None) if not out else (None, f"{out[:60]!r} was written behind the last answer")
