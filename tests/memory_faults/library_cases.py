"""Calls of the libraries, in the module `memory` of bq_serve_tests: each allocation fails in turn.

One test prints the outcome of each call on a line, then the steps of a core, one after another (its steps.rt). Its
output without failures is in library_told.txt. The other prints the steps of a client that holds a job, at a core of
its own.
"""
import os
import pathlib
import re

from refusal import each_in_turn

# The test's name for its program, and its output if no allocation fails, with the toolchain's last line.
TEST = "memory::told::all_calls"
TOLD = (pathlib.Path(__file__).resolve().parent / "library_told.txt").read_bytes() + b"\ntest result: ok\n"

# The steps of a client that holds a job, each with its answer. After each of those that need no memory comes a tick,
# which has no answer.
HELD = "memory::told::held_job_without_memory"
HELD_STEPS = [
    (b"connect", b""),
    (b"put", b"INSERTED 1\r\n"),
    (b"put", b"INSERTED 2\r\n"),
    (b"put", b"INSERTED 3\r\n"),
    (b"reserve", b"RESERVED 1 1\r\nx\r\n"),
    (b"reserve", b"RESERVED 2 1\r\ny\r\n"),
    (b"bury 2 0", b"BURIED\r\n"),
    (b"bury 1 0", b"BURIED\r\n"),
    (b"kick 5", b"KICKED 2\r\n"),
    (b"kick 5", b"KICKED 1\r\n"),
    (b"kick 5", b"KICKED 0\r\n"),
    (b"reserve", b"RESERVED 1 1\r\nx\r\n"),
    (b"touch 1", b"TOUCHED\r\n"),
    (b"release 1 0 0", b"RELEASED\r\n"),
    (b"close", None),
]
# How many of them come with ample memory.
HELD_AMPLE = 7

# What a call that asks for three boxes keeps if the first, the second or the third is refused.
KEPT = [b"refused, 0 are kept", b"refused, 1 is kept", b"refused, 2 are kept"]

# The runs of one line. Each is refused for one failed allocation and answers OUT_OF_MEMORY for another.
LINES = [b"run_one " + it for it in (b"put", b"use", b"watch", b"list-tubes")]

# The possible outcomes of a call in which one allocation failed, besides `made`.
OUTCOMES = {
    b"boxes": set(KEPT),
    **dict.fromkeys((b"shelf", b"jobs"), {b"refused", b"not begun"}),
    **dict.fromkeys((b"core", b"outs", b"links", b"reader", b"seat", b"lock"), {b"refused"}),
    **dict.fromkeys(LINES, {b"refused", b"a command was left out", b"not begun"}),
    **dict.fromkeys((b"run_sessions", b"run_locked"), {b"refused", b"a thread was refused", b"a command was left out"}),
}
STEPS = b"steps: "
FIRST_FREE = b"step bury 2 0\n"
# How many allocations a step may make at most. A put: the three boxes of a job. A use and a watch: the box of a new
# tube, that of the end of its pause, and the two through which the jobs know the tube; a watch also one for its
# client's list. Commands answered with a text: that text, and the lists that are gathered for it. All others make none.
MOST = {b"put": 3, b"use": 4, b"watch": 5, b"list-tubes": 3, b"list-tubes-watched": 2, b"stats-job": 1, b"stats-tube": 1, b"stats": 1}


def parted(out):
    """Returns the outcome of each call, and the output about the steps."""
    calls, _, steps = out.partition(STEPS)
    return dict(line.split(b": ", 1) for line in calls.splitlines()), steps


def refused_once(program, full, nth, seen):
    """Makes one run whose nth allocation fails. Returns whether it failed, and what is wrong. Adds to `seen` what it turned."""
    status, out, complaint = program.run([], b"", at=nth)
    refused = program.host.was_refused()
    if status != 0 or complaint:
        return refused, f"status {status}, {complaint[-120:]!r} on standard error"
    if not refused:
        return False, None if out == full else "it tells something else though nothing was refused"
    calls, steps = parted(out)
    whole, all_steps = parted(full)
    turned = [it for it in whole if calls.get(it) != whole[it]] + [STEPS] * (steps != all_steps)
    if calls.keys() != whole.keys() or len(turned) != 1:
        return True, f"one refusal turned {turned}"
    for name in turned:
        if name != STEPS and calls[name] not in OUTCOMES[name]:
            return True, f"{name.decode()}: {calls[name].decode()}"
        if name != STEPS:
            seen.append((name, calls[name]))
    return True, None


def calls_refused(program):
    """Lets each allocation of the whole program fail in turn."""
    status, full, complaint = program.run([], b"")
    if status != 0 or complaint or full != TOLD:
        return 1, f"status {status} though nothing was refused, and it tells {full[-120:]!r}"
    seen = []
    runs, wrong = each_in_turn(lambda nth: refused_once(program, full, nth, seen))
    return runs, wrong or unseen(seen)


def unseen(seen):
    """Returns which outcome never came, of those that some allocation has to bring about, or None."""
    kept = [outcome for name, outcome in seen if name == b"boxes"]
    if kept != KEPT:
        return f"boxes: {kept}"
    for name in LINES:
        missing = {b"refused", b"a command was left out"} - {outcome for it, outcome in seen if it == name}
        if missing:
            return f"{name.decode()}: never {sorted(missing)}"
    return None


def marked(program):
    """Returns the lines that the program prints, each with the number of allocations before it."""
    marks = f"{program.host.told}.marks"
    open(marks, "wb").close()
    program.run([], b"", marks=marks)
    with open(marks, "rb") as told:
        found = re.findall(rb"requests (\d+) (step .*\n|taken\n)", told.read())
    os.remove(marks)
    return [(int(count), line) for count, line in found]


def steps_counted(program):
    """Checks that no step makes more allocations than it may."""
    lines = marked(program)
    pairs = list(zip(lines[::2], lines[1::2]))
    if len(pairs) < 50:
        return 1, f"only {len(pairs)} steps"
    for (before, step), (after, _) in pairs:
        word = step.split()[1]
        if after - before > MOST.get(word, 0):
            return 1, f"{step.decode().strip()} made {after - before} requests"
    return 1, None


def steps_without_memory(program):
    """Checks that nothing changes if all allocations fail from the first bury on: the steps after it do not allocate.
    """
    full = program.run([], b"")
    begun = next((count for count, line in marked(program) if line == FIRST_FREE), None)
    if begun is None:
        return 2, "no step that buries"
    ran = program.run([], b"", from_=begun + 1)
    return 3, None if ran == full else f"another end of {ran[1][-80:]!r}"


def told_of(step, answer):
    """Returns the output for a step of the only client; None is the answer to its close."""
    return b"step " + step + b"\ntaken\n" + (b"to 0: closed\n" if answer is None else b"to 0:\n" + answer if answer else b"")


def held_job(program):
    """Runs the steps of a client that holds a job. From its first bury on, a failing allocation does not change the
    output."""
    ticked = [it for step in HELD_STEPS[HELD_AMPLE:] for it in (step, (b"tick", b""))]
    told = b"steps: begun\n" + b"".join(told_of(*it) for it in HELD_STEPS[:HELD_AMPLE] + ticked) + b"\ntest result: ok\n"
    full = program.run([], b"")
    if full != (0, told, b""):
        return 1, f"status {full[0]} though nothing was refused, and it tells {full[1][-120:]!r}"
    begun = next(count for count, line in marked(program) if line == FIRST_FREE)

    def refused(nth):
        ran = program.run([], b"", at=nth)
        if nth <= begun:
            return program.host.was_refused(), None if (ran[0], ran[2]) == (0, b"") else f"status {ran[0]}, {ran[2][-120:]!r} on standard error"
        return program.host.was_refused(), None if ran == full else f"another end of {ran[1][-80:]!r}"

    runs, wrong = each_in_turn(refused)
    all_refused = program.run([], b"", from_=begun + 1)
    return runs + 3, wrong or (None if all_refused == full else f"with all refused, another end of {all_refused[1][-80:]!r}")


def cases(program, held):
    yield "library: calls", lambda: calls_refused(program)
    yield "library: requests of a step", lambda: steps_counted(program)
    yield "library: steps without memory", lambda: steps_without_memory(program)
    yield "library: held job without memory", lambda: held_job(held)
