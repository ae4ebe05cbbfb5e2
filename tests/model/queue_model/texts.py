"""Answers as bytes."""


def plain(head):
    """Returns an answer without a body."""
    return head + b"\r\n"


def with_body(head, body):
    """Returns an answer with a body, possibly an empty one."""
    return b"%s %d\r\n%s\r\n" % (head, len(body), body)


def reserved(job):
    return with_body(b"RESERVED %d" % job.id, job.body)


def found(job):
    """Returns the answer to a peek."""
    return plain(b"NOT_FOUND") if job is None else with_body(b"FOUND %d" % job.id, job.body)


def names(tubes):
    """Returns a list of tubes."""
    return with_body(b"OK", b"---\n" + b"".join(b"- %s\n" % name for name in tubes))


def table(rows):
    """Returns a text of statistics."""
    lines = ["---"] + ["%s: %s" % row for row in rows]
    return with_body(b"OK", "".join(line + "\n" for line in lines).encode())


def seconds_until(machine, moment):
    """Returns the whole seconds until a moment; 0 if there is none."""
    return 0 if moment is None else (moment - machine.now) // 1000


def job_statistics(machine, job):
    return table([
        ("id", job.id),
        ("tube", job.tube.decode()),
        ("state", job.state),
        ("pri", job.pri),
        ("age", (machine.now - job.put_at) // 1000),
        ("delay", job.delay),
        ("ttr", job.ttr),
        ("time-left", seconds_until(machine, job.until)),
        ("reserves", job.reserves),
        ("timeouts", job.timeouts),
        ("releases", job.releases),
        ("buries", job.buries),
        ("kicks", job.kicks),
    ])


def job_counts(machine, jobs):
    """Returns the five counts of jobs by state."""
    return [("current-jobs-urgent", sum(machine.is_urgent(job) for job in jobs))] + [
        ("current-jobs-" + state, sum(job.state == state for job in jobs))
        for state in ("ready", "reserved", "delayed", "buried")
    ]


def tube_statistics(machine, name):
    seats, kept = machine.seats.values(), machine.tubes.get(name)
    return table([("name", name.decode())] + job_counts(machine, [it for it in machine.jobs.values() if it.tube == name]) + [
        ("total-jobs", kept.total_jobs if kept else 0),
        ("current-using", sum(seat.used == name for seat in seats)),
        ("current-watching", sum(name in seat.watched for seat in seats)),
        ("current-waiting", sum(seat.is_waiting() and name in seat.watched for seat in seats)),
        ("cmd-delete", kept.deletes if kept else 0),
        ("cmd-pause-tube", kept.pauses if kept else 0),
        ("pause", kept.pause if kept else 0),
        ("pause-time-left", seconds_until(machine, kept.pause_end if kept else None)),
    ])


def statistics(machine):
    seats = machine.seats.values()
    return table(job_counts(machine, machine.jobs.values()) + [
        ("job-timeouts", machine.job_timeouts),
        ("total-jobs", machine.total_jobs),
        ("max-job-size", machine.settings.max_job_size),
        ("current-tubes", len(machine.tube_names())),
        ("current-connections", len(seats)),
        ("current-waiting", sum(seat.is_waiting() for seat in seats)),
        ("total-connections", machine.total_connections),
        ("draining", "true" if machine.is_draining else "false"),
    ])
