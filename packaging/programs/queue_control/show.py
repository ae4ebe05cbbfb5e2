"""The commands that only read: stats, tubes and peek."""
import sys

from queue_client import Fault, STATES
from queue_client.bodies import readable
from queue_client.picture import COLUMNS, numbers_of
from queue_client.reading import OF_TUBE, numbers
from queue_client.terminal import table

from .results import Result


def tube_of(server, name):
    """Returns the statistics of a tube; a fault if there is no such tube."""
    found = server.tube(name)
    if found is None:
        raise Fault(f"{server.name} has no tube {name}")
    return numbers(server.name, f"stats-tube {name}", found, OF_TUBE)


def job_of(server, job_id):
    """Returns the statistics of a job; a fault if there is no such job."""
    found = server.job(job_id)
    if found is None:
        raise Fault(f"{server.name} has no job {job_id}")
    return found


def stats(server, asked):
    """Returns the statistics of the server, of a tube or of a job, with the protocol's keys."""
    if asked.id is not None:
        found = job_of(server, asked.id)
    else:
        found = tube_of(server, asked.tube) if asked.tube else server.statistics()
    return Result(found, [f"{key}: {value}" for key, value in found.items()])


def tubes(server, asked):
    """Returns all tubes with their numbers, by name."""
    names = sorted(server.tubes())
    told = zip(names, server.tube_statistics(names))
    found = {it: numbers(server.name, f"stats-tube {it}", about, OF_TUBE) for it, about in told if about}
    rows = [numbers_of(about) for about in found.values()]
    lines = table([["tube", *COLUMNS], *([name, *map(str, row.values())] for name, row in zip(found, rows))])
    return Result([{"name": name, **row} for name, row in zip(found, rows)], lines)


def peek(server, asked):
    """Returns a job by its id, or the first job of a state of a tube, or of each state."""
    if asked.id is not None:
        jobs = [server.peek_job(asked.id)]
        lacks = f"job {asked.id}"
    else:
        tube_of(server, asked.tube)
        server.use(asked.tube)
        jobs = [server.peek(state) for state in ([asked.state] if asked.state else STATES)]
        lacks = f"{asked.state or 'ready, delayed or buried'} job in {asked.tube}"
    found = [it for it in jobs if it]
    if not found and (asked.raw or asked.id is not None):
        raise Fault(f"{server.name} has no {lacks}")
    return raw(found[0]) if asked.raw else shown(server, found, lacks)


def raw(job):
    """Writes the body of a job to standard output unchanged."""
    sys.stdout.buffer.write(job.body)
    return Result(None, [])


def shown(server, jobs, lacks):
    """Returns jobs as records and as lines; if there are none, which jobs the server lacks."""
    if not jobs:
        return Result([], [f"no {lacks}"])
    records = [{**(server.job(it.id) or {"id": it.id}), **body_of(it.body)} for it in jobs]
    return Result(records, "\n\n".join(lines_of(*it) for it in zip(records, (job.body for job in jobs))).split("\n"))


def body_of(body):
    """Returns a body as part of a record: its text, or its bytes in hexadecimal if it isn't text."""
    try:
        return {"size": len(body), "body": body.decode()}
    except UnicodeDecodeError:
        return {"size": len(body), "body_hex": body.hex()}


def lines_of(record, body):
    """Returns a job as a person reads it: its properties, and the beginning of its body."""
    found = readable(body)
    about = "\n".join(f"{key}: {value}" for key, value in record.items() if not key.startswith("body"))
    cut = f"\n(the first {found.shown} of {found.size} bytes; --raw writes all)" if found.shown < found.size else ""
    return f"{about}\n\n{found.text}{cut}"
