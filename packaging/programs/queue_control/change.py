"""The commands that change a tube or a job in one step: put, kick, delete, pause and unpause."""
from queue_client import Fault, said
from queue_client.reading import COUNTS

from .progress import Progress
from .results import Result, Unfinished, jobs
from .show import job_of, tube_of

# The largest number of jobs that one command kicks: the server does nothing else meanwhile.
KICKED_TOGETHER = 1000


def put(server, asked):
    """Puts a file, or standard input, as one job."""
    body = body_of(server, asked.file)
    server.use(asked.tube)
    job_id = server.put(asked.priority, asked.delay, asked.ttr, body)
    return Result({"id": job_id, "tube": asked.tube, "size": len(body)}, [f"put job {job_id} into {asked.tube}"])


def body_of(server, path):
    """Reads the body, if it isn't larger than the server accepts."""
    most = server.statistics().get("max-job-size")
    if not isinstance(most, int):
        raise Fault(f"{server.name} answered stats without a number for max-job-size")
    try:
        with open(0 if path == "-" else path, "rb", closefd=path != "-") as stream:
            body = stream.read(most + 1)
    except OSError as fault:
        raise Fault(f"cannot read {'standard input' if path == '-' else path}: {said(fault)}") from None
    if len(body) > most:
        raise Fault(f"the body is too large: {server.name} takes at most {most} bytes")
    return body


def kick(server, asked):
    """Makes a job ready by its id, or buried jobs of a tube, or delayed ones if none is buried."""
    if asked.id is not None:
        return kick_job(server, asked.id)
    found = tube_of(server, asked.tube)
    state = "buried" if found[COUNTS["buried"]] else "delayed"
    wanted = found[COUNTS[state]] if asked.all else asked.count or 1
    server.use(asked.tube)
    kicked, progress = 0, Progress("kicked", wanted)
    try:
        while kicked < wanted and (some := server.kick(min(wanted - kicked, KICKED_TOGETHER))):
            kicked += some
            progress.at(kicked)
            if asked.interrupts.came:
                raise Fault("interrupted")
    except (Fault, KeyboardInterrupt) as fault:
        raise Unfinished(fault, was_kicked(asked.tube, kicked, state)) from None
    finally:
        progress.end()
    return was_kicked(asked.tube, kicked, state)


def kick_job(server, job_id):
    """Makes a buried or delayed job ready."""
    before = job_of(server, job_id)
    if not server.kick_job(job_id):
        raise Fault(f"job {job_id} of {before['tube']} is {job_of(server, job_id)['state']}: only buried and delayed jobs are kicked")
    record = {"id": job_id, "tube": before["tube"], "kicked": 1, "state": before["state"]}
    return Result(record, [f"kicked {before['state']} job {job_id} of {before['tube']}"])


def delete(server, asked):
    """Deletes jobs by their ids. Those that cannot be deleted are named, and the others are deleted."""
    deleted, left = {}, {}
    for job_id in asked.ids:
        about = server.job(job_id)
        if about and server.delete(job_id):
            deleted[job_id] = f"deleted {about['state']} job {job_id} of {about['tube']}"
        else:
            left[job_id] = f"job {job_id} of {about['tube']} is reserved" if about else f"{server.name} has no job {job_id}"
    result = Result({"deleted": list(deleted), "left": list(left)}, [*left.values(), *deleted.values()])
    if left:
        raise Unfinished(f"{jobs(len(left))} could not be deleted", result)
    return result


def was_kicked(tube, kicked, state):
    """Returns the result of a kick."""
    return Result({"tube": tube, "kicked": kicked, "state": state}, [f"kicked {jobs(kicked, kicked and state)} of {tube}"])


def pause(server, asked):
    """Pauses a tube, so that its jobs are not handed out."""
    paused(server, asked.tube, asked.seconds)
    return Result({"tube": asked.tube, "pause": asked.seconds}, [f"paused {asked.tube} for {asked.seconds} seconds"])


def unpause(server, asked):
    """Ends the pause of a tube."""
    paused(server, asked.tube, 0)
    return Result({"tube": asked.tube, "pause": 0}, [f"{asked.tube} is not paused any more"])


def paused(server, tube, seconds):
    if not server.pause(tube, seconds):
        raise Fault(f"{server.name} has no tube {tube}")
