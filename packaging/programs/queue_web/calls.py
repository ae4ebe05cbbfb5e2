"""The paths that bqd-web serves."""
import asyncio
import contextlib
import hmac
import json
import pathlib
import re
import secrets

from queue_client import Fault, STATES
from queue_client.journal import INFO, report
from queue_client.picture import numbers_of, picture, rates_of, RATES
from queue_client.texts import TUBE_NAME
from queue_client.version import VERSION
from queue_client.words import LARGEST_NUMBER

from . import history
from .connections import Answer, text
from .exposition import CONTENT_TYPE, exposition
from .watcher import DEFAULT, Busy

FOLDER = pathlib.Path(__file__).parent / "page"

# The files of the page, which are all read at the start. No other file is ever read.
FILES = {
    "/": ("page.html", "text/html; charset=utf-8"),
    "/page.css": ("page.css", "text/css; charset=utf-8"),
    "/page.js": ("page.js", "text/javascript; charset=utf-8"),
    "/charts.js": ("charts.js", "text/javascript; charset=utf-8"),
    "/icon.svg": ("icon.svg", "image/svg+xml"),
}

# The placeholder in the page for the token of the actions.
TOKEN = b"@TOKEN@"

# The largest number of jobs that one action of the page kicks or deletes.
MOST_KICKED = MOST_CLEARED = 1000

LARGEST_ID = (1 << 64) - 1


def as_json(value, status=200):
    """Returns an answer of JSON."""
    return Answer(status, "application/json", json.dumps(value, separators=(",", ":")).encode())


class Calls:
    """Answers requests from what a watcher knows. With `actions` it also accepts those that change something."""

    def __init__(self, watcher, server, names, actions):
        self.watcher, self.server, self.names = watcher, server, names
        self.token = secrets.token_urlsafe(32) if actions else ""
        self.pages = {path: Answer(200, kind, (FOLDER / name).read_bytes()) for path, (name, kind) in FILES.items()}
        self.pages["/"] = self.pages["/"]._replace(body=self.pages["/"].body.replace(TOKEN, self.token.encode()))
        self.shown = self.view = None
        self.read = {"/metrics": self._metrics, "/api/state": self._state, "/api/sparks": self._sparks, "/api/tube": self._tube,
                     "/api/buried": self._buried}
        acts = {"kick": self._kick, "pause": self._pause, "unpause": self._unpause, "delete": self._delete,
                "kick-job": self._kick_job, "clear": self._clear}
        self.acts = {f"/api/{name}": act for name, act in acts.items()} if actions else {}

    async def answer(self, request):
        """Answers a request."""
        # Monitoring may use any host name; metrics reveal nothing about the contents of jobs.
        if request.path != "/metrics" and not self.names.knows(request.headers.get("host", "")):
            return text(421, "this name is not known here: start bqd-web with --host NAME")
        if request.path in self.acts and request.method == "POST":
            return await self._act(request)
        if request.path not in self.pages and request.path not in self.read:
            return text(404, "there is nothing here")
        if request.method not in ("GET", "HEAD"):
            return text(405, "this can only be read")
        return self.pages.get(request.path) or await self.read[request.path](request)

    async def _metrics(self, _):
        return Answer(200, CONTENT_TYPE, exposition(self.watcher.view))

    async def _state(self, _):
        """Returns what is known of the server and its tubes. It is computed once for each reading."""
        view = self.watcher.view
        if view is not self.view:
            known = {"server": self.server, "up": view.up, "since": round(view.since, 3), "why": view.why, "version": VERSION,
                     "seats": view.seats, "restart": view.restart and {"time": round(view.restart.time, 3), "jobs": view.restart.jobs}}
            self.shown = as_json({**known, **(picture(self.server, view.earlier, view.later) if view.up else {})})
            self.view = view
        return self.shown

    async def _sparks(self, _):
        return as_json({"every": history.EVERY * history.POINTS / history.SPARK_POINTS, "tubes": self.watcher.sparks()})

    async def _tube(self, request):
        """Returns a tube, its last ten minutes, and its first jobs."""
        name, view = request.words.get("name", ""), self.watcher.view
        if not view.up or name not in view.later.tubes:
            return as_json({"name": name, "up": view.up, "why": view.why, "gone": view.up}, 503 if not view.up else 404)
        try:
            first = await asyncio.wrap_future(self.watcher.look(name))
        except (Fault, Busy) as fault:
            return as_json({"name": name, "up": self.watcher.view.up, "why": str(fault) or "too much is asked at once"}, 503)
        passed = view.later.moment - view.earlier.moment if view.earlier else None
        before, now = view.earlier and view.earlier.tubes.get(name), view.later.tubes[name]
        known = {"name": name, "up": True, **numbers_of(now), **rates_of(RATES, before, now, passed)}
        counts = {"puts": now["total-jobs"], "deletes": now["cmd-delete"], "pauses": now.get("cmd-pause-tube")}
        return as_json({**known, **counts, "every": history.EVERY, "points": self.watcher.points(name), "first": first})

    async def _buried(self, request):
        """Returns some of the buried jobs of a tube."""
        name, first, until = request.words.get("name", ""), request.words.get("from"), request.words.get("until")
        if not all(it is None or re.fullmatch("[0-9]{1,19}", it) for it in (first, until)):
            return text(400, "the ids are malformed")
        view = self.watcher.view
        if not view.up or name not in view.later.tubes:
            return as_json({"failed": view.why or f"there is no tube {name} now"}, 404 if view.up else 503)
        try:
            found = await asyncio.wrap_future(self.watcher.search(name, first and int(first), until and int(until)))
        except (Fault, Busy) as fault:
            return as_json({"failed": str(fault) or "too much is asked at once"}, 503)
        return as_json(found or {"failed": f"there is no tube {name} any more"}, 200 if found else 404)

    async def _act(self, request):
        """Carries out an action if the request comes from the page that this server served."""
        refused = self._forged(request)
        if refused:
            return refused
        try:
            asked = json.loads(request.body)
            task = self.acts[request.path](asked)
        except (ValueError, KeyError, TypeError, RecursionError):
            return text(400, "the words of the action are malformed")
        try:
            done = await asyncio.wrap_future(self.watcher.ask(task))
        except (Fault, Busy) as fault:
            done = {"failed": str(fault) or "too much is asked at once"}
            self._log(request, done)
            return as_json(done, 503)
        self._log(request, done)
        return as_json(done, 409 if "failed" in done else 200)

    @staticmethod
    def _log(request, done):
        """Writes what an action did, or why it failed, to the log. Behind a proxy the address is the proxy's."""
        what = done["done"] if "done" in done else f"{request.path.rpartition('/')[2]} failed: {done['failed']}"
        with contextlib.suppress(OSError):
            report(INFO, f"bqd-web: {request.peer or 'unix socket'}: {what}")

    def _forged(self, request):
        """Returns the answer to a request from another site's page, or None if the request is genuine."""
        headers = request.headers
        if headers.get("content-type", "").partition(";")[0].strip().lower() != "application/json":
            return text(415, "an action is JSON")
        if headers.get("origin", "").partition("://")[2] != headers.get("host"):
            return text(403, "the request comes from another site")
        if headers.get("sec-fetch-site", "same-origin") != "same-origin":
            return text(403, "the request comes from another site")
        if not hmac.compare_digest(headers.get("x-bqd-token", "").encode(), self.token.encode()):
            return text(403, "the token is wrong: load the page again")
        return None

    @staticmethod
    def _kick(asked):
        name, count = tube_of(asked), number_of(asked, "count", 1, MOST_KICKED)

        def task(server):
            if server.tube(name) is None:
                return {"failed": f"there is no tube {name} any more"}
            server.use(name)
            kicked = server.kick(count)
            server.use(DEFAULT)
            return {"done": f"kicked {kicked} of {name}"}
        return task

    @staticmethod
    def _pause(asked):
        name, seconds = tube_of(asked), number_of(asked, "seconds", 1, LARGEST_NUMBER)
        return lambda server: paused(server, name, seconds, f"paused {name} for {seconds} seconds")

    @staticmethod
    def _unpause(asked):
        name = tube_of(asked)
        return lambda server: paused(server, name, 0, f"{name} is not paused any more")

    @staticmethod
    def _delete(asked):
        """Deletes the job that was shown, if it is still in that tube and in a state in which it can be shown."""
        name, job_id = tube_of(asked), id_of(asked)

        def task(server):
            about = server.job(job_id)
            if not about or about.get("tube") != name or about.get("state") not in STATES or not server.delete(job_id):
                return {"failed": f"job {job_id} is not in {name} any more, or a worker has it"}
            return {"done": f"deleted job {job_id} of {name}"}
        return task

    @staticmethod
    def _kick_job(asked):
        """Kicks the job that was shown, if it is still in that tube."""
        name, job_id = tube_of(asked), id_of(asked)

        def task(server):
            about = server.job(job_id)
            if not about or about.get("tube") != name or not server.kick_job(job_id):
                return {"failed": f"job {job_id} of {name} is not buried or delayed any more"}
            return {"done": f"kicked job {job_id} of {name}"}
        return task

    @staticmethod
    def _clear(asked):
        """Deletes the first jobs of a state, and reports how many."""
        name, state, count = tube_of(asked), asked["state"], number_of(asked, "count", 1, MOST_CLEARED)
        if state not in STATES:
            raise ValueError

        def task(server):
            if server.tube(name) is None:
                return {"failed": f"there is no tube {name} any more"}
            server.use(name)
            deleted, job = 0, server.peek(state)
            while job and deleted < count:
                is_deleted, job = server.delete_and_peek(job.id, state)
                deleted += is_deleted
            server.use(DEFAULT)
            return {"done": f"deleted {deleted} {state} {'job' if deleted == 1 else 'jobs'} of {name}", "count": deleted}
        return task


def paused(server, name, seconds, done):
    """Pauses a tube, or ends its pause. Returns what was done."""
    return {"done": done} if server.pause(name, seconds) else {"failed": f"there is no tube {name} any more"}


def tube_of(asked):
    """Returns the tube of an action."""
    if not isinstance(asked["tube"], str) or not TUBE_NAME.fullmatch(asked["tube"]):
        raise ValueError
    return asked["tube"]


def id_of(asked):
    """Returns the id of an action, which is text because a number of the page is not exact."""
    if not isinstance(asked["id"], str):
        raise ValueError
    return number_of({"id": int(asked["id"])}, "id", 1, LARGEST_ID)


def number_of(asked, key, least, most):
    """Returns a number of an action."""
    value = asked[key]
    if type(value) is not int or not least <= value <= most:
        raise ValueError
    return value
