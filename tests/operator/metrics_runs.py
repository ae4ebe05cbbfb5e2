"""Runs of what is built on the metrics of bqd-web: the alarms and the dashboard."""
import json
import pathlib
import re
import shutil
import sys
import types

from canned import PROGRAMS
from programs import ended, same

HERE = pathlib.Path(__file__).resolve().parent
PACKAGING = PROGRAMS.parent

# A metric in an expression.
NAMED = re.compile(r"\bbqd_\w+")


def all_metrics():
    """Returns the names of all metrics, from a view in which everything is known."""
    sys.path.insert(0, str(PROGRAMS))
    from queue_web import exposition

    rows = exposition.OF_SERVER + exposition.OF_TUBE
    found = {**{key: 1 for _, _, key in rows}, **{key: 1 for key in exposition.COUNTS.values()}, "draining": "false"}
    later = types.SimpleNamespace(server=found, tubes={"mail": found})
    view = types.SimpleNamespace(up=True, later=later, took=0.1, seats=256, started=1.5)
    return set(re.findall(r"^# TYPE (\w+)", exposition.exposition(view).decode(), re.M))


def expressions(part):
    """Returns each expression of a dashboard, and each query of its variables."""
    if isinstance(part, dict):
        own = [it for name, it in part.items() if name in ("expr", "query") and isinstance(it, str)]
        return own + [it for inner in part.values() for it in expressions(inner)]
    return [it for inner in part for it in expressions(inner)] if isinstance(part, list) else []


def run_metrics_of_dashboard():
    """The dashboard names only metrics that bqd-web has, and each of its places is free."""
    dashboard = json.loads((PACKAGING / "bqd-grafana.json").read_text())
    named = {name for it in expressions(dashboard) for name in NAMED.findall(it)}
    assert len(named) > 12, named
    same(named - all_metrics(), set())
    panels = dashboard["panels"]
    same(len({it["id"] for it in panels}), len(panels))
    cells = [(x, y) for it in panels for at in [it["gridPos"]] for x in range(at["x"], at["x"] + at["w"]) for y in range(at["y"], at["y"] + at["h"])]
    same((len(set(cells)), max(x for x, _ in cells)), (len(cells), 23))


def run_metrics_of_alarms():
    """The alarms name only metrics that bqd-web has, and each has a test."""
    rules = (PACKAGING / "bqd-alerts.yml").read_text()
    same(set(NAMED.findall(rules)) - all_metrics(), set())
    tested = re.findall(r"^  - name: (Bqd\w+)", (HERE / "alerts.yml").read_text(), re.M)
    same(tested, re.findall(r"^      - alert: (Bqd\w+)", rules, re.M))


def run_metrics_unknown():
    """The number of seats and the start are left out as long as bqd-web does not know them, and else are there."""
    sys.path.insert(0, str(PROGRAMS))
    from queue_web.exposition import OF_PAGE, families, known_of

    same(families(OF_PAGE, [({}, known_of(types.SimpleNamespace()))]), [])
    lines = families(OF_PAGE, [({}, known_of(types.SimpleNamespace(seats=16, started=1790000000.75)))])
    same([it for it in lines if it[0] != "#"], ["bqd_seats 16", "bqd_started_timestamp_seconds 1790000000"])


def run_alarms_fire():
    """Each alarm fires when it should, and not else. This needs promtool, of Debian's package prometheus."""
    if not shutil.which("promtool"):
        print("the alarms were not tried: there is no promtool here")
        return
    for words in [["check", "rules", PACKAGING / "bqd-alerts.yml"], ["test", "rules", HERE / "alerts.yml"]]:
        found = ended(shutil.which("promtool"), *words)
        assert found.status == 0, (found.output + found.errors).decode()
