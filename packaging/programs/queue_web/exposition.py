"""What is known of a server in the exposition format of Prometheus, version 0.0.4.

It is written here and not by Debian's python3-prometheus-client: that would be one more package that every user of the
server installs, for two rules of quoting, and at 2,000 tubes it takes seven times as long.
"""
from queue_client.reading import COUNTS, DELETES, PUTS, TIMEOUTS

CONTENT_TYPE = "text/plain; version=0.0.4; charset=utf-8"

# Metrics of the server: name, help, and the statistic that is its value.
OF_SERVER = [
    ("bqd_urgent_jobs", "Ready jobs of all tubes with a priority below 1024.", "current-jobs-urgent"),
    ("bqd_server_puts_total", "Puts that were accepted since the server started.", PUTS),
    ("bqd_timeouts_total", "Times to run that ended since the server started.", TIMEOUTS),
    ("bqd_tubes", "Tubes that exist.", "current-tubes"),
    ("bqd_connections", "Connections that are served, bqd-web's own among them.", "current-connections"),
    ("bqd_waiting", "Connections that wait for a job.", "current-waiting"),
    ("bqd_accepted_connections_total", "Connections since the server started.", "total-connections"),
    ("bqd_max_job_size_bytes", "The largest body that the server takes.", "max-job-size"),
]

# Metrics that the server's statistics do not have. bqd-web knows them, or not.
OF_PAGE = [
    ("bqd_seats", "How many connections the server serves at a time.", "seats"),
    ("bqd_started_timestamp_seconds", "When bqd-web first saw the server since it started, in Unix time.", "started"),
]

# Metrics of each tube, the same way.
OF_TUBE = [
    ("bqd_puts_total", "Puts into the tube since it has existed.", PUTS),
    ("bqd_deletes_total", "Jobs that were deleted from the tube since it has existed.", DELETES),
    ("bqd_pauses_total", "Pauses of the tube since it has existed.", "cmd-pause-tube"),
    ("bqd_tube_urgent_jobs", "Ready jobs of the tube with a priority below 1024.", "current-jobs-urgent"),
    ("bqd_tube_using", "Connections that put into the tube.", "current-using"),
    ("bqd_tube_watching", "Connections that watch the tube.", "current-watching"),
    ("bqd_tube_waiting", "Connections that watch the tube and wait for a job.", "current-waiting"),
    ("bqd_tube_pause_seconds", "Seconds until the pause of the tube ends, 0 if it is not paused.", "pause-time-left"),
]


def exposition(view):
    """Returns the metrics of a view. If the server does not answer they say that, and nothing else."""
    lines = family("bqd_up", "Whether the server answers: 1 or 0.", [("", int(view.up))])
    if view.up:
        found = view.later.server
        lines += family("bqd_reading_seconds", "How long the last reading of the statistics took.", [("", f"{view.took:.6f}")])
        lines += family("bqd_draining", "Whether the server drains, and takes no puts: 1 or 0.", [("", int(found["draining"] == "true"))])
        lines += states("bqd_server_jobs", "Jobs of all tubes by their state.", [({}, found)])
        lines += families(OF_SERVER, [({}, found)])
        lines += families(OF_PAGE, [({}, known_of(view))])
        tubes = [({"tube": name}, tube) for name, tube in view.later.tubes.items()]
        lines += states("bqd_jobs", "Jobs of the tube by their state.", tubes)
        lines += families(OF_TUBE, tubes)
    return "".join(it + "\n" for it in lines).encode()


def known_of(view):
    """Returns what bqd-web knows of the server besides its statistics, by the words of OF_PAGE."""
    started = getattr(view, "started", None)
    return {"seats": getattr(view, "seats", None), "started": int(started) if started is not None else None}


def states(name, about, found):
    """Returns the lines of a metric that counts jobs by their state. `found` has statistics, each with the labels of its samples."""
    return family(name, about, [(labels(**of, state=state), it[key]) for of, it in found for state, key in COUNTS.items()])


def families(metrics, found):
    """Returns the lines of metrics, for the statistics that are numbers. `found` has these, each with the labels of its samples."""
    named = [(labels(**of), it) for of, it in found]
    lines = []
    for name, about, key in metrics:
        lines += family(name, about, [(of, it[key]) for of, it in named if isinstance(it.get(key), int)])
    return lines


def family(name, about, samples):
    """Returns the lines of a metric and its samples, each with its labels; nothing if there are none.

    A metric is a counter if its name ends in _total, as the format's conventions have it, and else a gauge.
    """
    kind = "counter" if name.endswith("_total") else "gauge"
    head = [f"# HELP {name} {about}", f"# TYPE {name} {kind}"] if samples else []
    return head + [f"{name}{of} {value}" for of, value in samples]


def labels(**values):
    """Returns labels, with their values quoted; nothing if there are none."""
    return "{" + ",".join(f'{name}="{quoted(value)}"' for name, value in values.items()) + "}" if values else ""


def quoted(value):
    return value.replace("\\", "\\\\").replace('"', '\\"').replace("\n", "\\n")
