"""The two engines of `bqd`, which serve its connections."""

# The options that select each: a thread for each connection, or one thread for all.
ENGINES = {"threads": [], "event-loop": ["--event-loop"]}


class Engine(str):
    """The path of `bqd`, with the options that select one of its engines."""

    def __new__(cls, path, name="threads"):
        made = super().__new__(cls, path)
        made.name = name
        return made

    @property
    def words(self):
        return ENGINES[self.name]

    @property
    def is_loop(self):
        return self.name == "event-loop"


def engines_of(path, name=None):
    """Returns the program with each of its engines, or with this one only."""
    return [Engine(path, it) for it in ENGINES if name in (None, it)]


def of_threads(run):
    """Marks a run of bqd that is about its threads."""
    run.engines = ["threads"]
    return run


def of_loop(run):
    """Marks a run of bqd that is about its event loop."""
    run.engines = ["event-loop"]
    return run


def add_choice(parser):
    """Adds an option that selects one engine."""
    parser.add_argument("--engine", choices=sorted(ENGINES), help="one of the two engines of bqd; both, unless given")
