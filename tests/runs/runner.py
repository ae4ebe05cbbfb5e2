"""Runs functions as tests, and counts those that pass."""
import collections
import concurrent.futures
import multiprocessing
import signal
import traceback

# A test: a function that raises if something is wrong, its arguments, and a word for these if it is run with several.
Test = collections.namedtuple("Test", "run arguments variant", defaults=[None])


def functions(module, prefix):
    """Returns the functions of a module whose names begin with a prefix, in their order."""
    return [value for name, value in vars(module).items() if name.startswith(prefix)]


def add_names(parser):
    """Lets a command line choose tests by words in their names."""
    text = "the runs that have one of these words in their names, or one that begins with run_ as their name; all, unless given"
    parser.add_argument("names", metavar="NAME", nargs="*", help=text)


def by_hand(run):
    """Marks a run that the gate leaves out: it is chosen only if a command line names it as a whole."""
    run.is_by_hand = True
    return run


def is_chosen(run, names):
    """Returns true if the words of a command line choose a function. One that begins with `run_` is a whole name, or
    `run_by_hand`, which means all that the gate leaves out."""
    is_by_hand = getattr(run, "is_by_hand", False)
    if run.__name__ in names or (is_by_hand and "run_by_hand" in names):
        return True
    parts = [it for it in names if not it.startswith("run_")]
    return not is_by_hand and (not names or any(it in run.__name__ for it in parts))


def allow_interrupts():
    """Ends this process and what it starts by SIGINT, even if it was started in the background, where the signal is ignored."""
    signal.signal(signal.SIGINT, signal.default_int_handler)


def failure(test):
    """Runs a test. Returns None, or a report of what went wrong."""
    try:
        test.run(*test.arguments)
        return None
    except Exception:
        variant = f" ({test.variant})" if test.variant else ""
        return f"FAILED {test.run.__module__}.{test.run.__name__}{variant}: {test.run.__doc__}\n{traceback.format_exc()}"


def failures(tests, lanes):
    """Yields what `failure` returns for each test, `lanes` of them side by side in processes of their own, or one after another here."""
    if lanes == 1:
        yield from map(failure, tests)
        return
    with concurrent.futures.ProcessPoolExecutor(lanes, multiprocessing.get_context("fork")) as pool:
        yield from pool.map(failure, tests)


def run_all(tests, lanes=1):
    """Runs tests and prints each failure, then how many passed and failed. Returns the status of the program."""
    passed, failed = 0, 0
    for found in failures(tests, lanes):
        passed, failed = passed + (found is None), failed + (found is not None)
        if found is not None:
            print(found, end="", flush=True)
    print(f"{passed} passed, {failed} failed")
    return 1 if failed or not passed else 0
