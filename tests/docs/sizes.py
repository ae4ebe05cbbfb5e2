"""How large the tree is, as pages say it: lines to read, of code, of definitions, of proofs and of tests; planted bugs.

    python3 tests/docs/sizes.py

By hand it prints what the pages have to say.
"""
import functools
import sys

from pages import ROOT

# Nothing is left behind beside these files.
sys.dont_write_bytecode = True
sys.path.insert(1, str(ROOT / "tools"))
sys.path.insert(1, str(ROOT / "tools/caught_by_tests"))

import crates
import plants
import reach

# The crates of tests.
TESTS = ["_tests", "bq_scenes"]


def is_of_tests(name):
    return name.endswith(tuple(TESTS))


def lines_of(folder, suffix):
    """Returns how many lines the files of a folder have, without what was built."""
    files = [it for it in folder.rglob(f"*{suffix}") if "out" not in it.relative_to(ROOT).parts]
    return sum(it.read_bytes().count(b"\n") for it in files)


@functools.lru_cache(maxsize=None)
def lines():
    """Returns how many lines of each kind there are."""
    found = {"code": 0, "definitions": 0, "proofs": 0, "tests": 0, "tools": 0}
    for name in crates.listed():
        folder = crates.folder(name)
        if is_of_tests(name):
            found["tests"] += lines_of(folder, ".rt") + lines_of(folder, ".antt")
            continue
        found["code"] += lines_of(folder / "src", ".rt")
        found["definitions"] += lines_of(folder / "specs", ".antt")
        found["proofs"] += lines_of(folder / "proofs", ".antt")
    for folder in ["tests", "tools"]:
        found["tools"] += lines_of(ROOT / folder, ".py") + lines_of(ROOT / folder, ".c")
    return found


def thousands(kind):
    return f"{round(lines()[kind], -3):,}"


@functools.lru_cache(maxsize=None)
def bugs():
    """Returns the numbers of planted bugs: edits, pages of the gate, other pages, and those that a test has to find."""
    folders = [crates.folder(it) / "must-fail" for it in crates.listed()]
    pages = [it for folder in folders for it in folder.rglob("*.md")]
    in_gate = [it for it in pages if it.parent.name == "gate"]
    edits = [it for folder in folders for it in folder.glob("*.edit")]
    for_tests = [it for it in plants.listed_ends().values() if it.split(" ", 1)[0] in ("test", "sometimes")]
    return len(edits), len(in_gate), len(pages) - len(in_gate), len(for_tests)


def tens(number):
    """Returns a number in words that stay true while a few are added."""
    return f"more than {(number - 1) // 10 * 10}"


def wanted():
    """Returns the texts that pages have to have, each with its page."""
    edits, in_gate, by_hand, for_tests = bugs()
    return [
        ("README.md", f"prover has to refuse {tens(edits + in_gate)} planted bugs in the gate, and {tens(by_hand)} by hand"),
        ("README.md", f"have to find {tens(for_tests)} planted bugs that no contract sees"),
        ("docs/PROOF.md", f"| code with its contracts | {thousands('code')} |"),
        ("docs/PROOF.md", f"| definitions, with those that a reader needs not | {thousands('definitions')} |"),
        ("docs/PROOF.md", f"| proofs, which the kernel checks | {thousands('proofs')} |"),
        ("docs/PROOF.md", f"| tests in Rattle; in Python and C | {thousands('tests')}; {thousands('tools')} |"),
        ("docs/PROOF.md", "| planted bugs that the prover has to refuse: in the gate; by hand | "
                          f"{tens(edits + in_gate)}; {tens(by_hand)} |"),
        ("docs/PROOF.md", f"| planted bugs that tests have to find | {tens(for_tests)} |"),
        *(("docs/PROOF.md", it) for it in reach.rows()),
    ]


def faults():
    """Returns what pages say differently."""
    return [f"{page} lacks: {text}" for page, text in wanted() if text not in (ROOT / page).read_text()]


if __name__ == "__main__":
    for page, text in wanted():
        print(f"{page}: {text}")
