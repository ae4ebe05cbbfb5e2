"""Checks the diagram of docs/ARCHITECTURE.md: it shows the crates as crates.txt has them, with direct edges only. Checks
that crates/README.md lists each crate, after those that it uses.

    python3 tests/docs/layers.py

By hand it prints the lines of the diagram as they have to be.
"""
import re
import sys

from pages import ROOT, blocks

# Nothing is left behind beside these files.
sys.dont_write_bytecode = True
sys.path.insert(1, str(ROOT / "tools"))

import crates

# The crates that are used from outside. The diagram has these and all that they need, so no crates of tests.
TOPS = ["bq", "bqd", "bq_cli", "bq_serve"]

PAGE = ROOT / "docs/ARCHITECTURE.md"
LIST = ROOT / "crates/README.md"


def edges():
    """Returns the direct edges, each a crate and one that it uses and reaches by no other way."""
    uses = crates.listed()
    found = []
    for name in crates.with_needs(TOPS, uses):
        own = crates.ours(name, uses)
        reached = {it for used in own for it in crates.below(used, uses)}
        found += [(name, it) for it in own if it not in reached]
    return found


def shown_edges():
    """Returns the edges of the diagram."""
    return [edge for kind, block in blocks(PAGE) if kind == "mermaid" for edge in re.findall(r"^ *(\w+) --> (\w+)$", block.text, re.M)]


def faults_of_list():
    """Returns the crates that the list lacks, has without need, or has before one that they use."""
    listed, uses = re.findall(r"\[(\w+)\]\(\1/src/\w+\.rt\)", LIST.read_text()), crates.listed()
    found = [f"crates/README.md lists {it} {listed.count(it)} times"
             for it in sorted({*uses, *listed}) if listed.count(it) != (it in uses)]
    for name in listed:
        later = [it for it in crates.ours(name, uses) if it in listed and listed.index(it) > listed.index(name)] if name in uses else []
        found += [f"crates/README.md: {name} is before {it}, which it uses" for it in later]
    return found


def faults():
    """Returns what the diagram lacks, and what it has although it is no direct edge; and the faults of the list."""
    wanted, shown = set(edges()), set(shown_edges())
    lacks = [f"docs/ARCHITECTURE.md: the diagram lacks {one} --> {other}" for one, other in sorted(wanted - shown)]
    more = [f"docs/ARCHITECTURE.md: {one} --> {other} is no direct edge" for one, other in sorted(shown - wanted)]
    return lacks + more + faults_of_list()


if __name__ == "__main__":
    for one, other in edges():
        print(f"    {one} --> {other}")
