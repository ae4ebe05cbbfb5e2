"""Checks that the version is one number everywhere: in the programs, in README.md, and at the head of CHANGELOG.md."""
import re

from pages import ROOT

# The files that have the number, and what is before it there.
PLACES = {
    "crates/bq_program/src/command_line/commands.rt": r'VERSION: &str = "([^"]*)"',
    "CHANGELOG.md": r"^## (\S+) \(",
    "README.md": r"^Version ([\d.]+\d)",
    "packaging/programs/queue_client/version.py": r'^VERSION = "([^"]*)"',
}


def versions():
    """Returns the newest version that each place has."""
    return {file: re.search(shape, (ROOT / file).read_text(), re.M)[1] for file, shape in PLACES.items() if (ROOT / file).exists()}


def faults():
    """Returns what is wrong: places with different versions."""
    found = versions()
    return [f"the versions differ: {found}"] if len(set(found.values())) > 1 else []
