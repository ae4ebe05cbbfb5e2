#!/usr/bin/env python3
"""Prints CHANGELOG.md as the changelog of the Debian package: packaging/changelog.py

Each version is a heading `## VERSION (DATE)`, and each change an item `- ..`. A line before items that is no item heads
them. A link becomes its text. The maintainer is that of the package.
"""
import datetime
import pathlib
import re
import textwrap

ROOT = pathlib.Path(__file__).resolve().parent.parent


def versions(text):
    """Returns each version with its date and its lines, newest first."""
    parts = re.split(r"^## (\S+) \((\d{4}-\d\d-\d\d)\)$", text, flags=re.M)[1:]
    return list(zip(parts[::3], parts[1::3], parts[2::3]))


def changes(text):
    """Returns the lines of a version in Debian's form. An item is a `*`, also if it has a heading."""
    found, heading = [], ""
    for line in filter(None, text.splitlines()):
        if line.startswith("- "):
            words = re.sub(r"\[([^\]]*)\]\([^)]*\)", r"\1", f"{heading}{line[2:]}").replace("`", "")
            found += textwrap.wrap(words, 76, initial_indent="  * ", subsequent_indent="    ", break_on_hyphens=False)
        else:
            heading = f"{line.rstrip(':')}: "
    return found


def stamp(date):
    """Returns a date in the form of a mail's header."""
    return datetime.datetime.strptime(date, "%Y-%m-%d").strftime("%a, %d %b %Y 12:00:00 +0000")


def main():
    maintainer = re.search(r"^Maintainer: (.*)$", (ROOT / "packaging/debian/control").read_text(), re.M)[1]
    entries = []
    for version, date, text in versions((ROOT / "CHANGELOG.md").read_text()):
        lines = [f"bqd ({version}) unstable; urgency=medium", "", *changes(text), "", f" -- {maintainer}  {stamp(date)}"]
        entries.append("\n".join(lines) + "\n")
    print("\n".join(entries), end="")


if __name__ == "__main__":
    main()
