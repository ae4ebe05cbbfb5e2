"""The dates of pages.

The decisions of docs/DECISIONS.md are in their order from the oldest on, the versions of CHANGELOG.md from the newest.
CONTRIBUTING.md has a row for each command that is run by hand before a release, and says when it was last seen to pass.
"""
import re

from pages import ROOT, shell_lines

# A date in a sentence.
DATE = re.compile(r"\b\d{1,2} (?:January|February|March|April|May|June|July|August|September|October|November|December) 20\d\d\b")


def falling(dates):
    """Returns the dates that are earlier than the one before."""
    return [later for earlier, later in zip(dates, dates[1:]) if later < earlier]


def undated():
    """Returns the commands before a release that have no row with a date."""
    page = ROOT / "CONTRIBUTING.md"
    part = page.read_text().partition("## Before a release\n")[2].partition("\n## ")[0]
    rows = dict(re.findall(r"^\| `([^`]*)` \|.*\| ([^|]*) \|$", part, re.M))
    programs = [re.search(r"(?:tools|tests)/\S+", it.text)[0] for it in shell_lines(page) if it.text in part]
    return [it for it in programs if not DATE.search(rows.get(it, ""))] if programs else ["any command"]


def faults():
    """Returns the dates that are out of order or missing."""
    decisions = re.findall(r"^### (\d{4}-\d\d-\d\d): ", (ROOT / "docs/DECISIONS.md").read_text(), re.M)
    versions = re.findall(r"^## \S+ \((\d{4}-\d\d-\d\d)\)$", (ROOT / "CHANGELOG.md").read_text(), re.M)
    found = [f"docs/DECISIONS.md: {it} is after a later date" for it in falling(decisions)]
    found += [f"CHANGELOG.md: {it} is before an earlier date" for it in falling(versions[::-1])]
    return found + [f"CONTRIBUTING.md does not say when {it} was last seen to pass" for it in undated()]
