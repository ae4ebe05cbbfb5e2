"""The length of README.md: it is for a reader with five minutes."""
import re

from pages import ROOT

# How many words it has at most, those of its tables and examples too.
MOST = 700


def words():
    """Returns how many words README.md has: what has a letter or a digit."""
    text = (ROOT / "README.md").read_text().replace("|", " ")
    return sum(1 for it in text.split() if re.search(r"\w", it))


def faults():
    """Returns that it is too long, if it is."""
    return [f"README.md has {words()} words, more than {MOST}"] if words() > MOST else []
