"""Planted bugs: the texts of a file that each replaces, and the end that ends.txt gives it."""
import dataclasses
import pathlib

from crates import ROOT

HERE = pathlib.Path(__file__).resolve().parent

# The lines of a page. `after` says where its `old` is looked for, if that text is in the file more than once.
KEYS = ("file", "after", "old", "new")


@dataclasses.dataclass(frozen=True)
class Change:
    """A text that is replaced: the only one in its file, or the first one after a text that is there once."""

    after: str
    old: str
    new: str

    def place(self, text):
        """Returns where the text begins that is replaced, or None if it is not clear where that is."""
        if self.after:
            return text.find(self.old, text.find(self.after) + len(self.after)) if text.count(self.after) == 1 else None
        return text.find(self.old) if text.count(self.old) == 1 else None

    def span(self, text):
        """Returns the smallest piece of the text that differs, as its begin, its end and what replaces it, or None."""
        begin = self.place(text)
        if begin in (None, -1):
            return None
        old, new = self.old, self.new
        same = next((at for at, (a, b) in enumerate(zip(old, new)) if a != b), min(len(old), len(new)))
        begin, old, new = begin + same, old[same:], new[same:]
        same = next((at for at, (a, b) in enumerate(zip(reversed(old), reversed(new))) if a != b), min(len(old), len(new)))
        return begin, begin + len(old) - same, new[: len(new) - same]


def changes_of(path):
    """Returns the file that a page changes, and the changes."""
    file, after, old, changes = None, "", None, []
    for line in path.read_text().splitlines():
        key, _, text = line.partition(":")
        text = text.removeprefix(" ")
        if key not in KEYS:
            continue
        if key == "file":
            file = text.strip()
        elif key == "after":
            after = text
        elif key == "old":
            old = text
        else:
            changes.append(Change(after, old, text))
            after, old = "", None
    return file, changes


def replaced(text, spans):
    """Returns a text with these spans replaced."""
    for begin, end, new in sorted(spans, reverse=True):
        text = text[:begin] + new + text[end:]
    return text


class Plant:
    """A planted bug: the file of a crate that it changes, the changes, and the end that ends.txt gives it."""

    def __init__(self, path, ends):
        self.path = path
        self.file, self.changes = changes_of(path)
        # A crate's own edit is in crates/NAME/must-fail, or in a folder of that.
        of_crate = path.is_relative_to(ROOT / "crates")
        self.crate = path.relative_to(ROOT / "crates").parts[0] if of_crate else path.parent.name
        self.name = f"{self.crate}/{path.stem}"
        self.end = ends.get(self.name, "clause" if of_crate else "none")

    def expected_trial(self):
        """Returns the name of the trial that is expected to fail for it, and its part."""
        kind, _, rest = self.end.partition(" ")
        name, _, part = rest.partition(" ")
        return (name, part) if kind in ("test", "sometimes", "untried") else (None, None)

    def fails_sometimes(self):
        """Returns true if a test is expected to fail for it now and then, and not each time."""
        return self.end.startswith("sometimes ")

    def path_in(self, root):
        """Returns the file that it changes in a copy."""
        return root / "crates" / self.crate / self.file

    def spans(self, text):
        """Returns what it changes in the text of its file, in the order of the places, or None if it does not apply."""
        found = [it.span(text) for it in self.changes]
        if not found or None in found:
            return None
        found.sort()
        is_apart = all(first[1] <= second[0] for first, second in zip(found, found[1:]))
        return found if is_apart else None

    def made_in(self, root):
        """Makes the changes in a copy. Returns true if they apply there."""
        path = self.path_in(root)
        spans = self.spans(path.read_text()) if path.is_file() else None
        if spans:
            path.write_text(replaced(path.read_text(), spans))
        return spans is not None


def listed_ends():
    """Returns the end that ends.txt gives each bug, by the bug's name."""
    lines = (HERE / "ends.txt").read_text().splitlines()
    return dict(it.split(": ", 1) for it in lines if it and not it.startswith("#"))
