"""The pages of the repository: what they show as commands, and what they show as code."""
import collections
import pathlib
import re

ROOT = pathlib.Path(__file__).resolve().parent.parent.parent

# A piece of a page: the page's path, the line that it begins in, and its text.
Piece = collections.namedtuple("Piece", "page line text")


def markdown():
    """The pages in Markdown."""
    return sorted([*ROOT.glob("*.md"), *ROOT.glob("docs/*.md"), *ROOT.glob("packaging/*.md"), *ROOT.glob("crates/*.md")])


def manuals():
    """The man pages."""
    return sorted(ROOT.glob("packaging/*.1"))


def blocks(page):
    """The blocks of code of a page: the kind of each, and the piece."""
    text = page.read_text()
    for found in re.finditer(r"^```(\w*)\n(.*?)^```", text, re.M | re.S):
        yield found[1], Piece(page, text.count("\n", 0, found.start()) + 2, found[2])


def codes(page):
    """What stands as code within the sentences of a page."""
    text = re.sub(r"^```\w*\n.*?^```", lambda found: "\n" * found[0].count("\n"), page.read_text(), flags=re.M | re.S)
    for number, line in enumerate(text.split("\n"), 1):
        for found in re.finditer(r"`([^`]+)`", line):
            yield Piece(page, number, found[1])


def shell_lines(page):
    """The lines of a page's blocks of shell, without their comments."""
    for kind, block in blocks(page):
        for number, line in enumerate(block.text.splitlines() if kind == "sh" else []):
            text = re.sub(r"\s+#\s.*$", "", line).strip()
            if text:
                yield Piece(page, block.line + number, text)


def manual_commands(page):
    """The commands that a man page shows on lines of their own."""
    for number, line in enumerate(page.read_text().splitlines(), 1):
        if line.startswith(".Dl "):
            yield Piece(page, number, line[4:].replace("\\e", "\\").replace("\\-", "-"))


def manual_options(page):
    """The options that a man page names, as one writes them, and whether it is of the page's own program."""
    for number, line in enumerate(page.read_text().splitlines(), 1):
        for name in re.findall(r"\bFl ([-\w]+)", line) + re.findall(r"^\.It Fl [-\w]+ , ([-\w]+)", line):
            yield Piece(page, number, "-" + name)


def place(piece):
    return f"{piece.page.relative_to(ROOT)}:{piece.line}"
