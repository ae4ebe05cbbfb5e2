"""How the pages and comments read: counts of long sentences, of long table cells and of phrases that have a plainer form.

    python3 tests/docs/prose.py [--list]

Each count has a budget, and a count above it is a fault. Whoever rewrites a page lowers the budget to what is left;
nothing raises it. By hand it prints the counts, and with --list each place.
"""
import re
import sys

from pages import ROOT, Piece, manuals, markdown, place

# How many words a sentence and a table cell of a page have at most.
SENTENCE = 30
CELL = 40

# How many of each there may be. The aim is 0.
BUDGETS = {"long sentences in pages": 0, "long cells in pages": 0, "phrases in pages": 0, "phrases in comments": 0}

# Phrases that a reader has to translate, each with its plainer form.
PHRASES = {
    r"(?:^|[.:;] )Who(?: \w+)? (?!is\b)\w+s\b": "name the actor",
    r"\bwho (?:submits|waits|finds|holds|helps|rings|drops|asks|serves|closes|takes)\b": "name the actor",
    r"(?:^|[.:;] )Where [^.?]*,": "if, when",
    r"\b(?:is|are|was|were|be|been) told\b": "reports, returns",
    r"\bbehind (?:it|them|that|the|a|an|each|its|their)\b": "after",
    r"\bwas written (?:exactly|the|what)\b": "received the bytes",
    r"\bone more owner\b": "another reference",
    r"\ba growth\b|\bmemory (?:was|is) refused\b": "the allocation failed",
    r"\bat hand\b|\blies? there\b": "available, buffered",
    r"\bgives? back\b|\bgave back\b|\bgiven back\b": "returns",
    r"\bhands? on\b|\bhanded on\b": "passes on",
    r"\bcan't be had\b": "is not possible because",
    r"\bin one hand\b": "on one thread, owned by one value",
    r"\b[Tt]hat one which\b|\b[Oo]ne of them\b": "name it",
    r"\bThe kit\b|\bthe kit\b": "the toolchain",
    r"\b(?:[Nn]o|[Ss]ome|[Ee]very)body\b": "name the actor",
    r"\bcomes? to\b|\bis come to\b": "amounts to, results in",
    r"\bso many\b": "that many, up to N",
}
PHRASE = re.compile("|".join(PHRASES), re.M)

# A comment of a line of its own, by the ending of its file.
COMMENTS = {".rt": r"^\s*//[/!]? ?(.*)$", ".antt": r"^\s*-- ?(.*)$", ".py": r"^\s*# (.*)$"}


def without_code(text):
    """The text with a word for each piece of code, which may be a fixed text of the programs."""
    return re.sub(r"`[^`]*`", "code", text)


def words(text):
    """The words of a text; what stands as code is one word."""
    return without_code(text).split()


def paragraphs(page):
    """The paragraphs and list items of a page in Markdown, and the cells of its tables: whether it is a cell, and the piece."""
    text = re.sub(r"^```\w*\n.*?^```", lambda found: "\n" * found[0].count("\n"), page.read_text(), flags=re.M | re.S)
    lines, begun = [], 0
    for number, line in enumerate([*text.split("\n"), ""], 1):
        is_row = line.lstrip().startswith("|")
        ends = not line.strip() or is_row or line.startswith("#") or re.match(r"\s*(?:[-*]|\d+\.) ", line)
        if ends and lines:
            yield False, Piece(page, begun, " ".join(lines))
            lines = []
        if is_row:
            for cell in line.strip().strip("|").split("|"):
                yield True, Piece(page, number, cell.strip())
        elif line.strip() and not line.startswith("#"):
            begun = begun if lines else number
            lines.append(re.sub(r"^\s*(?:[-*]|\d+\.) ", "", line).strip())


def manual_paragraphs(page):
    """The paragraphs of a man page, without the words of its markup. A synopsis has none."""
    lines, begun, in_synopsis = [], 0, False
    for number, line in enumerate([*page.read_text().splitlines(), ".Pp"], 1):
        in_synopsis = line == ".Sh SYNOPSIS" or (in_synopsis and not line.startswith(".Sh"))
        if in_synopsis:
            continue
        if re.match(r"\.(?:Pp|It|Sh|Ss|Bl|El|Dl|Bd|Ed|D[dt]|Os|Nd)\b", line):
            if lines:
                yield False, Piece(page, begun, " ".join(lines))
            lines = []
        else:
            begun = begun if lines else number
            lines.append(re.sub(r"^\.[A-Z][a-z] ", "", line))


def sentences(text):
    """The sentences of a paragraph."""
    return re.split(r"(?<=[.!?:;])\s+", text)


def comments():
    """The comments of the code that stand on lines of their own."""
    for folder in ["crates", "tests", "tools", "packaging"]:
        for file in sorted((ROOT / folder).rglob("*")):
            if file.suffix in COMMENTS and "out" not in file.parts and file.name != "prose.py":
                for number, line in enumerate(file.read_text().splitlines(), 1):
                    found = re.match(COMMENTS[file.suffix], line)
                    if found:
                        yield Piece(file, number, found[1])


def found():
    """What is counted: the name of the count, and the pieces."""
    counted = {it: [] for it in BUDGETS}
    told = [it for page in markdown() for it in paragraphs(page)] + [it for page in manuals() for it in manual_paragraphs(page)]
    for is_cell, piece in told:
        if is_cell and len(words(piece.text)) > CELL:
            counted["long cells in pages"].append(piece)
        for sentence in [] if is_cell else sentences(piece.text):
            if len(words(sentence)) > SENTENCE:
                counted["long sentences in pages"].append(piece._replace(text=sentence))
        counted["phrases in pages"] += [piece._replace(text=it[0]) for it in PHRASE.finditer(without_code(piece.text))]
    for piece in comments():
        counted["phrases in comments"] += [piece._replace(text=it[0]) for it in PHRASE.finditer(piece.text)]
    return counted


def faults():
    """The counts that are above their budgets."""
    counted = found()
    return [f"{name}: {len(counted[name])}, and {most} at most (tests/docs/prose.py --list)"
            for name, most in BUDGETS.items() if len(counted[name]) > most]


def main():
    for name, pieces in found().items():
        print(f"{name}: {len(pieces)}, and {BUDGETS[name]} at most")
        for piece in pieces if "--list" in sys.argv else []:
            print(f"  {place(piece)}: {piece.text}")


if __name__ == "__main__":
    main()
