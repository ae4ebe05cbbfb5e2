"""The code that docs/PROOF.md quotes: it has to be in the file that the page links to before it, or in the toolchain."""
import re
import sys

from pages import ROOT

sys.path.insert(1, str(ROOT / "tools"))

from machine import TOOLCHAIN  # noqa: E402

PAGE = ROOT / "docs/PROOF.md"

# The files of the toolchain that are quoted, by how the quotation begins.
OF_THE_TOOLCHAIN = {
    "  ensures rule: MatchOption": "rattle/crossbeam_queue/CALLING.md",
    "abbrev pub Held": "rattle/crossbeam_queue/specs/Fifo.antt",
}

# What a quotation leaves out.
LEFT_OUT = re.compile(r"^ *// \.\. .*$")


def quoted():
    """Returns each quotation of a file in the tree: the file, and the lines. The prover's answer is of no file."""
    text = PAGE.read_text()
    for found in re.finditer(r"^```\n(.*?)^```", text, re.M | re.S):
        links = re.findall(r"\]\(([^)#\s]+)\)", text[:found.start()])
        given = [file for begun, file in OF_THE_TOOLCHAIN.items() if found[1].startswith(begun)]
        if given:
            yield TOOLCHAIN / given[0], found[1].splitlines()
        elif links and not found[1].startswith(("./proofs/", "note: ")):
            yield (PAGE.parent / links[-1]).resolve(), found[1].splitlines()


def is_in(lines, text):
    """Returns true if the lines are in a text, in one piece but for what is left out."""
    parts, part = [], []
    for line in lines:
        if LEFT_OUT.match(line):
            parts.append(part)
            part = []
        else:
            part.append(line)
    return all("\n".join(it) in text for it in [*parts, part])


def faults():
    """Returns the quotations that are not in their files, or says that the page has none."""
    found = [(file, lines) for file, lines in quoted() if not any(mark in "".join(lines) for mark in "─│")]
    if not found:
        return ["docs/PROOF.md quotes no code"]
    wrong = [(file, lines) for file, lines in found if not is_in(lines, file.read_text())]
    return [f"docs/PROOF.md: {file.name} lacks what begins with {lines[0]!r}" for file, lines in wrong]
