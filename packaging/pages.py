#!/usr/bin/env python3
"""Copies the pages for users into a folder: packaging/pages.py FOLDER

README.md, SECURITY.md, CHANGELOG.md and docs/ are there as in the repository, so links between them lead on. A link to
what is not among them, such as a source file, becomes plain text.
"""
import pathlib
import re
import shutil
import sys

ROOT = pathlib.Path(__file__).resolve().parent.parent
PAGES = ["README.md", "SECURITY.md", "CHANGELOG.md", "docs/*.md"]
PICTURES = ["docs/*.svg", "docs/*.png"]


def kept(page, text, copied):
    """Returns the text of a page, with links to what is not copied as plain text."""
    def link(found):
        path = found[2].partition("#")[0]
        leads = "://" in path or not path or (page.parent / path).resolve() in copied
        return found[0] if leads else found[1]
    return re.sub(r"(?<!!)\[([^\]]*)\]\(([^)\s]+)\)", link, text)


def main():
    if len(sys.argv) != 2:
        sys.exit("usage: packaging/pages.py FOLDER")
    to = pathlib.Path(sys.argv[1])
    pages, pictures = ([it for shape in shapes for it in sorted(ROOT.glob(shape))] for shapes in [PAGES, PICTURES])
    for it in [*pages, *pictures]:
        place = to / it.relative_to(ROOT)
        place.parent.mkdir(parents=True, exist_ok=True)
        place.parent.chmod(0o755)
        if it in pages:
            place.write_text(kept(it, it.read_text(), {*pages, *pictures}))
        else:
            shutil.copyfile(it, place)
        place.chmod(0o644)


main()
