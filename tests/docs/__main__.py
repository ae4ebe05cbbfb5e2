"""Checks the documentation against the tree: its commands, its options, and the files and the code that it names.

    python3 tests/docs --bq PATH --bqd PATH

Each command of README.md, docs/OPERATING.md, docs/MOVING.md and the man pages is run with the given programs, or it
is known why it isn't; of the other pages it is known. What pages name as code or link to has to be in the tree, a name
in the file that its link leads to, and what they link to in the package among its pages. A page that is named is linked.
A figure on several pages has to be the same on each. The counts of docs/HEADLINE.md have to be those of the definitions,
and those of lines and planted bugs those of the tree. Code that docs/PROOF.md quotes has to be in the file that it links
to. The diagram of docs/ARCHITECTURE.md has to be that of crates.txt, and the version of CHANGELOG.md that of the
programs. Dates have to be in order, what is tried by hand has to be dated, and README.md short. Long sentences and
phrases that have a plainer form are counted (prose.py). The last line is 'N passed, M failed'; status 1 if one failed.
"""
import argparse
import os
import pathlib
import re
import subprocess
import sys

# Nothing is left behind beside these files.
sys.dont_write_bytecode = True
sys.path.insert(1, str(pathlib.Path(__file__).resolve().parent.parent / "runs"))

import commands
import dates
import figures
import layers
import lengths
import names
import prose
import quotes
import reach
import runner
import sizes
import versions


def options(programs):
    """Returns the options in the help of the programs, and in the help of the commands that it lists."""
    found = set()
    for program in programs:
        own = help_of(program)
        commands_listed = re.findall(r"^    (\w+)  ", own, re.M) if "COMMAND ..." in own else []
        for text in [own, *(help_of(program, it) for it in commands_listed)]:
            found.update(re.findall(r"(?<![-\w])--?[A-Za-z][-\w]*", text))
    return found


def help_of(*words):
    """Returns the help of a program or of one of its commands."""
    return subprocess.run([*words, "--help"], capture_output=True, text=True, check=True).stdout


def faults_of_commands(room):
    """Runs the commands and prints those that are not run. Returns how many there are, and what is wrong with each that fails."""
    reasons, faults, shown = {}, [], commands.shown()
    for text, where in shown.items():
        try:
            for why in commands.tried(text, room):
                reasons.setdefault(why, []).append(text)
        except Exception as fault:
            faults.append(f"{where}: `{text}`: {fault}")
    for why, texts in reasons.items():
        print(f"not run, because {why}: {', '.join(f'`{it}`' for it in texts)}")
    return len(shown), faults


def main():
    parser = argparse.ArgumentParser(prog="tests/docs")
    parser.add_argument("--bq", required=True, help="the built program bq")
    parser.add_argument("--bqd", required=True, help="the built program bqd")
    words = parser.parse_args()
    runner.allow_interrupts()
    programs = [os.path.abspath(words.bq), os.path.abspath(words.bqd)]
    room = commands.Room(*programs)
    try:
        held, faults = faults_of_commands(room)
        own = [f"{room.folder}/bin/{it}" for it in commands.OPERATORS]
        for where, text, known in names.named(options(programs + own), commands.is_command):
            held += 1
            faults += [] if known else [f"{where}: `{text}` isn't there"]
        held += 1
        faults += names.dead_links_of_the_package()
        held += 1
        faults += names.misplaced()
        held += 1
        faults += names.unlinked()
        held += 1
        faults += commands.left_to_nobody()
        held += 1
        faults += reach.faults()
        held += 1
        faults += layers.faults()
        held += 1
        faults += lengths.faults()
        held += 1
        faults += versions.faults()
        held += 1
        faults += dates.faults()
        held += len(figures.FIGURES) + 2
        faults += figures.faults()
        held += len(sizes.wanted())
        faults += sizes.faults()
        held += 1
        faults += quotes.faults()
        held += len(prose.BUDGETS)
        faults += prose.faults()
    finally:
        room.close()
    for fault in faults:
        print(f"FAILED {fault}")
    print(f"{held - len(faults)} passed, {len(faults)} failed")
    return 1 if faults else 0


sys.exit(main())
