#!/usr/bin/env python3
"""Finds proofs in crates/*/proofs that one call of the prover's search can replace.

    tools/shorter_proofs.py CRATE ..            lists them
    tools/shorter_proofs.py --apply CRATE ..    puts the calls in their place

A proof is tried if it takes more than one line. In a copy of the crate each gets copies of its lemma, proved by `grind`
with the lemmas that the proof names, with and without the library's `common_steps`, or by `search` with these lemmas.
The copies are checked in one run, with a fifth of the search's usual limit, so a proof that is found does not make the
gate slower. The first call that works is listed, a proof a line, with its file, its lemma and the call.

Check the crate after --apply: without that limit the search goes another way at times, and then does not end. Put back
such a proof. `rt fmt` and `rt tidy` lay out the files and drop the imports that nothing uses any more.

The libraries below have to be built, as for tools/refused_by_prover.py. The last line is 'N of M proofs are found by the
search'.
"""
import argparse
import dataclasses
import pathlib
import re
import shutil
import subprocess
import sys
import tempfile

# Nothing is left behind beside these files.
sys.dont_write_bytecode = True

import crates  # noqa: E402
from machine import TOOLCHAIN  # noqa: E402
from refused_by_prover import PARTS, check_of  # noqa: E402

# A lemma's first line: its indentation, what it is, and its name.
SIGNATURE = re.compile(r"^( *)((?:pub )?)([^\s(){}\[\],;.]+) : ")

# A word of a term.
WORD = re.compile(r"[^\s(){}\[\],;|]+")

# How many columns a line of a proof has at most.
COLUMNS = 140

# The limit of each call that is tried. The usual one is 4,000,000.
STEPS = 800_000

# What the check says if it has read a file to its end: the last lemma of each file is wrong.
LAST = "last_of_all"

# Names of the library's that are steps of a proof, and no lemmas for the search. So are the words of clauses.
BY_HAND = set("sym ap subst inl inr".split())
PRELUDES = [TOOLCHAIN / "rattle" / it / "specs/Prelude.antt" for it in ("core", "std")]

# Where names come from that calls may use and files may lack.
NEEDED = {"arith": "Rattle.std.proofs.Common", "common_steps": "Rattle.std.proofs.lemmas.Grind"}


def indent(line):
    """Returns how many spaces a line begins with."""
    return len(line) - len(line.lstrip(" "))


def block_end(lines, begin, depth):
    """Returns the place after the lines that belong to the one at `begin`: they are indented, or close its brackets."""
    end = begin + 1
    while end < len(lines):
        line, after = lines[end], lines[end + 1 : end + 2]
        is_inside = line.strip() and (indent(line) > depth or indent(line) == depth and line.strip()[0] in "})]")
        is_gap = not line.strip() and after and after[0].strip() and indent(after[0]) > depth
        if not is_inside and not is_gap:
            break
        end += 1
    return end


@dataclasses.dataclass(frozen=True)
class Lemma:
    """A lemma of a file: its name, and where its statement and its clauses are, as pairs of places of lines."""

    name: str
    depth: int
    begin: int
    clauses: tuple

    def end(self):
        return self.clauses[-1][1]

    def copy(self, lines, name, clause, body):
        """Returns the lines of a copy with another name, in which one clause is this text."""
        own = lines[self.begin : self.clauses[0][0]]
        own[0] = own[0].replace(f"{self.name} : ", f"{name} : ", 1)
        for begin, end in self.clauses:
            own += body if (begin, end) == clause else lines[begin:end]
        return [re.sub(rf"^( {{{self.depth}}}){re.escape(self.name)}(?= |$)", rf"\g<1>{name}", it) for it in own]


def lemmas(lines):
    """Yields the lemmas of a file that have clauses. Words that unfold are none: their text is part of what is stated."""
    at = 0
    while at < len(lines):
        found = SIGNATURE.match(lines[at])
        if not found:
            at += 1
            continue
        depth, name, begin = len(found[1]), found[3], at
        at = block_end(lines, at, depth)
        if at < len(lines) and lines[at].startswith(" " * depth + "unfolding "):
            at = block_end(lines, at, depth)
        clauses = []
        while at < len(lines) and re.match(rf" {{{depth}}}{re.escape(name)}(?: (?!: )|$)", lines[at]):
            clauses.append((at, block_end(lines, at, depth)))
            at = clauses[-1][1]
        if clauses:
            yield Lemma(name, depth, begin, tuple(clauses))


def sides(text):
    """Returns the two sides of a clause: what stands before its first ` =` outside of brackets, and what stands after it."""
    depth = 0
    for at, letter in enumerate(text):
        depth += (letter in "([{") - (letter in ")]}")
        if not depth and re.match(r" =(?=\s)", text[at : at + 3]):
            return text[:at], text[at + 2 :]
    return None


def imported(lines):
    """Returns the names that the `use` lines bring, each with its module."""
    found = {}

    def take(path, text):
        head, brace, rest = text.partition("{")
        if not brace:
            module, _, name = (path + text).rpartition(".")
            found.setdefault(name.strip(), module)
            return
        depth, item = 0, ""
        for letter in rest[: rest.rindex("}")] + ",":
            depth += (letter == "{") - (letter == "}")
            if letter == "," and not depth:
                take(path + head, item.strip())
                item = ""
            else:
                item += letter

    for line in lines:
        if line.startswith("use "):
            take("", line[4:].strip())
    return found


def arguments_end(text, at):
    """Returns where the arguments end that begin at a place of a line: names, and what stands in brackets."""
    while found := re.compile(r" +(?=[(\w◌\[])").match(text, at):
        depth, at = 0, found.end()
        while at < len(text) and (depth or text[at] not in " )]},;\n"):
            depth += (text[at] in "([{") - (text[at] in ")]}")
            at += 1
            if not depth and text[at - 1] in ")]}":
                break
    return at


def written_out(lemma, proof, scope):
    """Returns the calls of a lemma in a proof, with their arguments, if these name nothing but what the clause knows."""
    found = []
    for it in re.finditer(rf"(?<![^\s(\[{{,]){re.escape(lemma)}(?= )", proof):
        call = proof[it.start() : arguments_end(proof, it.end())].strip()
        words = {word.partition(".")[0] for word in WORD.findall(call)}
        if call != lemma and "λ" not in call and "\n" not in call and words <= scope | {lemma} and call.count("(") == call.count(")"):
            found.append(call)
    return found


def calls(lemma, left, proof, known, names):
    """Returns the calls to try in place of a proof, simplest first. `known` are the lemmas that the file can name."""
    scope = set(WORD.findall(left)) | known | set(names) | {"refl", "tt", "∷", "++", "+", "[]"}
    named = [it for it in dict.fromkeys(WORD.findall(proof)) if it in known and it != lemma]
    again = written_out(lemma, proof, scope)
    whole = [call for it in named for call in written_out(it, proof, scope) or [it]]
    found = []
    for listed in dict.fromkeys([(), (*named, *again), (*whole, *again)]):
        for steps in ((), ("common_steps",)):
            entries = dict.fromkeys(["arith", *steps, *listed])
            found.append(f"grind ({', '.join(entries)})" if len(entries) > 1 else "grind arith")
    if named and not again:
        found.append(f"search ({', '.join(named)})" if len(named) > 1 else f"search {named[0]}")
    return list(dict.fromkeys(found))


@dataclasses.dataclass
class Try:
    """A proof for which calls are tried: its file, lemma and clause, and each call with the lines that it would be."""

    file: str
    lemma: Lemma
    clause: tuple
    bodies: list


def tries_of(lines, file, skipped):
    """Yields the proofs of a file that take more than a line, but for lemmas of these names. No call names one of these."""
    found, names = list(lemmas(lines)), imported(lines)
    known = {it for it, module in names.items() if ".proofs" in module and it[0].islower()} | {it.name for it in found if it.name[0].islower()}
    known -= {*skipped, *NEEDED}
    for lemma in found:
        for clause in lemma.clauses:
            both = sides("\n".join(lines[clause[0] : clause[1]]))
            if clause[1] - clause[0] < 2 or not both or lemma.name in skipped:
                continue
            left = " ".join(it.strip() for it in both[0].split("\n"))
            bodies = []
            for call in calls(lemma.name, left, both[1], known, names):
                line = f"{' ' * lemma.depth}{left} = {call}"
                body = [line] if len(line) <= COLUMNS else [f"{' ' * lemma.depth}{left} =", f"{' ' * (lemma.depth + 4)}{call}"]
                if len(body) < clause[1] - clause[0] and max(map(len, body)) <= COLUMNS:
                    bodies.append((call, body))
            if bodies:
                yield Try(file, lemma, clause, bodies)


def unfolded_in(folder):
    """Returns the words that some proof of the crate unfolds."""
    found = set()
    for path in folder.rglob("*.antt"):
        for it in re.findall(r"^ *unfolding (.*)$", path.read_text(), re.M):
            found.update(it.split())
    return found


def with_imports(lines):
    """Returns the lines with a `use` line for each name of the calls that the file lacks."""
    names, text = imported(lines), "\n".join(lines)
    lacking = [f"use {module}.{{{it}}}" for it, module in NEEDED.items() if it not in names and re.search(rf"\b{it}\b", text)]
    at = next((place for place, it in enumerate(lines) if it.startswith("use ")), 0)
    return [*lines[:at], *lacking, *lines[at:]]


def with_tries(lines, tries, first):
    """Returns the lines of a file with the lemmas that try calls; they are numbered from `first`."""
    lines = list(lines)
    for place, it in reversed(list(enumerate(tries, first))):
        for at, (call, body) in enumerate(it.bodies):
            limited = [line.replace(call, f"{call} steps {STEPS}") if call.startswith("grind") else line for line in body]
            lines[it.lemma.end() : it.lemma.end()] = ["", *it.lemma.copy(lines, f"try{place}-{at}", it.clause, limited)]
    return [*with_imports(lines), f"{LAST} : Unit {{0}}", f"{LAST} = not_there", ""]


def found_by_search(name):
    """Yields the proofs of a crate that were tried, each with the first call that works and its lines, or None."""
    with tempfile.TemporaryDirectory(prefix="shorter-") as folder:
        copy, tried = pathlib.Path(folder) / name, []
        for part in PARTS:
            if (crates.folder(name) / part).is_dir():
                shutil.copytree(crates.folder(name) / part, copy / part)
        words_of_clauses = {it for path in PRELUDES for it in WORD.findall(path.read_text())}
        skipped = BY_HAND | words_of_clauses | unfolded_in(copy)
        for path in sorted((copy / "proofs").rglob("*.antt")):
            lines = path.read_text().split("\n")
            tries = list(tries_of(lines, path.relative_to(copy).as_posix(), skipped))
            if tries:
                path.write_text("\n".join(with_tries(lines, tries, len(tried))))
                tried += tries
        words = check_of(name, crates.listed())
        told = subprocess.run(words, cwd=copy, stdin=subprocess.DEVNULL, stdout=subprocess.PIPE, stderr=subprocess.STDOUT, text=True).stdout
    read = set(re.findall(rf"^\./(proofs/\S+?):\d+:\d+: error: `{LAST}`", told, re.M))
    failed = set(re.findall(r"`(try\d+-\d+)`", told))
    for place, it in enumerate(tried):
        works = [body for at, body in enumerate(it.bodies) if f"try{place}-{at}" not in failed]
        yield it, works[0] if works and it.file in read else None


def replace(name, found):
    """Puts the calls in place of the proofs."""
    for file in {it.file for it, _ in found}:
        path = crates.folder(name) / file
        lines = path.read_text().split("\n")
        for it, (_, body) in sorted((it for it in found if it[0].file == file), key=lambda it: -it[0].clause[0]):
            lines[it.clause[0] : it.clause[1]] = body
        path.write_text("\n".join(with_imports(lines)))


def main():
    parser = argparse.ArgumentParser(prog="tools/shorter_proofs.py", description=__doc__.partition("\n")[0])
    parser.add_argument("--apply", action="store_true", help="put the calls in place of the proofs")
    parser.add_argument("names", metavar="CRATE", nargs="+", choices=list(crates.listed()), help="the crates whose proofs are tried")
    words, total, many = parser.parse_args(), 0, 0
    for name in words.names:
        tried = list(found_by_search(name))
        found = [it for it in tried if it[1]]
        total, many = total + len(tried), many + len(found)
        for it, (call, _) in found:
            print(f"crates/{name}/{it.file}: {it.lemma.name}: {call}", flush=True)
        if words.apply:
            replace(name, found)
    print(f"{many} of {total} proofs are found by the search")


if __name__ == "__main__":
    main()
