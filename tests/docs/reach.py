"""How much one has to trust for the main promise: the definitions that the clauses of the runs reach.

Starting from the definition that a clause cites, each name in a definition is followed, by the imports of its file, to
its definition or to the type in the code. Definitions in the toolchain's library aren't counted.
"""
import collections
import functools
import re

from pages import ROOT

# The clauses, each with its starting point: the crate, the file of its definitions, and the name.
CLAUSES = {
    "clause `so_far` of `run_event_loop`": ("bq_event_loop", "EventLoopRuns", "IsEventLoopSoFar"),
    "clause `served` of `run_sessions`": ("bq_run", "ThreadRuns", "IsRunOf"),
}

Definition = collections.namedtuple("Definition", "name lines comments")

WORD = re.compile(r"(?<![\w.])[A-Za-z_]\w*(?:\.[A-Za-z_]\w*)*")


def file_of(crate, module):
    """Returns the file of a module: of definitions, or of a type that the code declares."""
    if module.startswith("declared/"):
        return ROOT / "crates" / crate / "src" / (module.rsplit("/", 1)[0][len("declared/"):] + ".rt")
    return ROOT / "crates" / crate / "specs" / (module + ".antt")


def listed(text, above=""):
    """Returns the names of an import, each with its path: for `a.{b, c.{d, e as f}}` these are a.b, a.c.d, and a.c.e as
    f."""
    head, brace, inside = text.partition("{")
    if not brace:
        return [above + text]
    parts, depth = [""], 0
    for letter in inside[: inside.rindex("}")]:
        depth += {"{": 1, "}": -1}.get(letter, 0)
        if letter == "," and not depth:
            parts.append("")
        else:
            parts[-1] += letter
    return [it for part in parts for it in listed(part.strip(), above + head)]


@functools.lru_cache(maxsize=None)
def imports(path):
    """Returns what the names in a file of definitions mean (crate, module and name), and the modules that it renames.
    """
    names, modules = {}, {}
    for crate, wanted in re.findall(r"^(?:pub )?use Rattle\.(bq_\w+)\.specs\.(.+)$", path.read_text(), re.M):
        for it in listed(wanted):
            given, _, own = it.partition(" as ")
            if own and "{" not in wanted:
                modules[own] = (crate, given.replace(".TheVariants", "").replace(".", "/"), given.endswith(".TheVariants"))
                continue
            module, _, name = given.rpartition(".")
            variants = module.endswith(".TheVariants")
            module = module.replace(".TheVariants", "").replace(".", "/")
            names[own or name] = (crate, module, module.rsplit("/", 1)[-1] if variants else name)
    return names, modules


@functools.lru_cache(maxsize=None)
def definitions(path):
    """Returns the definitions of a file by name, each with its lines and with the comments above it."""
    found, comments, name = {}, [], None
    for line in path.read_text().splitlines():
        begun = re.match(r"(?:abbrev |pub |record |data |def )+([^\s:]+)", line)
        if line.startswith("--"):
            comments.append(line)
        elif re.match("(?:pub )?use ", line) or not line.strip():
            comments = [] if not line.strip() else comments
        elif begun:
            name = begun[1]
            found[name] = Definition(name, [line], comments)
            comments = []
        elif name:
            found[name].lines.append(line)
    return found


@functools.lru_cache(maxsize=None)
def types(path):
    """Returns the types that a code file declares, likewise."""
    found, comments, name = {}, [], None
    for line in path.read_text().splitlines():
        begun = re.match(r"pub(?:\([^)]*\))? (?:struct|enum) (\w+)", line)
        if begun:
            name = begun[1]
            found[name] = Definition(name, [line], comments)
            comments = []
        elif line.lstrip().startswith("//"):
            (found[name].comments if name else comments).append(line)
        elif name and line.strip() and not line.startswith("}"):
            found[name].lines.append(line)
        elif not line.startswith("#["):
            comments = []
        if name and (line.startswith("}") or (begun and line.endswith(";"))):
            found[name].lines.extend([line] if line.startswith("}") else [])
            name = None
    return found


def named_by(crate, module, name):
    """Returns the definition, and the definitions that its names refer to."""
    path = file_of(crate, module)
    if path.suffix == ".rt":
        found = types(path).get(name)
        # A type in the code refers to others in its crate or in those that it uses.
        words = set(re.findall(r"\b[A-Z]\w+", "\n".join(found.lines[1:]))) if found else set()
        return found, [it for it in map(lambda word: declared_as(crate, word), words) if it]
    found = definitions(path).get(name)
    names, modules = imports(path)
    if not found:
        # The name is re-exported, or is a value of a definition in this file.
        return None, [names[name]] if name in names else [(crate, module, it) for it in with_value(path, name)]
    led = []
    for word in WORD.findall("\n".join(found.lines)):
        first, _, rest = word.partition(".")
        if first in definitions(path):
            led.append((crate, module, first))
        elif first in names:
            led.append(names[first])
        elif first in modules and rest:
            to, of, variants = modules[first]
            led.append((to, of, of.rsplit("/", 1)[-1] if variants else rest.split(".")[0]))
    return found, led


def with_value(path, name):
    """Returns the definition by cases that has this value."""
    return [it.name for it in definitions(path).values() if any(re.match(rf"\s+(?:\w+ )*{name}\b", line) for line in it.lines[1:])]


@functools.lru_cache(maxsize=None)
def declared_as(crate, word):
    """Returns the type in the code with this name, in this crate or in bq_job."""
    for it in dict.fromkeys([crate, "bq_job"]):
        for path in sorted((ROOT / "crates" / it / "src").rglob("*.rt")):
            if word in types(path):
                module = path.relative_to(ROOT / "crates" / it / "src").with_suffix("")
                return it, f"declared/{module}/{word}", word
    return None


@functools.lru_cache(maxsize=None)
def reached(begin):
    """Returns everything that is reached from there, each by its crate, module and name."""
    found, left = {}, [begin]
    while left:
        it = left.pop()
        if it in found:
            continue
        definition, led = named_by(*it)
        found[it] = definition
        left += led
    return {it: definition for it, definition in found.items() if definition}


def counts(begin):
    """Returns the numbers of definitions, of types, of files, of lines without comments, and of lines with them."""
    found = reached(begin)
    of_types = [it for it in found if it[1].startswith("declared/")]
    files = {file_of(crate, module) for crate, module, _ in found}
    lines = sum(len(it.lines) for it in found.values())
    return len(found) - len(of_types), len(of_types), len(files), lines, lines + sum(len(it.comments) for it in found.values())


def rounded(number):
    return f"{round(number, -1):,}"


def rows():
    """Returns the rows of tables with the counts, a clause each."""
    found = []
    for clause, begin in CLAUSES.items():
        definitions, types, files, lines, whole = counts(begin)
        found.append(f"| to read for the {clause}: {definitions} definitions and {types} types in {files} files | "
                     f"{rounded(lines)}, or {rounded(whole)} with their comments |")
    return found


def faults():
    """Returns what docs/HEADLINE.md says differently."""
    text = (ROOT / "docs/HEADLINE.md").read_text()
    return [f"docs/HEADLINE.md lacks: {it}" for it in rows() if it not in text]
