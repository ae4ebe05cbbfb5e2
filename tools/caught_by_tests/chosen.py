"""A copy of the sources that has many planted bugs, of which each run of a program chooses one.

The body of a function with bugs is there once for each of them and once without: `if bq_job::is_chosen(3) { .. } else
{ .. }`. So a program with no bug chosen does what the plain one does, and compares one number at the begin of each such
function. A bug that changes something else than the bodies of functions, such as a constant, can't be chosen so.
"""
import re

from plants import replaced

# The crate that every other one with planted bugs uses.
LOWEST = "bq_job"

DECLARATION = """
unsafe extern "C" {
    safe fn bq_is_chosen(plant: u32) -> u32;
}

/// Returns true if the run of the program has this planted bug.
pub fn is_chosen(plant: u32) -> bool {
    bq_is_chosen(plant) == 1
}
"""

FUNCTION = re.compile(r"^( *)(?:pub(?:\([^)]*\))? )?fn \w+")


def bodies(text):
    """Yields the begin and the end of each function's body, without its braces."""
    lines = text.splitlines(keepends=True)
    begins = [0]
    for line in lines:
        begins.append(begins[-1] + len(line))
    for first, line in enumerate(lines):
        found = FUNCTION.match(line)
        opened = found and opening(lines, first, found[1])
        if opened:
            last = next(it for it in range(opened, len(lines)) if lines[it].rstrip("\n") == f"{found[1]}}}")
            yield begins[opened] + len(lines[opened].rstrip("\n")), begins[last] + len(found[1])


def opening(lines, first, indent):
    """Returns the line that ends with the brace that begins a function's body, or None if it has no body of several lines.

    The braces of a clause end a line too, but such a line is indented and begins with a word of its own.
    """
    for at in range(first, len(lines)):
        line = lines[at].rstrip("\n")
        if line.endswith("{") and (at == first or line in (f"{indent}{{",) or line.startswith(f"{indent})")):
            return at
        if line == f"{indent}}}" or (line.startswith(indent) and line.endswith((";", "}")) and at == first):
            return None
    return None


def made(root, plants):
    """Puts the bugs that can be chosen into a copy. Returns the number of each."""
    numbers, files = {}, {}
    for plant in plants:
        path = plant.path_in(root)
        by_body = in_bodies(path, plant)
        if by_body:
            numbers[plant.name] = len(numbers) + 1
            for body, spans in by_body.items():
                files.setdefault(path, {}).setdefault(body, []).append((numbers[plant.name], spans))
    for path, of_file in files.items():
        name = "crate" if path.is_relative_to(root / "crates" / LOWEST) else LOWEST
        text = path.read_text()
        path.write_text(replaced(text, [(*body, chosen_of(text, body, bugs, name)) for body, bugs in of_file.items()]))
    lowest = root / "crates" / LOWEST / "src/lib.rt"
    lowest.write_text(lowest.read_text() + DECLARATION)
    return numbers


def in_bodies(path, plant):
    """Returns what a bug changes, by the bodies of functions that it changes, or None if it changes anything else."""
    text = path.read_text() if path.is_file() else ""
    spans = plant.spans(text)
    found, all_bodies = {}, list(bodies(text))
    for begin, end, new in spans or []:
        body = next((it for it in all_bodies if it[0] <= begin and end <= it[1]), None)
        if not body:
            return None
        found.setdefault(body, []).append((begin - body[0], end - body[0], new))
    return found


def chosen_of(text, body, bugs, name):
    """Returns the body of a function with a choice of these bugs."""
    plain = text[slice(*body)]
    choices = "".join(f"if {name}::is_chosen({number}) {{{replaced(plain, spans)}}} else " for number, spans in bugs)
    return f" {choices}{{{plain}}} "
