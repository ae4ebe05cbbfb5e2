"""The crates of this repository, as crates.txt lists them."""
import pathlib

ROOT = pathlib.Path(__file__).resolve().parent.parent


def folder(name):
    """Returns the folder of a crate."""
    return ROOT / "crates" / name


def listed(root=ROOT):
    """Returns each crate with the libraries that it uses, the repository's and the toolchain's, lowest first."""
    rows = [it.partition(":") for it in (root / "crates.txt").read_text().splitlines() if ":" in it and not it.startswith("#")]
    return {name.strip(): libraries.split() for name, _, libraries in rows}


def ours(name, uses):
    """Returns the libraries of this repository that a crate uses. `uses` is what `listed` returns."""
    return [it for it in uses[name] if it in uses]


def with_needs(names, uses):
    """Returns these crates and those of this repository that they need, by themselves or through others, lowest first."""
    wanted = set(names)
    # A crate stands after those that it uses, so each is met before what it needs.
    for name in reversed(uses):
        if name in wanted:
            wanted.update(ours(name, uses))
    return [it for it in uses if it in wanted]


def below(name, uses):
    """Returns the crates of this repository that a crate needs, without itself, lowest first."""
    return [it for it in with_needs([name], uses) if it != name]


def is_program(name):
    """Returns true if a crate is a program and not a library."""
    return (folder(name) / "src/main.rt").is_file()


def lines(name, *suffixes):
    """Returns how many lines the files of a crate have, those with these suffixes, without what was built."""
    files = [it for it in folder(name).rglob("*") if it.suffix in suffixes and "out" not in it.relative_to(folder(name)).parts]
    return sum(it.read_bytes().count(b"\n") for it in files)
