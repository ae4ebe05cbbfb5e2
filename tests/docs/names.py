"""What pages name as code (files, options, and words of the code) and what they link to. Each has to exist."""
import functools
import pathlib
import re
import subprocess
import sys
import tempfile

from pages import ROOT, codes, manual_options, manuals, markdown, place

# The files in which a word that a page names has to occur: code, and what belongs to it.
KINDS = ["*.rt", "*.antt", "*.py", "*.c", "*.edit", "*.sh", "*.yml", "*.html", "*.css", "*.js", "*.service", "*.socket", "*.default", "*.1", "*.txt", "*.md"]
FOLDERS = ["crates", "packaging", "tests", "tools"]

# Placeholders in a path.
CHOSEN = re.compile(r"NAME|FOLDER|bug_in_words")

# Words of the system, of the toolchain or of beanstalkd, and forms of a goal's name.
OTHERS = set("""
-C
-delayed
-reserved
--fail-alloc
--pin 0
-b DIR
-c
-f MS
-F
-s BYTES
-u USER
-V
-v
-h
-l unix:PATH
-n
/opt/rattle
/sys/kernel/mm/transparent_hugepage/enabled
/usr/local/bin/bqd
</dev/null
#[tactic(auto, using(lemma))]
IfOk result (IsRunOf ..)
LimitAS
LimitNOFILE
MemoryMax
RT_JOBS
SIGUSR1
always
beanstalkd.socket
c.f
circular_buffer
cmd-*
cp
cp -a
current-producers
current-workers
f-requires-clause-x
fs.epoll.max_user_watches
hostname
if-c.true
it calls f, which is not proved
l.invariant
liblibc_c.a
libos_c.a
logic dac8208d650f15bf
madvise
net.ipv4.tcp_retries2
out/
platform
quitx
returns-clause-x
run=no-answer proved=no
rusage-*
search did not prove returns-clause-is
sed
spin_loop
ss -tno
""".strip().splitlines())


@functools.lru_cache(maxsize=None)
def paths():
    """Returns the path of each file and folder, as `/crates/bq_job/src/job.rt`, except those that are built."""
    found = set()
    for folder in [*FOLDERS, "docs", ".ci"]:
        for path in [ROOT / folder, *(ROOT / folder).rglob("*")]:
            parts = path.relative_to(ROOT).parts
            if "out" not in parts and "__pycache__" not in parts:
                found.add("/" + "/".join(parts))
    return found | {"/" + it.name for it in ROOT.iterdir()}


@functools.lru_cache(maxsize=None)
def sources():
    """Returns the text of each code file by its path, except these tests, which name things that don't exist."""
    found = {}
    for it in paths():
        path = ROOT / it[1:]
        if path.is_file() and it.split("/")[1] in FOLDERS and not it.startswith("/tests/docs/"):
            if any(path.match(kind) for kind in KINDS) or not path.suffix:
                found[it] = path.read_text(errors="replace")
    return found


@functools.lru_cache(maxsize=None)
def words():
    """Returns each word of the code."""
    return set().union(*(re.findall(r"[A-Za-z_][\w]*", text) for text in sources().values()))


@functools.lru_cache(maxsize=None)
def keys():
    """Returns each word of the code including hyphens, as in keys of statistics."""
    return set().union(*(re.findall(r"[-\w]+", text) for text in sources().values()))


@functools.lru_cache(maxsize=None)
def is_path(text):
    """Returns true if a file or a folder exists whose path ends with this, with or without its suffix."""
    wanted = CHOSEN.sub("*", text.rstrip("/")).replace("*", "[^/]*").replace(".", r"\.")
    shape = re.compile(rf".*/{wanted}(\.\w+)?")
    return any(shape.fullmatch(it) for it in paths())


@functools.lru_cache(maxsize=None)
def is_member(owner, name):
    """Returns true if that type or file has a function, a variant or a definition of this name."""
    made = re.compile(rf"\b{re.escape(name)}\b")
    of_type = re.compile(rf"\b(struct|enum|trait|type|record|data|impl\b[^\n]*)\s{re.escape(owner)}\b")
    for path, text in sources().items():
        parts = path.rsplit(".", 1)[0].split("/")
        if (owner in parts or of_type.search(text)) and made.search(text):
            return True
    return False


def is_known(text, options):
    """Returns true if the code in a page exists."""
    if text in OTHERS:
        return True
    if re.fullmatch(r"--?[A-Za-z].*", text):
        return all(it in options or it in keys() or re.fullmatch("[A-Z]+(:[A-Z]+)?|[0-9.:]+", it) for it in text.split())
    # A form of the protocol, such as `peek <id>`.
    text = re.sub(r"( <\w+>)+$", "", text)
    built = re.fullmatch(r"crates/(\w+)/out/\1(_tests)?", text)
    if built:
        return is_path(f"crates/{built[1]}/src/{'lib' if built[2] else 'main'}.rt")
    member = re.fullmatch(r"(?:\w+::)*(\w+)(?:::|\.)(\w+)(?:\(\))?", text)
    if member and not is_path(text):
        return is_member(*member.groups())
    if re.fullmatch(r"[A-Za-z_]\w*(\(\))?", text):
        return text.rstrip("()") in words() or is_path(text)
    if re.fullmatch(r"[-\w]+", text):
        return text in keys() or is_path(text)
    if re.fullmatch(r"/?[\w.*-]*(/[\w.*-]+)*/?", text) and is_path(text.lstrip("/")):
        return True
    return any(text in it for it in sources().values())


def paths_in(page):
    """Returns the paths of the repository that a page names in its sentences."""
    for number, line in enumerate(page.read_text().splitlines(), 1):
        for found in re.findall(r"(?<![\w/.`-])(?:docs|tests|tools|packaging|crates|\.ci)/[\w./*-]*\w", line):
            yield number, found


def links_in(page):
    """Returns the places of the repository that a page links to, as they are written."""
    text = re.sub(r"^```\w*\n.*?^```", lambda found: "\n" * found[0].count("\n"), page.read_text(), flags=re.M | re.S)
    for number, line in enumerate(text.split("\n"), 1):
        for found in re.findall(r"\]\(([^)\s]+)\)", line):
            if "://" not in found:
                yield number, found


def unlinked():
    """Returns the pages that a page names in its sentences without a link."""
    found = []
    for page in markdown():
        text = re.sub(r"^```\w*\n.*?^```", lambda block: "\n" * block[0].count("\n"), page.read_text(), flags=re.M | re.S)
        for number, line in enumerate(text.split("\n"), 1):
            bare = re.sub(r"`[^`]*`|\[[^\]]*\]\([^)\s]*\)", "code", line)
            found += [f"{page.relative_to(ROOT)}:{number}: {it} is no link" for it in re.findall(r"(?<![\w/])[\w/]*[A-Z]+\.md\b", bare)]
    return found


def anchors(page):
    """Returns the headings of a page, in the form in which links name them."""
    return {re.sub(r"[^\w -]", "", it).strip().lower().replace(" ", "-") for it in re.findall(r"^#+ (.*)$", page.read_text(), re.M)}


def is_linked(page, link):
    """Returns true if a link of the page leads to an existing file and heading."""
    path, _, heading = link.partition("#")
    target = (page.parent / path) if path else page
    return target.exists() and (not heading or heading in anchors(target))


def misplaced():
    """Returns names in code that the file does not have to which the link leads that they are the text of, or are `in`."""
    names, found = r"((?:`[\w:]+`(?:, | and )?)+)", []
    for page in markdown():
        for shape in [rf"\[{names}\]\(([^)#\s]+)\)", rf"{names} in \[[^\]]*\]\(([^)#\s]+)\)"]:
            for codes_of, link in re.findall(shape, page.read_text()):
                file = page.parent / link
                text = file.read_text() + file.stem if file.is_file() else ""
                absent = [it for it in re.findall(r"`([\w:]+)`", codes_of) if it.split("::")[-1] not in text]
                found += [f"{page.relative_to(ROOT)}: {it} is not in {link}" for it in absent]
    return found


def dead_links_of_the_package():
    """Returns the links that lead nowhere from the pages as the package installs them."""
    with tempfile.TemporaryDirectory(prefix="pages-") as folder:
        subprocess.run([sys.executable, ROOT / "packaging/pages.py", folder], check=True)
        pages = sorted(pathlib.Path(folder).rglob("*.md"))
        if not pages:
            return ["packaging/pages.py copies no page"]
        return [f"in the package, {page.relative_to(folder)}:{number}: {link} leads nowhere"
                for page in pages for number, link in links_in(page) if not is_linked(page, link)]


def named(options, is_command):
    """Returns what pages name: the place, the kind, and whether it exists."""
    for page in markdown():
        for piece in codes(page):
            if not is_command(piece.text):
                yield place(piece), piece.text, is_known(piece.text, options)
        for number, path in paths_in(page):
            yield f"{page.relative_to(ROOT)}:{number}", path, is_known(path, options)
        for number, link in links_in(page):
            yield f"{page.relative_to(ROOT)}:{number}", link, is_linked(page, link)
    for page in manuals():
        for piece in manual_options(page):
            yield place(piece), piece.text, piece.text in options
