"""What the pages say of this repository: that what they link and name is there, that none is too long, that
none is named nowhere, and that docs/contracts tells the calls of each crate. It takes no program."""

import functools
import pathlib
import re
import subprocess

from lib import pages
from lib.cases import Wrong, cases

TOP = pathlib.Path(__file__).resolve().parent.parent
PAGES = ["README.md", "CONTRIBUTING.md", "CHANGES.md", "tests/README.md"]
# What a lib.rt gives on from one of its files.
GIVEN_ON = re.compile(r"^pub use (?:crate::|self::)?(\w+)::(\{[^}]*\}|\w+);$", re.M | re.S)


def all_pages():
    made = "docs/CONTRACTS.md"
    return [*PAGES, *sorted({str(it.relative_to(TOP)) for it in (TOP / "docs").glob("*.md")} - {made})]


@cases
def names_what_is_there():
    for page in all_pages():
        yield page, functools.partial(loses_nothing, page)


def loses_nothing(page, program):
    lost = list(pages.lost(TOP, pathlib.Path(page)))
    if lost:
        raise Wrong("\n".join(f"{page}: {line}" for line in lost))


def each_page_is_named(program):
    """Whoever begins with README.md or CONTRIBUTING.md finds each page of docs/."""
    found, todo = set(), ["README.md", "CONTRIBUTING.md"]
    while todo:
        page = todo.pop()
        found.add(page)
        named = set(re.findall(r"docs/[A-Z]+\.md", (TOP / page).read_text("utf-8")))
        todo += [it for it in named - found - set(todo) if (TOP / it).exists()]
    alone = [page for page in all_pages() if page.startswith("docs/") and page not in found]
    if alone:
        raise Wrong(f"no page leads to {', '.join(alone)}")


def contracts_are_told(program):
    """Of each crate of the program what it is, and each function whose name it gives on."""
    text = contracts()
    sections = dict(re.findall(r"^## (\w+)$\n(.*?)(?=^## |\Z)", text, re.M | re.S))
    for crate in crates():
        if not re.search(rf"^- (?:\[{crate}\]\(#{crate}\)|{crate}, without calls): \S", text, re.M):
            raise Wrong(f"docs/contracts doesn't say what {crate} is")
        untold = [it for it in functions(crate) if f"**`{it}`**" not in sections.get(crate, "")]
        if untold:
            raise Wrong(f"docs/contracts doesn't tell {', '.join(untold)} of {crate}")
    if "**`replay`**" not in sections["tac_server"] or "`bytes`" not in contracts("tac_io"):
        raise Wrong("docs/contracts lacks calls, or clauses of them")


def contracts(*words):
    ended = subprocess.run([TOP / "docs/contracts", *words], capture_output=True, text=True)
    if ended.returncode or ended.stderr:
        raise Wrong(f"docs/contracts {' '.join(words)} ends with {ended.returncode}: {ended.stderr}")
    return ended.stdout


def crates():
    """The crates of the program."""
    lines = (TOP / "crates.txt").read_text("utf-8").splitlines()
    names = [line.split(":")[0] for line in lines if ":" in line and not line.startswith("#")]
    return names[: names.index("tacd") + 1]


def functions(crate):
    """The functions whose names the lib.rt of a crate gives on from its own files."""
    source = TOP / "crates" / crate / "src"
    text = (source / "lib.rt").read_text("utf-8") if (source / "lib.rt").exists() else ""
    names = [name for file, given in GIVEN_ON.findall(text) if (source / f"{file}.rt").exists()
             for name in re.findall(r"\w+", given)]
    return [name for name in names if name[0].islower()]
