"""Pages of docs/: the blocks between their fences, the commands that these show with what each prints, and
whether what came is what a page shows. bench/docs says how a page is written."""

import re
import typing

from .cases import Mistake

FENCE = re.compile(r"^( *)(`{3,})([^`]*)$")
# What begins a line of output all the same: comments of the format in which a server tells how it is.
PRINTED = ("# HELP ", "# TYPE ")
# What differs from run to run, and what both sides have in its place.
MASKS = [
    (re.compile(r"\d{4}-\d\d-\d\dT\d\d:\d\d:\d\d(\.\d+)?Z"), "TIME"),
    (re.compile(r'"session":"[0-9a-f]{8}"'), '"session":"SESSION"'),
    (re.compile(r'"operator":(null|"[^"]*")'), '"operator":"NAME"'),
    (re.compile(r"127\.0\.0\.1:\d+"), "127.0.0.1:PORT"),
    (re.compile(r"(--port|listening) \d{5}\b"), r"\1 PORT"),
    (re.compile(r"\S*/tacd-tour\.\w{6}"), "FOLDER"),
]
# What a page leaves out of a line.
LEFT_OUT = re.compile(r"(?<!\.)\.\.(?!\.)")


class Block(typing.NamedTuple):
    """What stands between two fences: the line of the first, the words after it, and the lines."""

    line: int
    words: list
    lines: list


class Command(typing.NamedTuple):
    """A command of a page, with its line there, who gives it, and the lines that it prints."""

    line: int
    is_root: bool
    text: str
    shown: list


def blocks(text):
    """All blocks of a page, in order. Those of a list stand further in."""
    found, begun = [], None
    for number, line in enumerate(text.splitlines(), 1):
        fence = FENCE.match(line)
        if begun is None:
            if fence:
                begun = Block(number, fence[3].split(), []), len(fence[1]), fence[2]
        elif fence and fence[2] == begun[2] and not fence[3].strip():
            found.append(begun[0])
            begun = None
        else:
            indent = begun[1]
            begun[0].lines.append(line[indent:] if not line[:indent].strip() else line)
    if begun is not None:
        raise Mistake(f"line {begun[0].line}: this block doesn't end")
    return found


def commands(block):
    """The commands of a block, in order, each with what it prints."""
    found, rest = [], list(enumerate(block.lines, block.line + 1))
    while rest:
        number, line = rest.pop(0)
        if not is_command(line):
            raise Mistake(f"line {number}: a block of commands begins with one")
        text = [line[2:]]
        while text[-1].endswith("\\") and rest:
            text.append(rest.pop(0)[1])
        shown = []
        while rest and not is_command(rest[0][1]):
            shown.append(rest.pop(0)[1])
        found.append(Command(number, line.startswith("# "), "\n".join(text), without_end(shown)))
    return found


def is_command(line):
    return line.startswith(("$ ", "# ")) and not line.startswith(PRINTED)


def without_end(lines):
    """Lines without the empty ones at their end."""
    lines = list(lines)
    while lines and not lines[-1]:
        lines.pop()
    return lines


def masked(line):
    for pattern, name in MASKS:
        line = pattern.sub(name, line)
    return line


def fits(shown, came):
    """Whether these lines came, where the page shows those: `..` alone is any lines, and within a line
    any characters of it."""
    pattern = ""
    for line in without_end(shown):
        if line.strip() == "..":
            pattern += r"(?:.*\n)*"
        else:
            pattern += ".*".join(map(re.escape, LEFT_OUT.split(masked(line)))) + r"\n"
    text = "".join(f"{masked(line)}\n" for line in without_end(came))
    return re.fullmatch(pattern, text) is not None


# What a page names: a link, a path from one of these folders or from that of a crate, a page, and the
# heading of a page behind its name.
LINK = re.compile(r"\[[^\]]*\]\(([^()\s]+)\)")
FOLDERS = ("docs", "tests", "bench", "examples", "packaging", "crates")
PATH = re.compile(r"(?<![\w./~$-])\w+/[\w.*/-]*|(?<![\w./-])[A-Z]+\.md\b")
TITLED = re.compile(r"((?:docs/|tests/)?[A-Z]+\.md)((?:(?:,| and) \"[^\"]+\")+)")
HEADING = re.compile(r"^#+ +(.*)$", re.M)
LONGEST_PAGE = 350


def told(text):
    """A page without its blocks."""
    lines, within = [], None
    for line in text.splitlines():
        fence = FENCE.match(line)
        if within is None and fence:
            within = fence[2]
        elif within is None:
            lines.append(line)
        elif fence and fence[2] == within and not fence[3].strip():
            within = None
    return "\n".join(lines)


def headings(text):
    return [plain(heading) for heading in HEADING.findall(told(text))]


def plain(words):
    return words.replace("`", "").strip()


def anchor(heading):
    """What a link calls a heading."""
    return re.sub(r"[^\w\- ]", "", heading.lower()).replace(" ", "-")


def lost(top, page):
    """What a page names that isn't there, and whether it is too long; a line for each."""
    text = (top / page).read_text("utf-8")
    count = len(text.splitlines())
    if page.parts[0] == "docs" and count >= LONGEST_PAGE:
        yield f"it has {count} lines, and may have fewer than {LONGEST_PAGE}"
    text = told(text)
    for target in LINK.findall(text):
        if not is_linked(top, page, target):
            yield f"its link to {target} leads nowhere"
    for path in PATH.findall(LINK.sub("", text)):
        if not is_there(top, path.rstrip(".-*")):
            yield f"it names {path}, which isn't there"
    for name, titles in TITLED.findall(text):
        for title in re.findall(r'"([^"]+)"', titles):
            if not is_titled(top, name, title):
                yield f"it names {title!r} in {name}, which has no such heading"


def is_linked(top, page, target):
    if "://" in target:
        return True
    path, _, name = target.partition("#")
    aim = (top / page).parent / path if path else top / page
    if not aim.exists():
        return False
    return not name or name in map(anchor, headings(aim.read_text("utf-8")))


def is_there(top, path):
    """Whether there is such a path, where it is one of this repository: below one of its folders, or below a
    crate or the sources of one. Of a path, `*` is any part, and a word in capitals stands for others. What
    .gitignore has is made when it is wanted."""
    parts = [part for part in path.split("/") if part]
    made = (top / ".gitignore").read_text("utf-8").split()
    if f"/{path}" in made or any(part.isupper() or f"{part}/" in made for part in parts):
        return True
    if parts[0] in FOLDERS or len(parts) == 1:
        return path.endswith("/") and len(parts) == 1 or any(top.glob("/".join(parts)))
    if not (top / "crates" / parts[0]).is_dir():
        return True
    below = [(top / "crates").glob(f"{parts[0]}/{between}{'/'.join(parts[1:])}{end}")
             for between in ("", "src/") for end in ("", ".rt")]
    return any(map(any, below))


def is_titled(top, name, title):
    """Whether a page has such a heading, or one that begins so before a colon or a parenthesis."""
    path = top / name if (top / name).exists() else top / "docs" / name
    if not path.exists():
        return False
    known = [re.sub(r"^\d+\. ", "", heading) for heading in headings(path.read_text("utf-8"))]
    title = plain(title)
    return any(heading == title or heading.startswith((f"{title}:", f"{title} (")) for heading in known)
