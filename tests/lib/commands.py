"""Reads command lines: files of the form that tests/README.md describes."""

import re
import shlex

from .cases import Case, Check, File, Mistake, Outcome, Run
from .paragraphs import bare, paragraphs, plain

FILE = re.compile("(open )?file ([^ /]+)")
FOLDER = re.compile("folder ([^ /.]+)")
STATUS = re.compile("status ([0-9]+)")
# Who may read a file: its owner alone, or with `open` any user.
CLOSED, OPEN = 0o600, 0o644


def read_commands(path, name):
    """The cases of a file, one for each command line."""
    files = {}
    for head, *lines in paragraphs(path, name):
        file, folder = FILE.fullmatch(head.text), FOLDER.fullmatch(head.text)
        if file:
            text = "".join(plain(bare(line, name)) for line in lines)
            files[file[2]] = File(file[2], text.encode(), OPEN if file[1] else CLOSED)
        elif folder and not lines:
            files[folder[1]] = File(folder[1], None, None)
        elif head.text.startswith("$ tacd"):
            try:
                run = command(head.text.removeprefix("$ "), files)
            except ValueError as mistake:
                raise Mistake(f"{name}:{head.number}: {mistake}") from mistake
            expected = outcome(lines, path, name)
            yield Case(f"{name}:{head.number}", [Check(run, expected, head.text)])
        else:
            raise Mistake(f"{name}:{head.number}: it begins neither a file nor a command")


def command(line, files):
    """The run of a command line. It may take its input from a file, and its output may be full."""
    program, *words = shlex.split(line)
    if program != "tacd":
        raise ValueError(f"{program} is another program")
    is_full = words[-2:] == [">", "/dev/full"]
    if is_full:
        words = words[:-2]
    given = b""
    if words[-2:-1] == ["<"]:
        file = files.get(words[-1])
        if file is None or file.content is None:
            raise ValueError(f"there is no file {words[-1]}")
        given = file.content
        words = words[:-2]
    return Run(tuple(words), given, tuple(files.values()), is_full)


def outcome(lines, path, name):
    """What the lines after a command say has to come of it."""
    printed, complained, status = b"", "", None
    for line in lines:
        text = line.text
        told = STATUS.fullmatch(text)
        if told and status is not None:
            raise Mistake(f"{name}:{line.number}: a second status")
        if told:
            status = int(told[1])
        elif text.startswith("!"):
            complained += plain(text.removeprefix("!").removeprefix(" "))
        elif text.startswith("prints "):
            printed += stored(path, name, line)
        else:
            printed += plain(bare(line, name)).encode()
    return Outcome(printed, complained.encode(), status or 0)


def stored(path, name, line):
    """The content of the file beside this one that a line names."""
    try:
        return path.with_name(line.text.removeprefix("prints ")).read_bytes()
    except (OSError, ValueError) as mistake:
        raise Mistake(f"{name}:{line.number}: {mistake}") from mistake
