"""Servers that keep their edits in a file, and what lies where they would have it."""

import os
import pathlib
import tempfile

from .cases import require
from .consoles import Operator, attended, told
from .servers import Server

# The policy of a server, as its console prints it.
FIRST = "policy 2; group ops; permit show .*; user bob in ops; "
NO_ROOM = "it is no regular file"


class Keeping:
    """A server whose edits are kept, and its operator."""

    def __init__(self, program):
        self.server = attended(program, "--keep-edits", "kept")
        self.operator = Operator(self.server)
        self.kept = pathlib.Path(self.server.folder.name, "kept")
        self.policy = pathlib.Path(self.server.folder.name, "policy")
        self.draft = pathlib.Path(self.server.folder.name, ".kept.tacd-draft")

    def __enter__(self):
        return self

    def __exit__(self, *_):
        self.operator.__exit__()
        self.server.__exit__()

    def asks(self, line, wanted, lines):
        """The line is answered so, and then the file has these lines, or isn't there. If it had them
        before it isn't written again."""
        was = self.found()
        told(self.operator, (line, wanted))
        came = self.found()
        require(came[0] == lines, f"after {line} the file has {came[0]!r}, not {lines!r}")
        require(came == was or lines != was[0], f"after {line} the file is written again")

    def found(self):
        """The lines of the file, which file it is, and when it was written, if it is there."""
        if not self.kept.is_file():
            return None, None, None
        found = self.kept.stat()
        lines = "; ".join(self.kept.read_text().splitlines())
        return lines, found.st_ino, found.st_mtime_ns

    def tells(self, **wanted):
        numbers = self.operator.numbers()
        came = {name: numbers[f"tacd_{name}"] for name in wanted}
        require(came == wanted, f"it tells {came}")


def lies_in(folder):
    """Each file of a folder: which it is, its rights and its text, or where it leads; and the names of
    all else."""
    found = {}
    for path in pathlib.Path(folder).iterdir():
        status = path.lstat()
        if path.is_symlink():
            found[path.name] = os.readlink(path)
        elif path.is_file():
            found[path.name] = status.st_ino, status.st_mode, path.read_text()
        else:
            found[path.name] = status.st_ino
    return str(sorted(found.items()))


def isnt_begun(program, path, why, lay, *options, **more):
    """A server in whose folder something was laid, and whose edits are to be kept at a path, ends with
    4. It says what is in its way, and all that lies there stays as it is."""
    words = ("--console", "console", "--keep-edits", path, *options)
    with tempfile.NamedTemporaryFile("r") as noted:

        def before():
            """In the server's folder, before its program begins."""
            lay(pathlib.Path())
            pathlib.Path(noted.name).write_text(lies_in("."))

        with Server(program, *words, before=before, **more) as server:
            server.ends(complained=f"tacd: {why}\n", status=4, is_listening=False)
            came, wanted = lies_in(server.folder.name), noted.read()
            require(came == wanted, f"with {path} it leaves {came}, not {wanted}")


def leads(new, old):
    """A name leads to another one."""
    return lambda folder: os.symlink(old, folder / new)


def writes(name, mode, text="a draft\n"):
    """A file of this name has this text."""

    def lay(folder):
        path = folder / name
        path.write_text(text)
        path.chmod(mode)

    return lay
