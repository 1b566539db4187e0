"""Which program is tried, and the command line of what tries it."""

import argparse
import atexit
import os
import pathlib
import shutil
import signal
import subprocess
import sys
import tempfile

TOP = pathlib.Path(__file__).resolve().parents[2]
# Where ./tacd builds the program.
BUILT = TOP / "crates/tacd/out/tacd"


def own_name():
    return f"bench/{pathlib.Path(sys.argv[0]).resolve().name}"


def fail(why, status=1):
    """Ends this process, which can't go on."""
    print(f"{own_name()}: {why}", file=sys.stderr)
    sys.exit(status)


def reader(page):
    """A reader of the command line: it has --program, and its help is this page."""
    words = argparse.ArgumentParser(
        prog=own_name(), description=page, formatter_class=argparse.RawDescriptionHelpFormatter
    )
    told = "the program to try; without it ./tacd builds one"
    words.add_argument("--program", metavar="PATH", type=pathlib.Path, help=told)
    return words


def begin(words):
    """What the command line says, and the program, which is built where it names none. `--help`
    ends before that."""
    given = words.parse_args()
    # So that servers and folders go too where somebody ends this.
    signal.signal(signal.SIGTERM, lambda *_: sys.exit(143))
    return given, program_at(given.program)


def program_at(path=None):
    """The whole path of the program at this one, or of that which ./tacd builds where none is said."""
    if path is None:
        if subprocess.run([TOP / "tacd", "--version"], stdout=subprocess.DEVNULL).returncode:
            fail("there is no program", 2)
        path = BUILT
    if not is_program(path):
        fail(f"{path}: there is no such program", 2)
    return path.resolve()


def is_program(path):
    return path.is_file() and os.access(path, os.X_OK)


def folder():
    """A new folder, which goes when this process ends. What is written there from now on is this
    user's alone: of a secret that others can read a server would complain."""
    os.umask(0o077)
    made = tempfile.mkdtemp(prefix="tacd-bench-")
    atexit.register(shutil.rmtree, made, ignore_errors=True)
    return made
