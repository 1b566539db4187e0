"""The tour of examples/: what it prints, as README.md shows it too, and that a step which goes
otherwise ends it, with its server and its folder gone."""

import os
import pathlib
import re
import shutil
import signal
import subprocess
import tempfile
import time

from lib import pages
from lib.cases import Wrong, cases

TOP = pathlib.Path(__file__).resolve().parent.parent
TOUR = TOP / "examples/tour"
POLICY = TOP / "examples/ops.policy"
SHOWN = pathlib.Path(__file__).with_suffix(".output")
README = TOP / "README.md"
LONGEST_RUN = 100
SOON = 10
# A program that isn't quite tacd. It says which process it is, so that the test finds it.
NEARLY = """#!/bin/sh
echo $$ >> '{pids}'
line=" $* "
{otherwise}
exec '{program}' "$@"
"""
# What is to go otherwise, and which command line of the tour is the last one then.
FAULTS = (
    ("check", "echo 'fault line 1 1 BadLine'; exit 1", "tacd check ops.policy"),
    ("serve", "echo 'tacd: no memory' >&2; exit 3", "--log audit.log ops.policy &"),
    ("serve", "exec sleep 60", "--log audit.log ops.policy &"),
    ("login bob", "echo 'FAIL'; exit 1", "login bob < password"),
    ("login bob", "echo 'PASS'; exit 1", "login bob < password"),
    ("login bob", "echo 'FAIL'; exit 0", "login bob < password"),
    ("shell bob", "echo 'PASS_ADD'; exit 0", "shell bob"),
    ("command bob show running-config", "echo 'FAIL denied by default'; exit 1", "command bob show running-config"),
    ("command bob configure terminal", "echo 'PASS_ADD'; exit 0", "command bob configure terminal"),
    ("console console insert", "echo 'refused 7 BadIndex'; exit 1", "'show run.*'"),
    # An edit that is told, and isn't made.
    (
        "console console insert",
        "printf 'ok\\nuser bob now denies: show run\\n'; exit 0",
        "command bob show running-config",
    ),
    ("command bob show version", "echo 'FAIL denied by group ops rule 2'; exit 1", "command bob show version"),
    ("console console policy", "echo 'tacd: no server listens at this socket' >&2; exit 4", "> served.policy"),
    ("diff", "echo same; exit 0", "tacd diff ops.policy served.policy"),
    # A log that nothing comes into.
    ("serve", "set -- $(echo \"$*\" | sed 's/audit.log/other.log/')", "tail -n 4 audit.log"),
    # An end that is told, and doesn't come; and one that isn't well.
    ("console console quit", "echo ok; exit 0", "tacd console console quit"),
    ("serve", "'{program}' \"$@\"; exit 3", "tacd console console quit"),
)

# A start at a port that somebody has.
TAKEN = re.compile(r"    \$ tacd serve .* &\n    tacd: .*: Address already in use \(os error 98\)\n")


def prints_this(program):
    fits(SHOWN.read_text("utf-8").splitlines(), well(tour(program)))


def is_shown_by_the_readme(program):
    shown = [
        command.shown
        for block in pages.blocks(README.read_text("utf-8"))
        if block.words == ["console"]
        for command in pages.commands(block)
        if command.text == "examples/tour"
    ]
    if len(shown) != 1:
        raise Wrong(f"README.md has the tour {len(shown)} times")
    fits(shown[0], well(tour(program)))


def is_beside_the_script(program):
    """Without a program it takes the script tacd of the folder above it, wherever that is."""
    with tempfile.TemporaryDirectory(prefix="tacd-test-") as folder:
        examples = pathlib.Path(folder, "examples")
        examples.mkdir()
        shutil.copy(TOUR, examples)
        shutil.copy(POLICY, examples)
        pathlib.Path(folder, "tacd").symlink_to(program)
        fits(SHOWN.read_text("utf-8").splitlines(), well(tour(None, script=examples / "tour")))


def a_port_is_taken(program):
    """Twice, and then there is one."""
    otherwise = """
if [ "$1" = serve ] && [ "$(wc -l < '{pids}.tried' 2>/dev/null || echo 0)" -lt 2 ]; then
    echo >> '{pids}.tried'
    echo "tacd: 127.0.0.1:$5: Address already in use (os error 98)" >&2
    exit 4
fi
"""
    with Nearly(program, otherwise) as it:
        printed = well(it.tour())
        if printed.count("--log audit.log ops.policy &\n") != 3 or printed.count("Address already in use") != 2:
            raise Wrong(f"it prints\n{printed}")
        it.is_over()


def there_is_no_program(program):
    for words in (["--program", "/nowhere"], ["--program", "/"], ["--program"], ["--somehow"]):
        ended = subprocess.run([TOUR, *words], capture_output=True, text=True, timeout=LONGEST_RUN)
        if ended.returncode != 2 or ended.stdout or not ended.stderr:
            raise Wrong(f"{words} ends with {ended.returncode}:\n{ended.stdout}{ended.stderr}")


@cases
def goes_otherwise():
    for words, otherwise, last in FAULTS:
        yield f"{words}: {otherwise}", fault(words, otherwise, last)


@cases
def is_ended():
    for number in (signal.SIGTERM, signal.SIGINT, signal.SIGHUP):
        yield f"by {number.name}", ended_by(number)


def fault(words, otherwise, last):
    """The case of a tour that ends at this command line, since a program does otherwise at these words."""

    def play(program):
        with Nearly(program, f'case $line in *" {words} "*) {otherwise} ;; esac') as it:
            ended = it.tour()
            commands = [line for line in ended.stdout.splitlines() if line.startswith("    $ ")]
            if ended.returncode != 1 or not ended.stderr.startswith("tour: "):
                raise Wrong(f"it ends with {ended.returncode}:\n{ended.stdout}{ended.stderr}")
            if not commands or not commands[-1].endswith(last):
                raise Wrong(f"it goes on:\n{ended.stdout}{ended.stderr}")
            it.is_over()

    return play


def ended_by(number):
    """The case of a tour that a signal ends while a step takes long."""

    def play(program):
        with Nearly(program, 'case $line in *" diff "*) exec sleep 60 ;; esac') as it:
            process = it.begins()
            try:
                for line in process.stdout:
                    if "tacd diff" in line:
                        break
                process.send_signal(number)
                status = process.wait(SOON)
            finally:
                process.kill()
                process.stdout.close()
            if status != 128 + number:
                raise Wrong(f"it ends with {status}")
            it.is_over()

    return play


def fits(shown, came):
    """It is shown so, but for ports that another case had just then."""
    came = TAKEN.sub("", came)
    if not pages.fits(shown, came.split("\n")):
        wanted = "\n".join(shown)
        raise Wrong(f"it prints\n{came}\nand this was to come\n{wanted}")


def well(ended):
    """What a tour printed that ended well."""
    if ended.returncode or ended.stderr:
        raise Wrong(f"it ends with {ended.returncode}:\n{ended.stdout}{ended.stderr}")
    return ended.stdout


def tour(program, script=TOUR):
    with tempfile.TemporaryDirectory(prefix="tacd-test-") as folder:
        ended = subprocess.run(
            words(program, script),
            env=os.environ | {"TMPDIR": folder},
            stdin=subprocess.DEVNULL,
            capture_output=True,
            text=True,
            timeout=LONGEST_RUN,
        )
        if os.listdir(folder):
            raise Wrong(f"it leaves {os.listdir(folder)}")
        return ended


def words(program, script):
    return [script] if program is None else [script, "--program", program]


class Nearly:
    """A program that does something otherwise, and the tour with it."""

    def __init__(self, program, otherwise):
        self.program, self.otherwise = program, otherwise

    def __enter__(self):
        self.made = tempfile.TemporaryDirectory(prefix="tacd-test-")
        self.folder = pathlib.Path(self.made.name)
        self.pids = self.folder / "pids"
        self.temporary = self.folder / "temporary"
        self.temporary.mkdir()
        script = NEARLY.replace("{otherwise}", self.otherwise)
        script = script.replace("{pids}", str(self.pids)).replace("{program}", str(self.program))
        # Another process writes it: see recipes.py.
        subprocess.run(
            ["install", "-m", "700", "/dev/stdin", self.folder / "tacd"], input=script, text=True, check=True
        )
        return self

    def __exit__(self, *_):
        self.made.cleanup()

    def begins(self):
        """Who runs the tests may ignore these signals."""
        return subprocess.Popen(
            ["env", "--default-signal=HUP,INT,TERM", *words(self.folder / "tacd", TOUR)],
            env=os.environ | {"TMPDIR": str(self.temporary)},
            stdin=subprocess.DEVNULL,
            stdout=subprocess.PIPE,
            stderr=subprocess.DEVNULL,
            text=True,
        )

    def tour(self):
        return subprocess.run(
            words(self.folder / "tacd", TOUR),
            env=os.environ | {"TMPDIR": str(self.temporary)},
            stdin=subprocess.DEVNULL,
            capture_output=True,
            text=True,
            timeout=LONGEST_RUN,
        )

    def is_over(self):
        """Nothing of it is left: no file, and soon no process."""
        if os.listdir(self.temporary):
            raise Wrong(f"it leaves {os.listdir(self.temporary)}")
        end = time.monotonic() + SOON
        pids = set(self.pids.read_text().split())
        while left := [pid for pid in pids if lives(pid)]:
            if time.monotonic() > end:
                raise Wrong(f"these go on: {left}")
            time.sleep(0.05)


def lives(pid):
    try:
        return pathlib.Path("/proc", pid, "stat").read_text().rpartition(")")[2].split()[0] not in "ZX"
    except (FileNotFoundError, ProcessLookupError):
        return False
