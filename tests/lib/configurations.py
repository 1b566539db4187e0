"""Configurations of tac_plus, as examples/tac_plus has them beside what they become."""

import pathlib
import subprocess
import tempfile

from .cases import Case, Check, Outcome, Play, Wrong

# What is told of something that was left out ends so.
LEFT_OUT = (
    ": left out", "reading is left out", "is left out and denied", "is denied from here on",
)
LONGEST_RUN = 300


def read_import(path, name):
    """The one case of a configuration NAME.conf: its policy is NAME.policy, what is told of it
    NAME.remarks, and its devices NAME.devices, where such a file is there. The policy passes a
    check."""
    play = Play(lambda program: act(program, path))
    yield Case(name, [Check(play, Outcome(b"", b"", 0), "the import")])


def act(program, path):
    with tempfile.TemporaryDirectory(prefix="tacd-test-") as folder:
        folder = pathlib.Path(folder)
        (folder / path.name).write_bytes(path.read_bytes())
        ran = run(program, folder, "import", "--devices-to", "devices", path.name)
        told = stored(path, ".remarks")
        compare("the policy", stored(path, ".policy"), ran.stdout)
        compare("what is told", told, ran.stderr)
        compare("the devices", stored(path, ".devices"), (folder / "devices").read_bytes())
        left_out = any(line.endswith(LEFT_OUT) for line in told.decode().splitlines())
        compare("the status", 5 if left_out else 0, ran.returncode)
        (folder / "policy").write_bytes(ran.stdout)
        compare("the check", 0, run(program, folder, "check", "policy").returncode)


def run(program, folder, *words, umask=-1):
    return subprocess.run(
        ["tacd", *words], executable=program, cwd=folder, capture_output=True, timeout=LONGEST_RUN,
        umask=umask,
    )


def stored(path, suffix):
    """The content of the file beside a configuration, which is empty where there is none."""
    beside = path.with_suffix(suffix)
    return beside.read_bytes() if beside.is_file() else b""


def compare(what, wanted, came):
    if wanted != came:
        raise Wrong(f"{what}: {came!r} came, and {wanted!r} is stored")
