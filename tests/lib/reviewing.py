"""What `tacd diff` and its kind print of two policies."""

import pathlib
import subprocess
import tempfile

from .cases import Wrong

LONGEST_RUN = 60
BETWEEN = "between two of them the policy is neither OLD nor NEW"


def ran(program, words, given=""):
    """What a run prints, which has to end well, and to complain of nothing but several batches."""
    run = subprocess.run(
        [program, *words], input=given, capture_output=True, text=True, timeout=LONGEST_RUN
    )
    batches = run.stdout.splitlines().count("begin")
    complained = f"tacd: {batches} batches; {BETWEEN}\n" if batches > 1 else ""
    if run.returncode or run.stderr != complained:
        raise Wrong(f"{words[0]} ends with {run.returncode}: {run.stderr}")
    return run.stdout


def reviewed(program, words, old, new):
    """What a review of two policies prints."""
    with tempfile.TemporaryDirectory(prefix="tacd-test-") as folder:
        files = [pathlib.Path(folder, name) for name in ("old", "new")]
        for file, text in zip(files, (old, new)):
            file.write_text(text, "utf-8")
        return ran(program, [*words, *files])
