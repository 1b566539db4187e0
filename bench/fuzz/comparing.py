"""Runs the program on one case after another, and compares it with the reference."""

import pathlib
import subprocess
import sys
import tempfile
import time

from generator.choices import Choices
from generator.scripts import case
from reference.texts import text_of
from running import by_reference, told
from shrinking import smaller

MOST_DIFFERENCES = 5
LONGEST_RUN = 60


class Program:
    def __init__(self, path):
        self.path = path.resolve()
        self.folder = tempfile.TemporaryDirectory(prefix="tacd-fuzz-")
        self.policy = pathlib.Path(self.folder.name, "policy")
        self.log = pathlib.Path(self.folder.name, "log")

    def run(self, case):
        """Output, status and the lines of the log; of a run that doesn't end the status is None."""
        self.log.write_bytes(b"")
        words = [self.path, case.command]
        given = case.text
        if case.command == "check":
            self.policy.write_bytes(case.text)
            words.append(self.policy)
            given = b""
        else:
            words += ["--log", self.log]
        try:
            ran = subprocess.run(words, input=given, capture_output=True, timeout=LONGEST_RUN)
        except subprocess.TimeoutExpired as late:
            return late.stdout or b"", None, b""
        return ran.stdout, ran.returncode, self.log.read_bytes()


def compare(program, seed, numbers):
    began = time.monotonic()
    differences = 0
    for done, number in enumerate(numbers, start=1):
        drawn = case(Choices(f"{seed}:{number}"))
        if program.run(drawn) != by_reference(drawn):
            differences += 1
            tell(program, seed, number, drawn)
            if differences == MOST_DIFFERENCES:
                print("no more are looked for")
                break
        if done % 1000 == 0:
            print(f"{done} scripts, {differences} differences", file=sys.stderr)
    seconds = time.monotonic() - began
    print(f"{done} scripts of seed {seed}, {differences} differences, {seconds:.0f} seconds")
    return 1 if differences else 0


def tell(program, seed, number, drawn):
    least = smaller(drawn, lambda case: program.run(case) != by_reference(case))
    print(f"== script {number} of seed {seed} differs; made smaller, run as {least.command}:")
    print(told_text(least.text))
    print(f"-- the reference:\n{told(by_reference(least))}")
    print(f"-- {program.path}:\n{told(program.run(least))}", flush=True)


def told_text(text):
    return "\n".join(repr(line)[1:-1] for line in text_of(text).split("\n"))
