"""Compares what `tacd devices` prints with the reference, whose addresses are those of Python's
ipaddress: files that are drawn, some of them wrong, with up to twenty addresses each. Of each file
`tacd devices --lint` has to tell the right lines, each at a column that it has."""

import pathlib
import re
import subprocess
import sys
import tempfile
import time

from generator.choices import Choices
from generator.devices import listing as drawn_listing
from reference.devices import Refused, listing, read_devices
from reference.texts import lines_of, text_of
from shrinking import smaller

MOST_DIFFERENCES = 5
LONGEST_RUN = 60
# The numbers of refusals: a setting before any device, and a device that lacks something.
NO_DEVICE, LACKS = 3, (8, 9)


def compare(path, seed, numbers):
    began = time.monotonic()
    differences = done = asked = refused = 0
    with tempfile.TemporaryDirectory(prefix="tacd-devices-") as folder:
        file = pathlib.Path(folder, "devices")
        for done, number in enumerate(numbers, start=1):
            drawn = drawn_listing(Choices(f"{seed}:{number}"))
            expected = listing(*drawn)
            asked += len(drawn.words)
            refused += expected[1] == 1
            if run(path.resolve(), file, drawn) != expected:
                differences += 1
                tell(path.resolve(), file, seed, number, drawn)
            elif differs_in_lint(path.resolve(), file, drawn.text):
                differences += 1
                tell_lint(path.resolve(), file, seed, number, drawn)
            if differences == MOST_DIFFERENCES:
                print("no more are looked for")
                break
    seconds = time.monotonic() - began
    print(f"{done} files of seed {seed}, {asked} addresses, {refused} files refused,", end=" ")
    print(f"{differences} differences, {seconds:.0f} seconds")
    return 1 if differences else 0


def run(path, file, drawn):
    file.write_bytes(drawn.text)
    words = [path, "devices", file, *drawn.words]
    ran = subprocess.run(words, capture_output=True, timeout=LONGEST_RUN)
    return ran.stdout, ran.returncode


def tell(path, file, seed, number, drawn):
    least = smaller(drawn, lambda it: run(path, file, it) != listing(*it))
    print(f"== file {number} of seed {seed} differs; made smaller:\n{least.text!r}")
    print("-- asked about:", *least.words)
    print(f"-- the reference: {listing(*least)}\n-- {path}: {run(path, file, least)}", flush=True)


def linted(path, file, text):
    """What `--lint` prints, by line, column and text, and its status."""
    file.write_bytes(text)
    words = [path, "devices", "--lint", file]
    ran = subprocess.run(words, capture_output=True, timeout=LONGEST_RUN)
    lines = ran.stdout.decode().splitlines()
    told = [re.fullmatch(r"line ([0-9]+) column ([0-9]+): (.+)", line) for line in lines]
    return [(int(one[1]), int(one[2]), one[3]) for one in told], ran.returncode


def differs_in_lint(path, file, text):
    lines = lines_of(text_of(text))
    told, status = linted(path, file, text)
    if any(not 1 <= column <= len(lines[number - 1]) + 1 for number, column, _ in told):
        return True
    numbers = [number for number, _, _ in told]
    wanted = wrong_lines(lines)
    if wanted:
        return numbers != wanted or status != 1
    remarks, _ = listing(text, ())
    remarked = re.findall(r"^line ([0-9]+):", remarks.decode(), re.MULTILINE)
    return numbers != sorted(map(int, remarked)) or status != (5 if remarked else 0)


def refusal_of(lines):
    """The line, and the number of what is wrong there; None where the lines may stand."""
    try:
        read_devices(lines)
    except Refused as refusal:
        line, number, _ = str(refusal).split(" ")
        return int(line), int(number)
    return None


def wrong_lines(lines):
    """Of a file that is refused the line that is, those that are wrong by themselves, and the first of
    each device that lacks something, where one is refused for that."""
    refused = refusal_of(lines)
    if refused is None:
        return []
    wrong = {number for number, line in enumerate(lines, start=1) if is_wrong(line)}
    if refused[1] in LACKS:
        begins = [at for at, line in enumerate(lines) if line.lstrip(" ").startswith("device ")]
        blocks = zip(begins, [*begins[1:], len(lines)])
        wrong |= {at + 1 for at, end in blocks if refusal_of(lines[at:end]) is not None}
    return sorted(wrong | {refused[0]})


def is_wrong(line):
    refused = refusal_of([line])
    if refused == (1, NO_DEVICE):
        refused = refusal_of(["device x", line])
    return refused is not None and refused[1] not in LACKS


def tell_lint(path, file, seed, number, drawn):
    least = smaller(drawn, lambda it: differs_in_lint(path, file, it.text))
    print(f"== the lint of file {number} of seed {seed} differs; made smaller:\n{least.text!r}")
    print(f"-- wrong: {wrong_lines(lines_of(text_of(least.text)))}")
    print(f"-- {path}: {linted(path, file, least.text)}", flush=True)
