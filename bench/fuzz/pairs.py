"""Compares what `tacd diff --edits` prints with what a console makes of it, and what `tacd diff` tells
of secrets with the reference.

Of each pair of policies the lines are typed at a replay of the first one, by the reference: no line
is refused, and then the policy has the subjects of the second, with all that they have there. All
batches but the last have 64 edits, each edit changes something, and none is of a subject that both
policies have alike.

The lines of `tacd diff` about secrets are those of the reference, in its order, and come last. Where
there are any, the status is 5.
"""

import pathlib
import re
import subprocess
import sys
import tempfile
import time

from generator.choices import Choices
from generator.pairs import pair
from reference.altered import altered_lines
from reference.edits import read_edit
from reference.policy import Refused, read_policy
from reference.texts import lines_of

MOST_DIFFERENCES = 5
MOST_EDITS = 64
OF_SECRETS = re.compile(r"user \S+ (login|enable) (set|changed|cleared)")
SOMETHING_CHANGES = 5


def compare(path, seed, numbers):
    began = time.monotonic()
    differences = done = secrets = 0
    with tempfile.TemporaryDirectory(prefix="tacd-pairs-") as folder:
        for done, number in enumerate(numbers, start=1):
            old, new = pair(Choices(f"{seed}:{number}"))
            put(pathlib.Path(folder), old, new)
            wanted = altered_lines(policy_of(old), policy_of(new))
            secrets += len(wanted)
            output, status = run(path.resolve(), pathlib.Path(folder), "--edits")
            fault = fault_of(old, new, output, status)
            if fault is None:
                output, status = run(path.resolve(), pathlib.Path(folder), "--exit-code")
                fault = fault_of_secrets(wanted, output, status)
            if fault is not None:
                differences += 1
                tell(seed, number, old, new, output, fault)
            if differences == MOST_DIFFERENCES:
                print("no more are looked for")
                break
    seconds = time.monotonic() - began
    print(f"{done} pairs of seed {seed}, {secrets} secrets, {differences} differences,", end=" ")
    print(f"{seconds:.0f} seconds")
    return 1 if differences or secrets == 0 else 0


def put(folder, old, new):
    for name, text in (("old", old), ("new", new)):
        (folder / name).write_bytes(text)


def run(path, folder, option):
    words = [path, "diff", option, folder / "old", folder / "new"]
    ran = subprocess.run(words, capture_output=True, timeout=60)
    return ran.stdout, ran.returncode


def fault_of_secrets(wanted, output, status):
    """What is wrong with what is told of secrets, or None."""
    lines = lines_of(output.decode("latin-1"))
    told = [line for line in lines if OF_SECRETS.fullmatch(line)]
    if told != wanted or wanted and lines[-len(wanted) :] != wanted:
        return f"of secrets is wanted: {wanted}"
    right = 0 if lines == ["same"] else SOMETHING_CHANGES
    return None if status == right else f"status {status}"


def fault_of(old, new, output, status):
    """What is wrong with the output, or None. Pairs whose batches are too large aren't drawn."""
    if status != 0:
        return f"status {status}"
    before, after = policy_of(old), policy_of(new)
    try:
        made = typed(before, alike(before, after), lines_of(output.decode("latin-1")))
    except (Refused, Wrong) as fault:
        return str(fault)
    return None if subjects_of(made) == subjects_of(after) else "another policy"


def policy_of(text):
    return read_policy(lines_of(text.decode("latin-1")))


def subjects_of(policy):
    return {subject.label(): subject for subject in policy}


def alike(before, after):
    """The labels of those who are the same in both."""
    wanted = subjects_of(after)
    return {label for label, subject in subjects_of(before).items() if wanted.get(label) == subject}


class Wrong(Exception):
    pass


def typed(policy, untouched, lines):
    sizes = []
    while lines:
        policy, size = one_batch(policy, untouched, lines)
        sizes.append(size)
    if any(size != MOST_EDITS for size in sizes[:-1]) or 0 in sizes:
        raise Wrong(f"batches of {sizes}")
    return policy


def one_batch(policy, untouched, lines):
    """The policy after the lines from `begin` to `commit`, which are taken away, and how many."""
    if lines.pop(0) != "begin":
        raise Wrong("no begin")
    size = 0
    while lines[:1] not in ([], ["commit"]):
        line = lines.pop(0)
        changed = read_edit(line)(policy)
        if changed == policy:
            raise Wrong(f"{line} changes nothing")
        if label_of(line) in untouched:
            raise Wrong(f"{line} is of a subject that both have")
        policy, size = changed, size + 1
    if not lines or size > MOST_EDITS:
        raise Wrong(f"{size} edits, or no commit")
    lines.pop(0)
    return policy, size


def label_of(line):
    words = line.split(" ")
    if words[0] in ("login", "enable", "login-hash", "enable-hash"):
        return f"user {words[1]}"
    if words[0] == "clear" and words[1] in ("login", "enable"):
        return f"user {words[2]}"
    return " ".join(words[2:4] if words[0] == "clear" else words[1:3])


def tell(seed, number, old, new, output, fault):
    print(f"== pair {number} of seed {seed}: {fault}")
    for name, text in (("OLD", old), ("NEW", new), ("printed", output)):
        print(f"-- {name}:\n{text.decode('latin-1')}", end="")
    sys.stdout.flush()
