"""Compares what `tacd diff` tells of services with what devices are answered.

Of each pair of policies a device asks both for every service that either names and for a shell, for
every user of either. What differs between the replies is told, and nothing else.
"""

import pathlib
import subprocess
import sys
import tempfile
import time

from generator.choices import Choices
from generator.pairs import pair
from reference.given import services_named, told
from reference.policy import USER, find, read_policy
from reference.texts import lines_of
from reference.wire import AUTHORISATION, Header

MOST_DIFFERENCES = 5
PASS_ADD = 0x01


def compare(path, seed, numbers):
    began = time.monotonic()
    differences = done = changes = 0
    with tempfile.TemporaryDirectory(prefix="tacd-changes-") as folder:
        for done, number in enumerate(numbers, start=1):
            texts = pair(Choices(f"{seed}:{number}"))
            by_diff = service_lines(diff(path.resolve(), pathlib.Path(folder), texts))
            by_replies = from_replies(path.resolve(), texts)
            changes += len(by_replies)
            if by_diff != by_replies:
                differences += 1
                tell(seed, number, texts, by_diff, by_replies)
            if differences == MOST_DIFFERENCES:
                print("no more are looked for")
                break
    seconds = time.monotonic() - began
    print(f"{done} pairs of seed {seed}, {changes} lines, {differences} differences,", end=" ")
    print(f"{seconds:.0f} seconds")
    return 1 if differences or changes == 0 else 0


def diff(path, folder, texts):
    names = [folder / "old", folder / "new"]
    for name, text in zip(names, texts):
        name.write_bytes(text)
    ran = subprocess.run([path, "diff", *names], capture_output=True, timeout=60)
    if ran.returncode != 0:
        sys.exit(f"diff ends with {ran.returncode}: {ran.stdout!r}")
    return ran.stdout.decode("latin-1")


def service_lines(output):
    """Lines of services; a command line may have the word too, after its colon."""
    return [line for line in lines_of(output) if " service " in line.partition(":")[0]]


def from_replies(path, texts):
    before, after = (read_policy(lines_of(text.decode("latin-1"))) for text in texts)
    users = [subject.name for subject in after if subject.kind == USER]
    users += [
        subject.name
        for subject in before
        if subject.kind == USER and find(after, USER, subject.name) is None
    ]
    asked = [(user, service) for user in users for service in services_named(before, after)]
    old, new = (replies(path, text, asked) for text in texts)
    return [line for it, was, now in zip(asked, old, new) for line in told(*it, was, now)]


def replies(path, text, asked):
    """For each user and service the arguments of the reply, or None where it isn't granted; a
    shell that doesn't start has none."""
    events = [f"open 1\npacket 1 {packet(*it).hex()}\nlost 1\n" for it in asked]
    script = b"key k\n" + text + b"run\n" + "".join(events).encode()
    ran = subprocess.run([path, "replay"], input=script, capture_output=True, timeout=60)
    lines = [line.split(" ") for line in ran.stdout.decode("latin-1").splitlines()]
    found = [arguments_of(bytes.fromhex(line[2])[12:]) for line in lines if line[0] == "reply"]
    if ran.returncode not in (0, 1) or len(found) != len(asked):
        sys.exit(f"replay ends with {ran.returncode}: {ran.stdout[-200:]!r}")
    return [
        [] if given is None and service == "shell" else given
        for given, (_, service) in zip(found, asked)
    ]


def packet(user, service):
    name, _, protocol = service.partition("/")
    arguments = [f"service={name}"]
    arguments += [f"protocol={protocol}"] if protocol else []
    arguments += ["cmd="] if service == "shell" else []
    fields = [user.encode(), b"tty0", b""]
    body = bytes([6, 1, 1, 1, *map(len, fields), len(arguments), *map(len, arguments)])
    body += b"".join(fields) + "".join(arguments).encode()
    return Header(0xC0, AUTHORISATION, 1, 0, 1, len(body)).to_bytes() + body


def arguments_of(body):
    """The arguments of a PASS_ADD, or None (RFC 8907, section 6.2)."""
    status, count, message, data = body[0], body[1], *(
        int.from_bytes(body[at : at + 2], "big") for at in (2, 4)
    )
    if status != PASS_ADD:
        return None
    at = 6 + count + message + data
    arguments = []
    for length in body[6 : 6 + count]:
        arguments.append(body[at : at + length].decode("latin-1"))
        at += length
    return arguments


def tell(seed, number, texts, by_diff, by_replies):
    print(f"-- pair {number} of seed {seed}")
    for name, text in zip(("old", "new"), texts):
        print(f"-- {name}:\n{text.decode('latin-1')}", end="")
    print("-- told:", *by_diff, "-- by the replies:", *by_replies, sep="\n")
