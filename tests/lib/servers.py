"""Servers of the program, as a test starts them, and the files that they have."""

import errno
import itertools
import json
import os
import pathlib
import resource
import select
import subprocess
import tempfile

from bench.lib.server import free_port, listening

from .cases import LONGEST_WAIT, Wrong, require

KEY = b"wide kelp"
POLICY = "group ops\npermit show .*\nuser bob in ops\n"
LOGIN_POLICY = POLICY + "login blue-lake\n"
# A prefix of each device is within one of the other, before it or after it. Nobody is at 127.0.0.3.
DEVICES = b"""# two devices
device one
at 127.0.0.1
at 127.0.0.8/29
key wintry-tundra-ridge-41
device two
at 127.0.0.0/31
at 127.0.0.2
at 127.0.0.9
key  wide kelp forest
"""
KEY_OF_ONE, KEY_OF_TWO = b"wintry-tundra-ridge-41", b" wide kelp forest"
STRANGER = "127.0.0.3"
# What a start says of the key of the second device.
BLANK = "tacd: devices: line 10: a key with a blank at an end, which is part of it\n"
UNKNOWN = f"tacd: {STRANGER}: unknown device, its connection is closed\n"


def ready(streams, seconds):
    """Those of these streams, or of their numbers, that may be read or are at their end, as soon as one is, and
    none once so many seconds are over."""
    by_number = {it if isinstance(it, int) else it.fileno(): it for it in streams}
    poll = select.poll()  # since select itself takes no number over 1,023
    for number in by_number:
        poll.register(number, select.POLLIN)
    return [by_number[number] for number, _ in poll.poll(1000 * seconds)]


class Server:
    """A server with these options, its console at standard input unless they say otherwise."""

    def __init__(self, program, *options, key=("--key-file", "key"), host="127.0.0.1", port=None,
                 has_port=True, proxy=None, output=subprocess.PIPE, policy=POLICY,
                 devices=DEVICES.decode(), before=None, file="policy"):
        self.folder = tempfile.TemporaryDirectory(prefix="tacd-served-")
        self.address = (host, port or free_port())
        places = {"--port": self.address[1] if has_port else None, "--proxy": proxy}
        at = dict(itertools.pairwise(options)).get("--address")
        self.listening = listening(places["--port"], at, proxy)
        files = {file: policy.encode(), "key": KEY + b"\n", "devices": devices.encode()}
        for name, text in files.items():
            path = pathlib.Path(self.folder.name, name)
            path.write_bytes(text)
            path.chmod(0o600)
        given = ((option, str(place)) for option, place in places.items() if place)
        words = ["serve", *itertools.chain(*given), *key, *options, file]
        self.process = subprocess.Popen(
            ["tacd", *words],
            executable=program,
            cwd=self.folder.name,
            preexec_fn=before,
            stdin=subprocess.PIPE,
            stdout=output,
            stderr=subprocess.PIPE,
        )

    def __enter__(self):
        return self

    def __exit__(self, *_):
        self.process.kill()
        self.process.communicate()
        self.folder.cleanup()

    def ends(self, typed="", answers="", complained="", status=0, is_listening=True):
        """After these lines it has printed where it listens and these answers, and ends so."""
        try:
            printed, said = self.process.communicate(typed.encode(), LONGEST_WAIT)
        except subprocess.TimeoutExpired:
            raise Wrong(f"it didn't end after {typed!r}") from None
        expected = "".join(self.listening if is_listening else ()) + answers
        came = ((printed or b"").decode(), said.decode(), self.process.returncode)
        require(came == (expected, complained, status), f"after {typed!r} it ended by {came}")

    def quits(self):
        self.ends("quit\n")


def limit_files(count):
    """So many files may be open at once in this process."""
    resource.setrlimit(resource.RLIMIT_NOFILE, (count, count))


def starts(server):
    """It prints where it listens."""
    for wanted in server.listening:
        came = server.process.stdout.readline().decode()
        require(came == wanted, f"it says {came!r}, not {wanted!r}")


def replace(server, name, lines):
    """A file of the server has these lines, which `; ` parts, or is gone."""
    path = pathlib.Path(server.folder.name, name)
    if lines:
        path.touch(0o600)
        path.write_text("".join(f"{line}\n" for line in lines.split("; ")))
    else:
        path.unlink()


def events(server):
    """The lines of its log."""
    return list(map(json.loads, pathlib.Path(server.folder.name, "log").read_text().splitlines()))


def device_events(server):
    """The lines of the log that a device made."""
    lines = pathlib.Path(server.folder.name, "log").read_text("utf-8").splitlines()
    return [event for event in map(json.loads, lines) if "device" in event]


def has_reader(place):
    """Whether somebody reads a FIFO, as a process does that another case has just forked, until its
    program begins."""
    try:
        os.close(os.open(place, os.O_WRONLY | os.O_NONBLOCK))
        return True
    except OSError as error:
        require(error.errno == errno.ENXIO, f"the FIFO can't be opened: {error}")
        return False
