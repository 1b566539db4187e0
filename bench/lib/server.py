"""Servers on this machine: how one is started, what it prints then, and how it ends."""

import atexit
import contextlib
import itertools
import os
import random
import socket
import subprocess
import tempfile
import time
from typing import NamedTuple, Union

from .judge import judge
from .program import fail

# In an order of this process's own, so that it gives no two servers one.
PORTS = itertools.cycle(random.sample(range(20_000, 32_000), 12_000))
# Those that were started and aren't ended by end_all() yet.
SERVERS = []


def free_port():
    """A port that nobody has. It is bound without listening there: a process that is forked
    meanwhile keeps the socket until its program begins, and where it listens no server can. It is
    below the ports that the system gives to clients, who might take it before the server does."""
    while True:
        port = next(PORTS)
        with contextlib.suppress(OSError), socket.socket() as probe:
            probe.setsockopt(socket.SOL_SOCKET, socket.SO_REUSEADDR, 1)
            probe.bind(("0.0.0.0", port))
            return port


def listening(port=None, address=None, proxy=None):
    """What a start prints: where the server listens, of which each is a line."""
    at = "" if address in (None, "0.0.0.0", "::") else f" at {address}"
    lines = [] if port is None else [f"listening {port}{at}\n"]
    return lines if proxy is None else [*lines, f"listening {proxy}\n"]


def end_all():
    """Ends all servers that there still are."""
    for server in SERVERS:
        server.process.kill()
        server.process.wait()
    SERVERS.clear()


def attempt(what, *words, **others):
    """Tries this, and ends the servers that it leaves. Where it breaks off, that is wrong, and
    what comes after it is tried."""
    try:
        what(*words, **others)
    except Exception as error:
        judge(what.__name__, False, f"{error!r}")
    finally:
        end_all()


class End(NamedTuple):
    """How a server ended: its status, or that it had to be killed; what it printed since it was
    asked last, and all that it said on standard error; and after how many seconds."""

    status: Union[int, str]
    printed: str
    said: str
    seconds: float


class Server:
    """`tacd serve` with these words, at a port that is free, if it is to have one. What it says
    on standard error goes into a file, so that it waits for nobody to read it."""

    def __init__(self, program, *words, port=None, has_port=True, **more):
        self.port = (port or free_port()) if has_port else None
        self.options = dict(itertools.pairwise(words))
        self.errors = tempfile.TemporaryFile()
        place = ["--port", str(self.port)] if has_port else []
        streams = {"stdin": subprocess.PIPE, "stdout": subprocess.PIPE, "stderr": self.errors}
        self.process = subprocess.Popen([program, "serve", *place, *words], **{**streams, **more})
        SERVERS.append(self)
        # It comes before all that was registered until now, as the end of the folder.
        atexit.unregister(end_all)
        atexit.register(end_all)

    def started(self):
        """The server, once it listens."""
        address, proxy = self.options.get("--address"), self.options.get("--proxy")
        for line in listening(self.port, address, proxy):
            came = self.process.stdout.readline().decode()
            if came != line:
                self.process.kill()
                fail(f"the server printed {came!r}, and not {line!r}. {self.ended().said}")
        return self

    def said(self):
        """What it has said on standard error."""
        size = os.fstat(self.errors.fileno()).st_size
        return os.pread(self.errors.fileno(), size, 0).decode()

    def typed(self, line, answers=1):
        """What a line at its standard input is answered, in so many lines."""
        self.type(line)
        lines = (self.process.stdout.readline() for _ in range(answers))
        return [answer.decode("latin-1").removesuffix("\n") for answer in lines]

    def type(self, *lines):
        self.process.stdin.write("".join(f"{line}\n" for line in lines).encode("latin-1"))
        self.process.stdin.flush()

    def quits(self, patience=60):
        """How it ends once `quit` is typed at its standard input."""
        with contextlib.suppress(BrokenPipeError):
            self.type("quit")
        return self.ended(patience)

    def ended(self, patience=10):
        """How it ends by itself, or since it was told to."""
        begun = time.monotonic()
        try:
            status = self.process.wait(patience)
        except subprocess.TimeoutExpired:
            self.process.kill()
            self.process.wait()
            status = "killed, as it did not end"
        seconds = time.monotonic() - begun
        is_read = self.process.stdout is None or self.process.stdout.closed
        printed = "" if is_read else self.process.stdout.read().decode("latin-1")
        return End(status, printed, self.said(), seconds)

    def kill(self):
        self.process.kill()
        self.process.wait()

    def connection(self, patience=15):
        return socket.create_connection(("127.0.0.1", self.port), patience)

    def kilobytes(self, what="VmRSS"):
        """What memory it has, by a line of the system about it."""
        with open(f"/proc/{self.process.pid}/status", encoding="ascii") as status:
            return next(int(line.split()[1]) for line in status if line.startswith(f"{what}:"))

    def descriptors(self):
        return len(os.listdir(f"/proc/{self.process.pid}/fd"))

    def processor(self):
        """The seconds of a processor that it took so far."""
        return sum(seconds_of(f"/proc/{self.process.pid}"))


def seconds_of(folder):
    """The seconds of a processor that a process or a thread took so far, in the program and in the
    kernel, by the folder that the system has of it."""
    with open(f"{folder}/stat", encoding="ascii") as stat:
        words = stat.read().rpartition(")")[2].split()
    return [int(ticks) / os.sysconf("SC_CLK_TCK") for ticks in words[11:13]]
