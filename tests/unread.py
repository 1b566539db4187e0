"""Servers whose standard error is a pipe that is full and that nobody reads, as behind a terminal that
was stopped. Each complaint is one that a server without such a pipe makes too, and nobody waits for it:
devices and operators are answered."""

import contextlib
import errno
import fcntl
import os
import pathlib
import shutil
import socket
import time

from lib.cases import LONGEST_WAIT, SOON, comes_to, require
from lib.consoles import Operator, attended, told, types
from lib.devices import ASK, CLOSING, PERMITTED, connect, is_answered, is_closed, is_permitted, packet
from lib.judged import FDATASYNC, WRITE, Supervised, call_of
from lib.logins import HASHED, LOGINS
from lib.proxies import called
from lib.servers import KEY_OF_ONE, STRANGER, UNKNOWN, Server, ready, replace, starts

# How many complaints wait beside the one that is being written.
MOST_WAITING = 64
# Nothing is remarked on it, so the start says nothing. It waits for who reads.
LISTED = {
    "key": ("--devices", "devices"),
    "devices": f"device one\nat 127.0.0.1\nkey {KEY_OF_ONE.decode()}\n",
}


class Unread:
    """A pipe that is full."""

    def __init__(self):
        self.reader, self.writer = os.pipe()
        fcntl.fcntl(self.writer, fcntl.F_SETPIPE_SZ, 4096)
        os.set_blocking(self.writer, False)
        # How many bytes come before what is said.
        self.before = 0
        with contextlib.suppress(BlockingIOError):
            while True:
                self.before += os.write(self.writer, b"x")
        # The server's end waits: it is the same open file.
        os.set_blocking(self.writer, True)

    def __enter__(self):
        return self

    def __exit__(self, *_):
        os.close(self.reader)
        os.close(self.writer)

    def begin(self):
        """In the process, before its program begins."""
        os.dup2(self.writer, 2)

    def read(self, length):
        """What is said next, up to so many bytes."""
        came, until = b"", time.monotonic() + LONGEST_WAIT
        wanted = self.before + length
        os.set_blocking(self.reader, False)
        while len(came) < wanted and time.monotonic() < until:
            try:
                came += os.read(self.reader, wanted - len(came))
            except BlockingIOError:
                time.sleep(0.01)
        said, self.before = came[self.before :], 0
        return said.decode()

    def tells(self, wanted):
        """Once somebody reads, this is said next."""
        came = self.read(len(wanted.encode()))
        require(came == wanted, f"it says {came!r}, not {wanted!r}")


def strangers(program):
    """One is closed, and then another device is answered."""
    with Unread() as unread, Server(program, **LISTED, before=unread.begin) as server:
        for _ in range(3):
            with connect(server, STRANGER) as stranger:
                require(is_closed(stranger, SOON), "a stranger is served")
            with connect(server, "127.0.0.1") as device:
                asked = is_answered(device, ASK, PERMITTED, key=KEY_OF_ONE, flag=CLOSING)
                require(asked, "a device waits for the reader")
        unread.tells(UNKNOWN)
        server.quits()


def bad_headers(program):
    """A caller at the proxy's socket that is no proxy, and then a device at the port."""
    with (
        Unread() as unread,
        Server(program, **LISTED, proxy="proxy", before=unread.begin) as server,
    ):
        with called(server, b"GET / HTTP/1.1\r\n\r\n") as caller:
            require(is_closed(caller, SOON), "it is served")
        with connect(server, "127.0.0.1") as device:
            asked = is_answered(device, ASK, PERMITTED, key=KEY_OF_ONE, flag=CLOSING)
            require(asked, "a device waits for the reader")
        unread.tells("tacd: proxy: bad proxy header, its connection is closed\n")
        server.quits()


def comes_to_an_end(devices):
    """Whether one of these connections is closed soon. Of each of the others nothing is read."""
    until = time.monotonic() + SOON
    while time.monotonic() < until:
        for device in ready(devices, 0.1):
            with contextlib.suppress(ConnectionError):
                if device.recv(1, socket.MSG_PEEK):
                    continue
            return True
    return False


def logins_that_find_no_room(program):
    """Three hundred at once, of which some are closed."""
    options = ("--workers", "1", "--per-address", "0", "--connections-at-once", "400")
    with Unread() as unread, contextlib.ExitStack() as stack:
        server = stack.enter_context(Server(program, *options, policy=HASHED, before=unread.begin))
        devices = [stack.enter_context(connect(server)) for _ in range(300)]
        for device in devices:
            device.sendall(packet(LOGINS["secret"]))
        require(comes_to_an_end(devices), "all find room")
        require(is_permitted(server), "bob waits for the reader")
        unread.tells(
            "tacd: 256 passwords wait to be compared with hashes; the connections of further logins "
            "are closed\n"
        )
        server.quits()


FAILS = "tacd: log: Input/output error (os error 5); requests aren't answered until it takes lines\n"
TAKES = "tacd: log: it takes lines again\n"


def a_log_that_takes_no_lines(program):
    """The reply to the first device isn't sent. The next one is answered, and the console too."""
    fails = [errno.EIO]
    supervised = Supervised(lambda call: fails.pop(0) if call == FDATASYNC and fails else None)
    options = ("--workers", "1", "--log", "log", "--sync")
    with Unread() as unread:
        begin = lambda: (unread.begin(), supervised.begin())
        with Server(program, *options, before=begin) as server, supervised:
            require(not is_permitted(server), "a request is answered whose line isn't on the disk")
            require(is_permitted(server), "bob waits for the reader")
            fails.append(errno.EIO)
            require(not is_permitted(server), "a request is answered whose line isn't on the disk")
            starts(server)
            types(server, "shadow", "none")
            unread.tells(FAILS + TAKES + FAILS + TAKES)
            server.ends("quit\n", is_listening=False)


def edits_that_are_not_kept(program):
    """Each is answered so, and devices are too."""
    with Unread() as unread:
        begin = lambda: (unread.begin(), os.mkdir("store"))
        server = attended(program, "--keep-edits", "store/kept", before=begin)
        with server, Operator(server) as operator:
            shutil.rmtree(f"{server.folder.name}/store")
            for name in ("eve", "ann", "joe"):
                came = operator.ask(f"add user {name}")
                require(came.startswith("not kept: ") and came.endswith("\nok"), f"it says {came!r}")
                require(is_permitted(server), "bob waits for the reader")
            why = "No such file or directory (os error 2)"
            unread.tells(f"tacd: store/kept: {why}; edits aren't kept\n")
            told(operator, ("quit", "ok"))
            server.ends(is_listening=False)


def a_policy_that_others_read(program):
    """Each reload is answered."""
    readable = "tacd: policy: it has secrets, and any user of this machine can read it\n"
    with Unread() as unread:
        with attended(program, before=unread.begin) as server, Operator(server) as operator:
            replace(server, "policy", "group ops; permit show .*; user bob in ops")
            pathlib.Path(server.folder.name, "policy").chmod(0o644)
            told(operator, ("reload", "ok"), ("reload", "ok"), ("shadow", "none"))
            require(is_permitted(server), "bob waits for the reader")
            unread.tells(readable * 2)
            told(operator, ("quit", "ok"))
            server.ends(is_listening=False)


def a_devices_file_that_is_refused(program):
    """Each reload is answered, and devices are, before what is wrong with its lines is read."""
    meant = "column 1: no line of a devices' file begins so: is '{}' meant?"
    said = "".join(
        f"tacd: devices: line {number} {meant.format(word)}\n" for number, word in ((2, "at"), (3, "key"))
    )
    with Unread() as unread:
        before = unread.begin
        with attended(program, **LISTED, before=before) as server, Operator(server) as operator:
            replace(server, "devices", "device one; ip 127.0.0.1; secret tundra-and-taiga")
            for _ in range(3):
                told(operator, ("reload devices", "devices fault line 2 1 BadLine"))
            with connect(server, "127.0.0.1") as device:
                asked = is_answered(device, ASK, PERMITTED, key=KEY_OF_ONE, flag=CLOSING)
                require(asked, "a device waits for the reader")
            unread.tells(said * 3)
            told(operator, ("quit", "ok"))
            server.ends(is_listening=False)


def is_written(server):
    """Whether a thread of the server waits in a write."""
    threads = os.listdir(f"/proc/{server.process.pid}/task")
    return any(call_of(server.process.pid, thread) == WRITE for thread in threads)


def more_than_may_wait(program):
    """The first that are said wait, and how many were left out is said after them."""
    readable = "tacd: policy: it has secrets, and any user of this machine can read it\n"
    for more, left_out in ((17, "17 complaints were"), (1, "1 complaint was")):
        with Unread() as unread:
            with attended(program, before=unread.begin) as server, Operator(server) as operator:
                pathlib.Path(server.folder.name, "policy").chmod(0o644)
                told(operator, ("reload", "ok"))
                comes_to(lambda: is_written(server), True)
                for _ in range(MOST_WAITING + more):
                    told(operator, ("reload", "ok"))
                # One is being written.
                unread.tells(readable * (MOST_WAITING + 1) + f"tacd: {left_out} left out\n")
                told(operator, ("reload", "ok"))
                unread.tells(readable)
                told(operator, ("quit", "ok"))
                server.ends(is_listening=False)


def an_end_that_is_not_awaited(program):
    """Who stops a server waits for no reader."""
    with Unread() as unread, Server(program, **LISTED, before=unread.begin) as server:
        with connect(server, STRANGER) as stranger:
            require(is_closed(stranger, SOON), "a stranger is served")
        began = time.monotonic()
        server.quits()
        require(time.monotonic() - began < SOON, "it took too long")
