"""A process whose calls of the system are judged before they are made, and whose clock is ours. So a
test needn't wait for a clock, nor fill a disk. It is of Linux on x86-64: seccomp_unotify(2) and
ptrace(2)."""

import collections
import contextlib
import ctypes
import fcntl
import os
import pathlib
import select
import socket
import struct
import threading

from .cases import Wrong

# The numbers of system calls.
WRITE, SENDTO, RECVFROM, SHUTDOWN, BIND, LISTEN, SETSOCKOPT, FLOCK = 1, 44, 45, 48, 49, 50, 54, 73
FSYNC, FDATASYNC, RENAME, MKDIR, RMDIR, UNLINK, CHMOD, FUTEX = 74, 75, 82, 83, 84, 87, 90, 202
CLOCK_GETTIME, CLOCK_NANOSLEEP, EPOLL_CTL, OPENAT = 228, 230, 233, 257
ACCEPT4, EPOLL_CREATE1, CLONE3 = 288, 291, 435
# So many calls are judged at once: one that is kept waiting holds up no other.
JUDGES = 4
# A filter's lines, what they answer, and what is asked of it.
LOAD, UNLESS, ANSWER = 0x20, 0x15, 0x06
ALLOWED, TOLD, OVER = 0x7FFF0000, 0x7FC00000, 0x00050000
NO_NEW_PRIVILEGES, SECCOMP, SET_FILTER, NEW_LISTENER = 38, 317, 1, 8
RECEIVE, SEND, GOES_ON = 0xC0502100, 0xC0182101, 1
TRACE_ME, DETACH = 0, 17
# Of what the system hands to a program: where code is that tells the time without a call, and nothing.
QUICK_CLOCK, NOTHING = 33, 1
REAL_TIME = 0

libc = ctypes.CDLL(None, use_errno=True)
libc.ptrace.argtypes, libc.ptrace.restype = [ctypes.c_long] * 4, ctypes.c_long


class Call(collections.namedtuple("Call", "number arguments thread")):
    """A call that is to be judged."""

    def file(self):
        """The path of the file that it is about."""
        with contextlib.suppress(OSError):
            return os.readlink(f"/proc/{self.thread}/fd/{self.arguments[0]}")
        return ""

    def inode(self):
        return os.stat(f"/proc/{self.thread}/fd/{self.arguments[0]}").st_ino

    def bytes(self, place, count):
        """So many bytes that this argument leads to, or fewer where there are no more."""
        with open(f"/proc/{self.thread}/mem", "rb", buffering=0) as memory:
            memory.seek(self.arguments[place])
            return memory.read(count)

    def text(self, place):
        """The text that this argument leads to, as a path."""
        return self.bytes(place, 4096).partition(b"\0")[0].decode()

    def seconds(self):
        """For how long it is to sleep."""
        seconds, nanoseconds = struct.unpack("qq", self.bytes(2, 16))
        return seconds + nanoseconds / 1_000_000_000


class Clock:
    """A clock that stands still but where it is told to go on. It begins at noon."""

    def __init__(self):
        self.now = 1_000_000_000_000
        self.since_1970 = 1_795_953_600_000_000_000

    def passes(self, seconds):
        self.now += round(seconds * 1_000_000_000)
        self.since_1970 += round(seconds * 1_000_000_000)

    def told(self, call):
        """It is told in place of the system's."""
        which, place = call.arguments[:2]
        time = self.since_1970 if which == REAL_TIME else self.now
        with open(f"/proc/{call.thread}/mem", "r+b", buffering=0) as memory:
            memory.seek(place)
            memory.write(struct.pack("qq", *divmod(time, 1_000_000_000)))
        return 0


class Judged:
    """A process of which these calls are judged. The judge answers none where one is to be made, and
    else what comes of it: an error where that is negative. With a clock the process has that one. Calls
    that are said to be quick are over at once and well, and nobody judges them."""

    def __init__(self, judge=None, *calls, clock=None, quick=()):
        self.judge, self.calls, self.clock, self.quick = judge, calls, clock, quick
        if clock:
            self.calls = (CLOCK_GETTIME, *calls)
        # Why a call could not be judged, if one couldn't.
        self.failure = None
        self.own, self.other = socket.socketpair()

    def begin(self):
        """In the process, before its program begins."""
        if self.clock and libc.ptrace(TRACE_ME, 0, 0, 0) != 0:
            raise OSError(ctypes.get_errno(), "ptrace")
        all_calls = [*((call, 0) for call in self.calls), *((call, 1) for call in self.quick)]
        tests = [(UNLESS, len(all_calls) - at + way, 0, it) for at, (it, way) in enumerate(all_calls)]
        ends = [(ANSWER, 0, 0, ALLOWED), (ANSWER, 0, 0, TOLD), (ANSWER, 0, 0, OVER)]
        lines = [(LOAD, 0, 0, 0), *tests, *ends]
        code = b"".join(struct.pack("HBBI", *line) for line in lines)
        held = ctypes.create_string_buffer(code, len(code))
        program = struct.pack("HxxxxxxP", len(lines), ctypes.addressof(held))
        libc.prctl(NO_NEW_PRIVILEGES, 1, 0, 0, 0)
        listener = libc.syscall(SECCOMP, SET_FILTER, NEW_LISTENER, program)
        if listener < 0:
            raise OSError(ctypes.get_errno(), "seccomp")
        socket.send_fds(self.other, [struct.pack("i", os.getpid())], [listener])

    def __enter__(self):
        told, (self.listener,), _, _ = socket.recv_fds(self.own, 4, 1)
        for _ in range(JUDGES):
            threading.Thread(target=self.listen, daemon=True).start()
        if self.clock:
            take_quick_clock(*struct.unpack("i", told))
        return self

    def __exit__(self, *_):
        self.own.close()
        self.other.close()
        if self.failure:
            raise Wrong(f"a call could not be judged: {self.failure!r}")

    def listen(self):
        """Until the process is gone. A call whose thread got a signal meanwhile is told again."""
        gone = select.poll()
        gone.register(self.listener, 0)
        while not gone.poll(0):
            with contextlib.suppress(OSError):
                told = bytearray(80)
                fcntl.ioctl(self.listener, RECEIVE, told)
                key, thread, _, number, _, _, *arguments = struct.unpack("QIIiIQ6Q", told)
                came = self.outcome(Call(number, arguments, thread))
                goes_on = GOES_ON if came is None else 0
                value, error = max(came or 0, 0), min(came or 0, 0)
                fcntl.ioctl(self.listener, SEND, struct.pack("Qqii", key, value, error, goes_on))

    def outcome(self, call):
        if call.number == CLOCK_GETTIME and self.clock:
            return self.clock.told(call)
        try:
            return self.judge(call)
        except Exception as failure:  # of any kind: the process waits for what comes of its call
            self.failure = self.failure or failure


class Supervised(Judged):
    """A process of which two kinds of calls are told, by their numbers alone: those that put a file on
    the disk, and those that open what is read, but for what the program's loader opens. They fail with
    the error that is answered, if one is."""

    def __init__(self, error_of):
        reads = os.O_RDONLY | os.O_NOCTTY | os.O_CLOEXEC

        def judge(call):
            if call.number == OPENAT and call.arguments[2] & 0xFFFFFFFF != reads:
                return None
            return -(error_of(call.number) or 0) or None

        super().__init__(judge, FDATASYNC, OPENAT)


def take_quick_clock(process):
    """The process, which waits for its tracer since its program began, asks the system for the time
    from now on."""
    os.waitpid(process, 0)
    fields = pathlib.Path(f"/proc/{process}/stat").read_text().rpartition(")")[2].split()
    place = int(fields[25])  # of its stack, where words, environment and what is handed over are
    with open(f"/proc/{process}/mem", "r+b", buffering=0) as memory:
        memory.seek(place)
        found = memory.read(65_536)
        words = struct.unpack(f"{len(found) // 8}Q", found[: len(found) // 8 * 8])
        at = words.index(0, words[0] + 2) + 1
        while words[at] not in (QUICK_CLOCK, 0):
            at += 2
        if words[at]:
            memory.seek(place + 8 * at)
            memory.write(struct.pack("Q", NOTHING))
    libc.ptrace(DETACH, process, 0, 0)


def call_of(process, thread):
    """The number of the call that a thread waits in, or none."""
    number = pathlib.Path(f"/proc/{process}/task/{thread}/syscall").read_text().split()[0]
    return int(number) if number.isdigit() else None
