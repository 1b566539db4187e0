"""Operators at the socket of a console: how long one may be silent, or take nothing of what he is told,
how a server ends beside others, who may connect, and what may lie at the socket's place."""

import contextlib
import errno
import os
import pathlib
import signal
import socket
import stat
import struct
import tempfile
import threading
import time

from lib.cases import LONGEST_WAIT, Wrong, comes_to, require
from lib.consoles import Operator, attended, stops, told
from lib.judged import (
    ACCEPT4,
    BIND,
    CHMOD,
    CLOCK_NANOSLEEP,
    FUTEX,
    LISTEN,
    MKDIR,
    OPENAT,
    REAL_TIME,
    RECVFROM,
    RENAME,
    RMDIR,
    SENDTO,
    SETSOCKOPT,
    SHUTDOWN,
    UNLINK,
    Clock,
    Judged,
    call_of,
)
from lib.servers import POLICY, Server, events, has_reader, starts

# A policy whose text is longer than what a socket holds: a megabyte, in lines that no automaton is made of.
GIVEN = "".join(f"service x a{at}={'v' * 240}\n" for at in range(64))
LONG = f"policy 3\n{POLICY}" + "".join(f"user u{number}\n{GIVEN}" for number in range(64))


class Glances(Clock):
    """A clock that knows how often each thread has looked at it."""

    def __init__(self):
        super().__init__()
        self.looks, self.changed = {}, threading.Condition()

    def told(self, call):
        with self.changed:
            if call.arguments[0] != REAL_TIME:
                self.looks[call.thread] = self.looks.get(call.thread, 0) + 1
                self.changed.notify_all()
            return super().told(call)

    def passes(self, seconds):
        with self.changed:
            super().passes(seconds)

    def is_looked_at(self, thread, times):
        """This thread looks at it, so often."""
        with self.changed:
            last = self.looks.get(thread, 0) + times
            came = self.changed.wait_for(lambda: self.looks.get(thread, 0) >= last, LONGEST_WAIT)
        require(came, "nobody looks at the clock")


class Sessions(Judged):
    """A process with a clock of the case's, and the threads of its operators' sessions."""

    RECEIVES, SENDS = 20, 21  # how long a socket waits

    def __init__(self):
        super().__init__(self.note, SETSOCKOPT, clock=Glances())
        self.threads, self.waits = [], []

    def note(self, call):
        """A session begins by saying how long its socket waits."""
        if call.arguments[2] in (self.RECEIVES, self.SENDS):
            seconds, millionths = struct.unpack("qq", call.bytes(3, 16))
            self.waits.append(seconds + millionths / 1_000_000)
        if call.arguments[2] == self.RECEIVES:
            self.threads.append(call.thread)

    def looks(self, operator, times=2):
        """The session of this operator looks at the clock, so often."""
        self.clock.is_looked_at(operator.thread, times)

    def rests(self, server, operator):
        """The session of this operator waits for what he types next."""
        comes_to(lambda: call_of(server.process.pid, operator.thread), RECVFROM)

    def is_full(self, server, operator):
        """The session of this operator has told what his socket takes, and waits until he reads."""
        comes_to(lambda: call_of(server.process.pid, operator.thread), SENDTO)
        self.looks(operator, 3)


@contextlib.contextmanager
def serving(program, system, *options, **more):
    """A server whose calls are told, with its console at a socket."""
    words = ("--console", "console", *options)
    with Server(program, *words, before=system.begin, **more) as server, system:
        starts(server)
        yield server


@contextlib.contextmanager
def operators(server, sessions, count):
    with contextlib.ExitStack() as stack:
        several = [stack.enter_context(Operator(server)) for _ in range(count)]
        for operator, thread in zip(several, sessions.threads[-count:]):
            operator.thread = thread
        yield several


def is_sent_away(operator):
    """Whether his session ends, with nothing more said."""
    try:
        return operator.heard() is None
    except Wrong:
        return False


def silent_operators(program):
    """A batch is its operator's for a minute after his last line, and a place ten minutes. Bytes without
    an end are no line."""
    sessions = Sessions()
    with serving(program, sessions) as server, operators(server, sessions, 3) as (anna, ben, carla):
        told(anna, ("begin", "ok"))
        sessions.rests(server, anna)
        sessions.clock.passes(59.9)
        sessions.looks(anna)
        told(ben, ("begin", "busy another"))
        told(anna, ("add user eve", "kept 1"))
        sessions.rests(server, anna)
        sessions.clock.passes(30)
        anna.stream.sendall(b"drop group")
        sessions.looks(anna, 3)
        sessions.clock.passes(29.9)
        sessions.looks(anna)
        told(ben, ("begin", "busy another"))
        sessions.clock.passes(0.1)
        require(is_sent_away(anna), "her batch is held for more than a minute")
        comes_to(lambda: ben.ask("begin"), "ok")
        told(ben, ("abandon", "ok"), ("why eve ping", "unknown user"))
        sessions.clock.passes(480)
        sessions.looks(carla)
        require(ben.numbers()["tacd_operators"] == 2, "a place is lost within ten minutes")
        sessions.clock.passes(0.1)
        require(is_sent_away(carla), "her place is hers for more than ten minutes")
        comes_to(lambda: ben.numbers()["tacd_operators"], 1)
        stops(server, ben)


def an_operator_who_reads_nothing(program):
    """Who takes nothing of an answer for ten seconds loses his batch and his place."""
    sessions = Sessions()
    with serving(program, sessions, policy=LONG) as server:
        with operators(server, sessions, 2) as (anna, ben):
            told(anna, ("begin", "ok"))
            anna.type("policy")
            sessions.is_full(server, anna)
            sessions.clock.passes(9.9)
            sessions.looks(anna)
            told(ben, ("begin", "busy another"))
            sessions.clock.passes(0.1)
            comes_to(lambda: ben.ask("begin"), "ok")
            comes_to(lambda: ben.numbers()["tacd_operators"], 1)
            require(is_sent_away(anna), "she is told more")
            stops(server, ben)


def an_operator_who_reads_slowly(program):
    """Each time that he takes some, he has ten seconds more. In the end he has the whole answer."""
    sessions = Sessions()
    with serving(program, sessions, policy=LONG) as server:
        with operators(server, sessions, 1) as (anna,):
            anna.type("policy")
            came = b""
            for _ in range(3):
                sessions.is_full(server, anna)
                sessions.clock.passes(6)
                sessions.looks(anna)
                came += anna.stream.recv(200_000)
            while came[-2:] != b"\n\n" and (more := anna.stream.recv(1_000_000)):
                came += more
            require(came.decode() == LONG + "\n", f"{len(came)} bytes are told of {len(LONG) + 1}")
            stops(server, anna)


def who_goes_loses_his_batch(program):
    """With all that was kept in it, also where he left answers unread. The log has his name, though he
    said it after `begin`."""
    with attended(program, "--log", "log", policy=LONG) as server, Operator(server) as ben:
        with Operator(server) as anna:
            told(anna, ("begin", "ok"), ("operator anna", "ok"), ("add user eve", "kept 1"))
            told(ben, ("begin", "busy another"))
        comes_to(lambda: ben.ask("begin"), "ok")
        told(ben, ("abandon", "ok"))
        with Operator(server) as carla:
            told(carla, ("operator carla", "ok"), ("begin", "ok"), ("add user eve", "kept 1"))
            carla.stream.sendall(b"policy\n" * 4)
            told(ben, ("begin", "busy carla"))
        comes_to(lambda: ben.ask("begin"), "ok")
        told(ben, ("abandon", "ok"), ("why eve ping", "unknown user"))
        stops(server, ben)
        left = [event["operator"] for event in events(server) if event["console"] == "abandon"]
    require(left == ["anna", None, "carla", None], f"batches are dropped by {left}")


def who_types_at_once(program):
    """Each of eight is answered, by the answers to his own lines: also who still waits for his turn when
    the last of the others has had his."""
    none = "starts 0 stops 0 watchdogs 0 updates 0 open 0 elapsed 0 drift 0"
    with attended(program) as server, contextlib.ExitStack() as stack:
        several = [stack.enter_context(Operator(server)) for _ in range(8)]
        for _ in range(10):
            for number, operator in enumerate(several):
                operator.stream.sendall(f"tally user u{number}\n".encode() * 4)
            for number, operator in enumerate(several):
                for _ in range(4):
                    came = operator.heard()
                    require(came == f"tally user u{number} {none}", f"u{number} is told {came!r}")
        stops(server, several[0])


def is_there(server):
    """Whether a device or an operator may find the server yet."""
    with socket.socket() as device:
        return not device.connect_ex(server.address) or os.path.lexists(f"{server.folder.name}/console")


def a_quit_beside_seven_others(program):
    """One with a batch, four whose lines wait for the console, and one who types it too, and is answered
    too: none of them waits on when it ends. Each is looked at several times a second."""
    sessions = Sessions()
    with serving(program, sessions) as server, operators(server, sessions, 8) as several:
        anna, ben, carla, dora, *waiting = several
        told(dora, ("begin", "ok"))
        policy = pathlib.Path(server.folder.name, "policy")
        policy.unlink()
        os.mkfifo(policy, 0o600)
        anna.type("reload")
        with policy.open("w") as file:  # as soon as the server reads it
            for operator in waiting:
                operator.stream.sendall(b"shadow\n" * 100)
            ben.type("quit")
            carla.type("quit")
            for operator in (ben, carla, *waiting):
                comes_to(lambda: call_of(server.process.pid, operator.thread), FUTEX)
            file.write(POLICY)
        for operator in (ben, carla):
            require((came := operator.heard()) == "ok", f"`quit` is answered by {came!r}")
            require(not is_there(server), "`quit` is answered before the end")
            require(operator.heard() is None, "more is said after `quit` is answered")
        for operator in (anna, dora, *waiting):
            while (came := operator.heard()) is not None:
                require(came in ("ok", "none"), f"a line is answered by {came!r}")
        server.ends(is_listening=False)
    require(len(sessions.waits) == 16 and max(sessions.waits) <= 0.5, f"sockets wait {sessions.waits}")


def a_quit_beside_who_reads_nothing(program):
    """The time stands still, so the ten seconds that an answer may take don't pass."""
    sessions = Sessions()
    with serving(program, sessions, policy=LONG) as server:
        with operators(server, sessions, 2) as (anna, ben):
            anna.type("policy")
            sessions.is_full(server, anna)
            stops(server, ben)


def others_rights(path):
    """What all but the owner may do with a file."""
    return stat.S_IMODE(path.stat().st_mode) & 0o077


def nobody_else_may_connect(program):
    """At no moment: a socket has its rights before its place, and in the folder where it is made nobody
    comes in. A proxy's has its group's rights too."""
    seen, allowed = set(), {"console": 0, "proxy": 0o060}

    def judge(_):
        folder = pathlib.Path(server.folder.name)
        for path in filter(pathlib.Path.is_socket, folder.rglob("*")):
            is_reached = path.parent == folder or others_rights(path.parent)
            if is_reached and others_rights(path) != allowed.get(path.name):
                seen.add((str(path.relative_to(folder)), oct(others_rights(path))))

    system = Judged(judge, BIND, LISTEN, CHMOD, RENAME, UNLINK, RMDIR)
    begin = lambda: (os.umask(0), system.begin())
    words = ("--console", "console", "--devices", "devices")
    with Server(program, *words, key=(), proxy="proxy", before=begin) as server, system:
        starts(server)
        rights = {path.name: others_rights(path) for path in pathlib.Path(server.folder.name).iterdir()}
    require(not seen, f"others may connect to {seen}")
    require(allowed.items() <= rights.items(), f"at last others may do {rights}")
    require(not any(name.endswith(".new") for name in rights), f"there is {list(rights)}")


def a_successor_keeps_its_socket(program):
    """A server takes its socket away while it still listens there, so that nobody has put his own in its
    place. Once it listens no more, he may."""
    with socket.socket(socket.AF_UNIX) as successor:
        found = []

        def judge(call):
            if call.number == UNLINK and call.text(0) == "console":
                with socket.socket(socket.AF_UNIX) as caller:
                    found.append(caller.connect_ex(f"{server.folder.name}/console"))
            if call.number == SHUTDOWN and not os.path.lexists(f"{server.folder.name}/console"):
                successor.bind(f"{server.folder.name}/console")

        system = Judged(judge, UNLINK, SHUTDOWN)
        with serving(program, system) as server:
            with Operator(server) as operator:
                told(operator, ("quit", "ok"))
            server.ends(is_listening=False)
            require(found == [0], f"when its socket goes, callers find {found}")
            mine = successor.getsockname()
            require(mine == f"{server.folder.name}/console", "it listens until its end")
            require(os.path.lexists(mine), "the successor's socket is gone")


def what_a_killed_server_left(program):
    """The next one begins wherever it was killed: at each call that it makes for its socket, and later.
    Nothing of it is left beside the socket then."""
    calls = (MKDIR, BIND, LISTEN, CHMOD, RENAME, RMDIR)
    with tempfile.TemporaryDirectory(prefix="tacd-served-") as folder:
        place = f"{folder}/console"
        for last in range(1, 20):
            made = []

            def judge(call):
                is_its_own = call.number != BIND or b"console" in call.bytes(1, 100)
                made.extend([call.number] * is_its_own)
                if is_its_own and len(made) == last:
                    server.process.kill()
                    server.process.wait()  # so that the call isn't made

            system = Judged(judge, *calls)
            with Server(program, "--console", place, before=system.begin) as server, system:
                if server.process.stdout.readline():
                    break
                require(server.process.wait() == -signal.SIGKILL, "it ends by itself")
        require(len(made) >= 5, f"it makes {len(made)} calls")
        # The last one was killed while it listened.
        with Server(program, "--console", place) as server:
            starts(server)
            require(os.listdir(folder) == ["console"], f"there is {os.listdir(folder)}")
            with Operator(server, place) as operator:
                told(operator, ("quit", "ok"))
            server.ends(is_listening=False)
        require(os.listdir(folder) == [], f"at last there is {os.listdir(folder)}")


def a_server_that_listens(program):
    """A second one ends, and takes nothing from it."""
    with attended(program) as server:
        place = f"{server.folder.name}/console"
        was = os.stat(place).st_ino
        with Server(program, "--console", place) as second:
            why = f"tacd: {place}: a server is there already\n"
            second.ends(complained=why, status=4, is_listening=False)
        require(os.stat(place).st_ino == was, "it has another socket")
        with Operator(server) as operator:
            stops(server, operator)


class Asking(Judged):
    """A process that finds out whether a FIFO has a reader: one thread waits for one, and another sleeps
    meanwhile. That sleep begins once the first is about to wait, and so many seconds later."""

    def __init__(self, seconds):
        super().__init__(self.hold, OPENAT, CLOCK_NANOSLEEP)
        self.seconds, self.asks = seconds, threading.Event()

    def hold(self, call):
        if call.number == OPENAT:
            if call.arguments[2] & os.O_ACCMODE == os.O_WRONLY and call.text(1).endswith("/console"):
                self.asks.set()
        elif call.seconds() == 0.25:
            self.asks.wait(LONGEST_WAIT)
            time.sleep(self.seconds)


def a_fifo_at_the_place(program):
    """As servers had one before. One that nobody reads is taken away. One that somebody reads stays: this
    machine may be busy, so there is a second more to see him."""
    with tempfile.TemporaryDirectory(prefix="tacd-served-") as folder:
        place = pathlib.Path(folder, "console")
        os.mkfifo(place, 0o600)
        reader = os.open(place, os.O_RDONLY | os.O_NONBLOCK)
        system = Asking(1)
        with Server(program, "--console", place, before=system.begin) as server, system:
            why = f"tacd: {place}: it is no socket\n"
            server.ends(complained=why, status=4, is_listening=False)
        require(place.is_fifo(), "the FIFO is taken away")
        os.close(reader)
        comes_to(lambda: has_reader(place), False)
        system = Asking(0)
        with Server(program, "--console", place, before=system.begin) as server, system:
            starts(server)
            with Operator(server, place) as operator:
                told(operator, ("quit", "ok"))
            server.ends(is_listening=False)


def what_else_is_at_the_place(program):
    """It stays, and the server ends: a file, and a link, also to a socket at which nobody listens."""

    def links():
        with socket.socket(socket.AF_UNIX) as dead:
            dead.bind("dead")
        os.symlink("dead", "console")

    file = lambda: pathlib.Path("console").write_text("a file\n")
    for lay, is_there in (
        (file, lambda place: place.read_text() == "a file\n"),
        (links, lambda place: os.readlink(place) == "dead"),
    ):
        with Server(program, "--console", "console", before=lay) as server:
            server.ends(complained="tacd: console: it is no socket\n", status=4, is_listening=False)
            place = pathlib.Path(server.folder.name, "console")
            require(is_there(place), "what is there doesn't stay")


def who_cannot_be_taken_in(program):
    """As where too many files are open: each thread that takes operators in tries again."""
    threads, failures, listeners = 9, [], []

    def judge(call):
        if call.number == BIND and b"console" in call.bytes(1, call.arguments[2]):
            listeners.append(call.arguments[0])
        if call.number == ACCEPT4 and call.arguments[0] in listeners and len(failures) < 2 * threads:
            failures.append(call)
            return -errno.EMFILE

    with serving(program, Judged(judge, BIND, ACCEPT4)) as server, Operator(server) as operator:
        require(len(failures) == 2 * threads, f"it tries {len(failures)} times")
        stops(server, operator)
