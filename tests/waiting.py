"""Servers of which many things are asked at once: who has his turn when, who is woken for what, and how
long a server waits where nothing comes. Its calls of the system are told before they are made, and are
held or fail where a case says so. So what is to come at once does, and no case goes by how long
anything takes."""

import contextlib
import errno
import fcntl
import itertools
import os
import pathlib
import socket
import struct
import threading
import time
import typing

from lib.cases import LONGEST_WAIT, require
from lib.consoles import typed, types
from lib.devices import (
    ASK,
    CLOSING,
    KEPT,
    PERMITTED,
    RECORD,
    STORED,
    answer,
    connect,
    is_answered,
    is_closed,
    is_told,
    packet,
)
from lib.judged import (
    EPOLL_CTL,
    FUTEX,
    GOES_ON,
    RECEIVE,
    RECVFROM,
    SEND,
    SENDTO,
    SETSOCKOPT,
    WRITE,
    Judged,
)
from lib.logins import FAILED, LET_IN, LOGINS
from lib.proxies import KEPT_IN_CLEAR, called, clear, flagged, line
from lib.scripted import asked, given
from lib.servers import KEY_OF_ONE, STRANGER, Server, starts

# The numbers of further system calls, on x86-64.
CLOSE, MMAP, BRK, EPOLL_WAIT, ACCEPT4 = 3, 9, 12, 232, 288
# What the second argument of a call of `futex` says.
FUTEX_KIND, FUTEX_WAKE = 0x7F, 1
# Where the arguments of a call of `epoll_wait` have how long it waits at most, in milliseconds.
PATIENCE = 3
# How many call at once: more than a worker accepts in a row.
FLOOD = 150
ONE = f"device one\nat 127.0.0.1\nkey {KEY_OF_ONE.decode()}\ntls\n"
LISTED = {"key": ("--devices", "devices"), "devices": ONE}
# Ann's hash has as few rounds as there may be, and Eve's has as many. Her password is as long as one may be.
HASH = "salt$HNxBeBnDfSfUrTj6KiLnmd7tGCvHEmcExh8kl/S0cZ5WrCciNZgfhbpkeFQ4JfkHX.8vPq45lY0iINnCx1Lkm."
HASHED = (
    "policy 3\ngroup ops\npermit show .*\nuser bob in ops\nlogin blue-lake\n"
    f"user ann\nlogin-hash $6$rounds=1000${HASH}\n"
    f"user eve\nlogin-hash $6$rounds=999999${HASH}\n"
)
ANN = LOGINS["secret"]
EVE = f"c1010104.00000001.0000008b.0101020103000080'eve{'x' * 128}'"
BEGIN_AS_BOB = "c0010104.00000001.0000000b.0101010103000000'bob'"
PASSWORD_WANTED = "c0010204.00000001.00000010.0501000a0000'Password: '"
BLUE_LAKE = "c0010304.00000001.0000000e.0009000000'blue-lake'"
PASSED = "c0010404.00000001.00000006.010000000000"


class Call(typing.NamedTuple):
    """A call of the system: who makes it, its number, its arguments, and when it was told."""

    thread: int
    number: int
    arguments: list
    at: float


def of(number, thread=None):
    """Whether a call has this number, and is by this thread if one is said."""
    return lambda call: call.number == number and thread in (None, call.thread)


def nothing(call):
    return False


class Watched(Judged):
    """A process whose calls of these numbers are told before they are made. They can be held: then whoever
    makes one waits until it is released. And the next ones of a kind can fail."""

    def __init__(self, *numbers):
        super().__init__(None, *numbers)
        self.told, self.failed, self.held = [], [], []
        self.is_held, self.fails = nothing, []
        self.changed = threading.Condition()

    def __enter__(self):
        """Before the process begins, since calls are told from then on."""
        threading.Thread(target=self.listen, daemon=True).start()
        return self

    def listen(self):
        """Until the process is gone."""
        with contextlib.suppress(OSError, ValueError):
            _, (self.listener,), _, _ = socket.recv_fds(self.own, 4, 1)
            while True:
                told = bytearray(80)
                fcntl.ioctl(self.listener, RECEIVE, told)
                key, thread, _, number, _, _, *arguments = struct.unpack("QIIiIQ6Q", told)
                self.hear(key, Call(thread, number, arguments, time.monotonic()))

    def hear(self, key, call):
        with self.changed:
            self.told.append(call)
            if self.is_held(call):
                self.held.append((call, key))
            elif self.fails and self.fails[0][0](call):
                self.failed.append(call)
                self.goes_on(key, self.fails.pop(0)[1])
            else:
                self.goes_on(key)
            self.changed.notify_all()

    def goes_on(self, key, error=0):
        """The call of this key is made, or fails with this error."""
        fcntl.ioctl(self.listener, SEND, struct.pack("Qqii", key, 0, -error, 0 if error else GOES_ON))

    def fail(self, is_one, *errors):
        """The next calls like this fail so."""
        with self.changed:
            self.fails += [(is_one, error) for error in errors]

    def freeze(self, is_one):
        """Calls like this are held from now on. Others that were held are made."""
        with self.changed:
            held, self.held, self.is_held = self.held, [], is_one
            for call, key in held:
                if is_one(call):
                    self.held.append((call, key))
                else:
                    self.goes_on(key)

    def hold(self, is_one):
        """The same, and one is held by now."""
        self.freeze(is_one)
        self.until(lambda _: self.held, "no such call is made")

    def release(self):
        """All that were held are made. How many calls were told before, with these."""
        count = len(self.told)
        self.freeze(nothing)
        return count

    def until(self, is_so, why):
        """Waits until this holds of the calls that were told."""
        with self.changed:
            require(self.changed.wait_for(lambda: is_so(self.told), LONGEST_WAIT), why)


@contextlib.contextmanager
def watched_server(program, numbers, *options, also=lambda: None, **more):
    """A server whose calls of these numbers are told. This is done too before its program begins."""
    with Watched(*numbers) as watched:
        begin = lambda: (watched.begin(), also())
        with Server(program, *options, before=begin, **more) as server:
            yield watched, server


def asks(device, key=None, flag=KEPT):
    """Whether bob is permitted on this connection."""
    return is_answered(device, ASK, PERMITTED, flag=flag, **({"key": key} if key else {}))


def arrives(count, server, device=None):
    """Waits until so many bytes of a device are there for the server to be read; or where none is said, so
    many calls to be accepted."""
    ends = [f":{port:04X}" for port in (server.address[1], device.getsockname()[1] if device else 0)]
    until = time.monotonic() + LONGEST_WAIT
    while True:
        for fields in map(str.split, pathlib.Path("/proc/net/tcp").read_text().splitlines()):
            is_it = all(place.endswith(end) for place, end in zip(fields[1:], ends))
            if is_it and int(fields[4].rpartition(":")[2], 16) >= count:
                return
        require(time.monotonic() < until, f"{count} don't come")
        time.sleep(0.02)


def counted(calls, is_one):
    return sum(map(is_one, calls))


def before_first(calls, is_one):
    """The calls before the first one like this."""
    return list(itertools.takewhile(lambda call: not is_one(call), calls))


def waits_of(calls):
    """How long each of these that waits means to wait at most, in milliseconds."""
    return [call.arguments[PATIENCE] for call in calls if call.number == EPOLL_WAIT]


def before_last(calls, is_one):
    """The calls before the last one like this."""
    return calls[: max((at for at, call in enumerate(calls) if is_one(call)), default=0)]


def last_thread(watched, number):
    """Who made the last call of this number."""
    return [call.thread for call in watched.told if call.number == number][-1]


def a_flood_of_calls(program):
    """Of devices, or of strangers. One that is there is answered before all of these are accepted, though
    the same worker accepts them, and they aren't left to wait either."""
    options = ("--workers", "1", "--per-address", "0")
    for source in ("127.0.0.1", STRANGER):
        with contextlib.ExitStack() as stack:
            numbers = (EPOLL_WAIT, ACCEPT4, SENDTO)
            watched, server = stack.enter_context(watched_server(program, numbers, *options, **LISTED))
            device = stack.enter_context(connect(server, "127.0.0.1"))
            require(asks(device, KEY_OF_ONE), "the device isn't answered at first")
            watched.hold(of(EPOLL_WAIT))
            for _ in range(FLOOD):
                stack.enter_context(connect(server, source))
            arrives(FLOOD, server)
            watched.hold(of(ACCEPT4))
            device.sendall(packet(ASK, KEY_OF_ONE, flag=KEPT))
            began = watched.release() - 1
            wanted = packet(PERMITTED, KEY_OF_ONE, flag=KEPT)
            require(answer(device, b"", len(wanted)) == wanted, "the device isn't answered")
            accepted = counted(before_first(watched.told[began:], of(SENDTO)), of(ACCEPT4))
            require(accepted < FLOOD, f"{accepted} of {source} were accepted before it is answered")
            # after the last one there is none
            is_over = lambda calls: counted(calls[began:], of(ACCEPT4)) > FLOOD
            watched.until(is_over, f"not all of {source} are accepted")
            waits = waits_of(before_last(watched.told[began:], of(ACCEPT4)))
            require(not any(waits), f"while {source} calls it waits so long: {waits}")


def a_flood_beside_a_proxy(program):
    """A device that a proxy brings is answered before all who call at the port are accepted."""
    options = ("--workers", "1", "--per-address", "0")
    with contextlib.ExitStack() as stack:
        numbers = (EPOLL_WAIT, ACCEPT4, SENDTO)
        more = {"proxy": "proxy", **LISTED}
        watched, server = stack.enter_context(watched_server(program, numbers, *options, **more))
        device = stack.enter_context(connect(server, "127.0.0.1"))
        require(asks(device, KEY_OF_ONE), "a device isn't answered at the port")
        watched.hold(of(EPOLL_WAIT))
        for _ in range(FLOOD):
            stack.enter_context(connect(server, "127.0.0.1"))
        arrives(FLOOD, server)
        head = line("127.0.0.1") + clear(ASK, KEPT_IN_CLEAR)
        device = stack.enter_context(called(server, head))
        began = watched.release()
        wanted = clear(PERMITTED, KEPT_IN_CLEAR)
        require(answer(device, b"", len(wanted)) == wanted, "the proxy's device isn't answered")
        accepted = counted(before_first(watched.told[began:], of(SENDTO)), of(ACCEPT4))
        require(accepted < FLOOD, f"{accepted} were accepted before it")


def where_accepting_fails(program):
    """Where the system has no descriptors, those who called are accepted later, and nobody has to call for
    that. A pause is twice as long as the one before it, also where another calls meanwhile, and the first
    is as short again after a connection. Behind one who hung up the next is accepted at once."""
    numbers = (EPOLL_WAIT, ACCEPT4)
    with watched_server(program, numbers, "--workers", "1", proxy="proxy", **LISTED) as (watched, server):
        answered(server)
        with fails_to_accept(watched, server, *[errno.EMFILE] * 3) as device:
            watched.until(lambda _: len(watched.failed) >= 2, "nobody is accepted again")
            answered(server)
            require(asks(device, KEY_OF_ONE), "who called first isn't answered")
        for error in (errno.EMFILE, errno.ECONNABORTED):
            with fails_to_accept(watched, server, error) as device:
                require(asks(device, KEY_OF_ONE), f"who called isn't answered after error {error}")
        for failed, pause in zip(watched.failed, (50, 100, 200, 50, 0), strict=True):
            goes_by(watched.told, failed, pause)


def answered(server):
    """A device is, on a connection of its own."""
    with connect(server, "127.0.0.1") as device:
        require(asks(device, KEY_OF_ONE), "a device isn't answered")


@contextlib.contextmanager
def fails_to_accept(watched, server, *errors):
    """A device that calls while the server rests, which fails to accept it so."""
    watched.hold(of(EPOLL_WAIT))
    watched.fail(of(ACCEPT4), *errors)
    with connect(server, "127.0.0.1") as device:
        watched.release()
        yield device


def goes_by(calls, failed, pause):
    """After a call that failed the next one like it is made once this pause is over, in milliseconds. It
    began after the wait before that call, and is waited for no longer than it is."""
    at = calls.index(failed)
    waited = [call for call in calls[:at] if call.number == EPOLL_WAIT][-1]
    again = next(call for call in calls[at + 1 :] if call.number == ACCEPT4)
    took = 1000 * (again.at - waited.at)
    require(took > pause - 1, f"in a pause of {pause} it is accepted after {took}")
    waits = waits_of(calls[at : calls.index(again)])
    require(max(waits, default=0) <= pause, f"in a pause of {pause} it waits so long: {waits}")


def who_asks_without_a_pause(program):
    """One that asks a hundred times at once has sixteen answers, then another has his turn, and then the
    rest is answered, for which nobody waits."""
    sent, wanted = packet(ASK, flag=KEPT), packet(PERMITTED, flag=KEPT)
    with watched_server(program, (EPOLL_WAIT, SENDTO), "--workers", "1") as (watched, server):
        with connect(server) as busy, connect(server) as other:
            places = []
            for device in (busy, other):
                require(asks(device), "bob isn't permitted")
                places.append([call.arguments[0] for call in watched.told if call.number == SENDTO][-1])
            watched.hold(of(EPOLL_WAIT))
            busy.sendall(sent * 100)
            other.sendall(sent)
            arrives(100 * len(sent), server, busy)
            arrives(len(sent), server, other)
            began = watched.release()
            require(answer(other, b"", len(wanted)) == wanted, "another isn't answered")
            require(answer(busy, b"", 100 * len(wanted)) == 100 * wanted, "not all is answered")
    calls = watched.told[began:]
    replies = [call.arguments[0] for call in calls if call.number == SENDTO]
    require(replies.index(places[1]) <= 16, f"it has its turn after {replies.index(places[1])} answers")
    waits = waits_of(before_last(calls, of(SENDTO)))
    require(not any(waits), f"while there is more to do it waits so long: {waits}")


def each_call_goes_where_the_fewest_are(program):
    """Of three workers two have a device, so each call is the third one's, as long as those before it are
    gone."""
    options = ("--workers", "3", "--per-address", "0")
    with watched_server(program, (SENDTO,), *options) as (watched, server):
        with connect(server) as one, connect(server) as two:
            for device in (one, two):
                require(asks(device), "bob isn't permitted")
            for _ in range(5):
                with connect(server) as device:
                    require(asks(device, flag=CLOSING), "bob isn't permitted by the third worker")
                    require(is_closed(device, LONGEST_WAIT), "the connection is kept")
    first, second, *others = [call.thread for call in watched.told]
    require(len({first, second, *others}) == 3, "not each of the workers has one")
    require(len(set(others)) == 1, f"the calls are served by {others}, and two by {first} and {second}")


def what_is_handed_over_at_once(program):
    """Devices that a worker is given while it is busy are all served, once it isn't."""
    numbers = (EPOLL_WAIT, ACCEPT4, WRITE)
    with contextlib.ExitStack() as stack:
        watched, server = stack.enter_context(watched_server(program, numbers, "--workers", "2"))
        device = stack.enter_context(connect(server))
        require(asks(device), "bob isn't permitted")
        first = last_thread(watched, ACCEPT4)
        is_second = lambda call: call.number == EPOLL_WAIT and call.thread != first
        watched.hold(is_second)
        began = len(watched.told)
        devices = [stack.enter_context(connect(server)) for _ in range(6)]
        is_over = lambda calls: counted(calls[began:], of(WRITE, first)) >= 3
        watched.until(is_over, "the second worker isn't given three of six")
        watched.release()
        for device in devices:
            require(asks(device), "one of them isn't answered")


def hashers_of(server):
    """Whether a call wakes a worker whose device's password was worked out: so of the one worker's server
    whoever is neither that nor the console says it. An event is 8 bytes long."""
    return lambda call: call.number == WRITE and call.arguments[2] == 8 and call.thread != server.process.pid


def one_login_has_one_place(program):
    """However much a device sends while its password waits to be compared, there is room for other logins.
    What it sent is served after that. It comes by a proxy, since a Unix socket hands on each byte at once."""
    more = {"policy": HASHED, "proxy": "proxy", **LISTED}
    with watched_server(program, (WRITE,), "--workers", "1", **more) as (watched, server):
        with (
            called(server, line("127.0.0.1")) as talker,
            connect(server, "127.0.0.1") as other, connect(server, "127.0.0.1") as third,
        ):
            # the system counts some 800 for each byte that waits
            talker.setsockopt(socket.SOL_SOCKET, socket.SO_SNDBUF, 200_000)
            require(asks(other, KEY_OF_ONE), "bob isn't permitted")
            watched.freeze(hashers_of(server))
            talker.sendall(clear(flagged(ANN), KEPT_IN_CLEAR))
            talker.setblocking(False)
            for byte in clear(ASK, KEPT_IN_CLEAR) * 6:
                with contextlib.suppress(ConnectionError):
                    talker.send(bytes([byte]))
                require(asks(other, KEY_OF_ONE), "bob isn't permitted meanwhile")
            third.sendall(packet(ANN, KEY_OF_ONE))
            require(asks(other, KEY_OF_ONE), "bob isn't permitted beside two logins")
            require(not is_told(talker) and not is_told(third), "a login doesn't wait")
            watched.release()
            wanted = clear(flagged(LET_IN), KEPT_IN_CLEAR) + clear(PERMITTED, KEPT_IN_CLEAR) * 6
            require(answer(talker, b"", len(wanted)) == wanted, "the first isn't let in")
            wanted = packet(LET_IN, KEY_OF_ONE)
            require(answer(third, b"", len(wanted)) == wanted, "the third isn't let in")


def is_gone(device):
    """Whether the connection is closed by now. Nothing of it is read."""
    device.setblocking(False)
    try:
        return device.recv(1, socket.MSG_PEEK) == b""
    except BlockingIOError:
        return False
    except ConnectionError:
        return True
    finally:
        device.settimeout(LONGEST_WAIT)


def logins_that_find_no_place(program):
    """Of 258 at once 256 wait. The connections of two are closed, and the others are let in."""
    options = ("--workers", "1", "--per-address", "0")
    with contextlib.ExitStack() as stack:
        more = {"policy": HASHED}
        watched, server = stack.enter_context(watched_server(program, (WRITE,), *options, **more))
        with connect(server) as device:
            require(asks(device), "bob isn't permitted")
        watched.freeze(hashers_of(server))
        devices = [stack.enter_context(connect(server)) for _ in range(258)]
        for device in devices:
            device.sendall(packet(ANN))
        until = time.monotonic() + LONGEST_WAIT
        while counted(devices, is_gone) < 2:
            require(time.monotonic() < until, f"{counted(devices, is_gone)} are closed, not two")
            time.sleep(0.02)
        watched.release()
        wanted = packet(LET_IN)
        came = [answer(device, b"", len(wanted)) for device in devices]
        require(came.count(wanted) == 256, f"{came.count(wanted)} are let in, not 256")


def logins_that_end_together(program):
    """Their worker is woken once for both, and lets both in."""
    numbers = (EPOLL_WAIT, RECVFROM, WRITE)
    with watched_server(program, numbers, "--workers", "1", policy=HASHED) as (watched, server):
        is_hasher = hashers_of(server)
        with connect(server) as one, connect(server) as two:
            require(asks(one) and asks(two), "bob isn't permitted")
            watched.hold(of(EPOLL_WAIT))
            began = len(watched.told)
            watched.freeze(is_hasher)
            for device in (one, two):
                device.sendall(packet(ANN))
            watched.until(lambda calls: are_read(calls[began:], 2), "they aren't read")
            watched.freeze(lambda call: call.number == EPOLL_WAIT or is_hasher(call))
            is_at_rest = lambda _: any(call.number == EPOLL_WAIT for call, _ in watched.held)
            watched.until(is_at_rest, "the worker doesn't wait")
            watched.freeze(of(EPOLL_WAIT))
            watched.until(lambda calls: counted(calls[began:], is_hasher) >= 2, "they aren't compared")
            watched.release()
            for device in (one, two):
                came = answer(device, b"", len(packet(LET_IN)))
                require(came == packet(LET_IN), f"one of two is answered by {came}")


def are_read(calls, count):
    """Whether so many connections were read, and then their worker waited."""
    places = [call.arguments[0] for call in before_last(calls, of(EPOLL_WAIT)) if call.number == RECVFROM]
    return len(set(places)) == count


def a_second_login(program):
    """While its password is compared another device is answered, on a connection that has had a login
    before as well."""
    numbers = (EPOLL_WAIT, WRITE)
    with watched_server(program, numbers, "--workers", "1", policy=HASHED) as (watched, server):
        with connect(server) as device, connect(server) as other:
            require(is_answered(device, ANN, LET_IN), "ann isn't let in")
            # until then the worker may find another password that was compared
            watched.hold(of(EPOLL_WAIT))
            watched.freeze(hashers_of(server))
            device.sendall(packet(ANN))
            for _ in range(2):
                require(asks(other), "another isn't answered")
            require(not is_told(device), "another has to wait")
            watched.release()
            came = answer(device, b"", len(packet(LET_IN)))
            require(came == packet(LET_IN), f"she is answered by {came}")


def logins_at_each_worker(program):
    with Server(program, "--workers", "3", policy=HASHED) as server, contextlib.ExitStack() as stack:
        for number in range(3):
            device = stack.enter_context(connect(server))
            require(is_answered(device, ANN, LET_IN), f"ann isn't let in by worker {number}")
        server.quits()


def a_login_of_one_who_is_gone(program):
    """The connection is closed, as the system can't wait for it, while the password is compared. Who calls
    next and logs in has a hash that takes long, and nobody waits for that."""
    numbers = (EPOLL_WAIT, EPOLL_CTL, RECVFROM, WRITE)
    more = {"policy": HASHED, "also": on_one_processor}
    with watched_server(program, numbers, "--workers", "1", **more) as (watched, server):
        is_hasher = hashers_of(server)
        with connect(server) as other:
            require(asks(other), "bob isn't permitted")
            gone = logs_in_and_is_gone(watched, server, is_hasher)
            with connect(server) as device:
                began = len(watched.told)
                device.sendall(packet(EVE))
                watched.until(lambda calls: are_read(calls[began:], 1), "the next one isn't read")
                watched.freeze(lambda call: is_hasher(call) and call.at > gone.at)
                for _ in range(20):
                    require(asks(other), "another waits for a password")
                require(not is_told(device), "the next one doesn't wait")


def on_one_processor():
    """So one thread compares passwords."""
    os.sched_setaffinity(0, {min(os.sched_getaffinity(0))})


def logs_in_and_is_gone(watched, server, is_hasher):
    """Ann does, on a connection for which the system can't wait. The call that tells its worker of her
    password is held."""
    watched.hold(of(EPOLL_WAIT))
    with connect(server) as device:
        device.sendall(packet(ANN))
        arrives(len(packet(ANN)), server, device)
        watched.fail(of(EPOLL_CTL), errno.ENOSPC)
        watched.hold(is_hasher)
        require(is_closed(device, LONGEST_WAIT), "it is kept")
    return watched.held[0][0]


def a_login_that_takes_long(program):
    """It is not given up while its password is compared, though a device that was silent for less is."""
    options = ("--workers", "1", "--idle", "1")
    with watched_server(program, (WRITE,), *options, policy=HASHED) as (watched, server):
        with connect(server) as device:
            require(asks(device), "bob isn't permitted")
            watched.freeze(hashers_of(server))
            device.sendall(packet(ANN))
            with connect(server) as silent:
                require(asks(silent), "another isn't permitted")
                require(is_closed(silent, LONGEST_WAIT), "a silent one is kept")
            require(not is_told(device), "the login is given up")
            watched.release()
            came = answer(device, b"", len(packet(LET_IN)))
            require(came == packet(LET_IN), f"it is answered by {came}")


def a_password_is_awaited(program):
    """As long as `--login-idle` says, whatever `--idle` is: for ever, or for a second."""
    with (
        Server(program, "--workers", "1", "--idle", "1", "--login-idle", "0", policy=HASHED) as server,
        Server(program, "--workers", "1", "--idle", "0", "--login-idle", "1", policy=HASHED) as other,
        connect(server) as slow, connect(server) as silent, connect(other) as late,
    ):
        for device in (slow, late):
            require(is_answered(device, BEGIN_AS_BOB, PASSWORD_WANTED), "there is no prompt")
        require(asks(silent), "bob isn't permitted")
        require(is_closed(silent, LONGEST_WAIT), "a silent one is kept")
        require(is_answered(slow, BLUE_LAKE, PASSED), "a login is given up by --idle")
        require(is_closed(late, LONGEST_WAIT), "a login isn't given up by --login-idle")
        server.quits()
        other.quits()


def who_is_given_up(program):
    """A device that has had no reply for a second. Its worker means to wait for half a second more at most,
    however long it takes."""
    numbers = (EPOLL_WAIT, SENDTO, CLOSE)
    options = ("--workers", "1", "--idle", "1")
    with watched_server(program, numbers, *options) as (watched, server), connect(server) as device:
        require(asks(device), "bob isn't permitted")
        require(is_closed(device, LONGEST_WAIT), "it is kept")
    reply = next(at for at, call in enumerate(watched.told) if call.number == SENDTO)
    place = watched.told[reply].arguments[0]
    is_end = lambda call: call.number == CLOSE and call.arguments[0] == place
    waited = sum(waits_of(before_first(watched.told[reply:], is_end)))
    require(waited <= 1500, f"it is given up after {waited} milliseconds")


def a_reply_that_is_held_back(program):
    """It is sent as soon as it may be, and its worker rests until then, also where its device sends more."""
    wrong, right = LOGINS["other"], packet(ASK, flag=KEPT)
    options = ("--workers", "1", "--fail-delay", "200")
    numbers = (EPOLL_WAIT, SENDTO, RECVFROM)
    with watched_server(program, numbers, *options, policy=HASHED) as (watched, server):
        with connect(server) as device:
            require(asks(device), "bob isn't permitted")
            began = len(watched.told)
            device.sendall(packet(wrong.replace("ann", "bob")))
            is_read = lambda calls: any(map(of(RECVFROM), calls[began:])) and calls[-1].number == EPOLL_WAIT
            watched.until(is_read, "the login isn't read")
            device.sendall(right)
            wanted = packet(FAILED) + packet(PERMITTED, flag=KEPT)
            came = answer(device, b"", len(wanted))
            require(came == wanted, f"it is answered by {came}")
    calls = watched.told[began:]
    read = next(at for at, call in enumerate(calls) if call.number == RECVFROM)
    waits = waits_of(before_first(calls[read:], of(SENDTO)))
    require(waits and max(waits) <= 200, f"it waits so long: {waits}")
    require(len(waits) <= 8, f"it waits {len(waits)} times while a reply is held back")


def a_reply_that_finds_no_room(program):
    """On a connection that is new, and on one that isn't: it is sent once there is room, though the device
    says nothing more."""
    with watched_server(program, (EPOLL_WAIT, SENDTO), "--workers", "1") as (watched, server):
        with connect(server) as device:
            require(asks(device), "bob isn't permitted")
            watched.fail(of(SENDTO), errno.EAGAIN, errno.EAGAIN)
            require(asks(device), "its reply isn't sent")
        watched.hold(of(EPOLL_WAIT))
        with connect(server) as device:
            device.sendall(packet(ASK, flag=KEPT))
            arrives(len(packet(ASK, flag=KEPT)), server, device)
            watched.fail(of(SENDTO), errno.EAGAIN, errno.EAGAIN)
            watched.release()
            wanted = packet(PERMITTED, flag=KEPT)
            require(answer(device, b"", len(wanted)) == wanted, "the reply isn't sent on a new one")
        require(len(watched.failed) == 4, "there was room")
        server.quits()


def a_reply_that_is_not_taken(program):
    """While a device takes no reply its worker rests, though more that it asks has come."""
    policy = given("shell") + "permit show .*\nuser bob in ops\n"
    asks_for_all = [packet(asked(["service=shell", "cmd="], KEPT, number)) for number in range(1, 1001)]
    options = ("--workers", "1", "--idle", "1")
    with watched_server(program, (EPOLL_WAIT, CLOSE), *options, policy=policy) as (watched, server):
        with connect(server) as device:
            require(asks(device), "bob isn't permitted")
            began = len(watched.told)
            device.sendall(b"".join(asks_for_all))
            # until it is given up, since its replies aren't taken
            watched.until(lambda calls: any(map(of(CLOSE), calls[began:])), "it is kept")
            waits = counted(watched.told[began:], of(EPOLL_WAIT))
            require(waits < 200, f"its worker waits {waits} times until it is given up")


def a_reply_that_cannot_be_sent(program):
    """Its connection is closed, though no device is ever given up, and leaves room for another."""
    options = ("--workers", "1", "--idle", "0", "--connections-at-once", "1", "--console", "console")
    with watched_server(program, (SENDTO,), *options) as (watched, server):
        with connect(server) as device:
            require(asks(device), "bob isn't permitted")
            watched.fail(of(SENDTO), errno.EPIPE)
            device.sendall(packet(ASK, flag=KEPT))
            require(is_closed(device, LONGEST_WAIT), "it is kept")
        with connect(server) as device:
            require(asks(device), "there is no room for another")
        told = typed(program, server, "status")
        require('\ntacd_connections_ended_total{why="write"} 1\n' in told, f"it tells {told}")


def replies_go_at_once(program):
    """No reply waits until the device has confirmed the one before: the system is told so of each
    connection, before anything is sent there."""
    numbers = (SETSOCKOPT, SENDTO)
    with watched_server(program, numbers, "--workers", "2") as (watched, server):
        for _ in range(4):
            with connect(server) as device:
                require(asks(device), "bob isn't permitted")
        server.quits()
    at_once = None
    for call in watched.told:
        if call.number == SETSOCKOPT:
            at_once = call.arguments[:3]
        else:
            wanted = [call.arguments[0], socket.IPPROTO_TCP, socket.TCP_NODELAY]
            require(at_once == wanted, f"before a reply on {call.arguments[0]} the system is told {at_once}")


def what_a_request_costs(program):
    """One read and one write, and its worker isn't told anew what to wait for."""
    numbers = (EPOLL_CTL, RECVFROM, SENDTO)
    with watched_server(program, numbers, "--workers", "1") as (watched, server), connect(server) as device:
        require(asks(device), "bob isn't permitted")
        began = len(watched.told)
        for _ in range(20):
            require(asks(device), "bob isn't permitted again")
        made = [counted(watched.told[began:], of(number)) for number in (RECVFROM, SENDTO)]
        told = counted(watched.told[began:], of(EPOLL_CTL))
        # the system is told of the connection once, which may be after its first reply
        require(made == [20, 20] and told <= 1, f"20 requests cost {made}, and {told} of the poll")


def the_desk_is_taken_once(program):
    """A worker waits for the desk while an edit has it. Once it lets the desk go itself, its device's record
    is there: it needs the desk no more."""
    numbers = (BRK, MMAP, FUTEX, SENDTO)
    options = ("--workers", "1")
    with watched_server(program, numbers, *options, also=in_small_steps) as (watched, server):
        starts(server)
        process = server.process.pid
        with connect(server) as device:
            require(asks(device), "bob isn't permitted")
            watched.freeze(lambda call: call.thread == process and call.number in (BRK, MMAP))
            types(server, f"insert group ops 1 deny .*a{9 * '.'}")
            count = 1
            while not waits_for_the_desk(watched, device):
                count += 1
            watched.hold(lambda call: call.thread != process and is_wake(call))
            answers = [f"record {it + 1} user bob update task 7 elapsed 0" for it in range(count)]
            types(server, "records", "ok", f"user bob now denies: show a{9 * ' '}", *answers)
            watched.release()
            require(answer(device, b"", len(packet(STORED))) == packet(STORED), "a record isn't answered")
        server.ends("quit\n", is_listening=False)


def in_small_steps():
    """The process takes memory so, whatever this environment says."""
    os.unsetenv("GLIBC_TUNABLES")


def is_wake(call):
    """Whether it wakes who waits for a lock that is let go."""
    return call.number == FUTEX and call.arguments[1] & FUTEX_KIND == FUTEX_WAKE


def waits_for_the_desk(watched, device):
    """Whether the worker does, with a record, where the edit takes memory. Else the record is answered, and
    the edit goes on until it takes memory again."""
    watched.until(lambda _: watched.held, "the edit takes no memory")
    edit = watched.held[0][0]
    began = len(watched.told)
    device.sendall(packet(RECORD))
    is_worker = lambda call: call.thread != edit.thread and call.number in (FUTEX, SENDTO)
    watched.until(lambda calls: any(map(is_worker, calls[began:])), "a record comes to nothing")
    if next(filter(is_worker, watched.told[began:])).number == FUTEX:
        return True
    require(answer(device, b"", len(packet(STORED))) == packet(STORED), "a record isn't stored")
    takes_memory = watched.is_held
    watched.freeze(lambda call: takes_memory(call) and call.at > edit.at)
    return False


def an_end_with_the_last_bytes(program):
    """A device that asks and says at once that nothing more comes is answered, and its connection is
    closed, though no device is ever given up."""
    with watched_server(program, (EPOLL_WAIT,), "--workers", "1", "--idle", "0") as (watched, server):
        for is_new in (False, True):
            with contextlib.ExitStack() as stack:
                device = None if is_new else stack.enter_context(connect(server))
                require(is_new or asks(device), "bob isn't permitted")
                watched.hold(of(EPOLL_WAIT))
                device = device or stack.enter_context(connect(server))
                device.sendall(packet(ASK, flag=KEPT))
                device.shutdown(socket.SHUT_WR)
                arrives(len(packet(ASK, flag=KEPT)), server, device)
                watched.release()
                wanted = packet(PERMITTED, flag=KEPT)
                require(answer(device, b"", len(wanted)) == wanted, "it isn't answered")
                require(is_closed(device, LONGEST_WAIT), f"is it new: {is_new}; it is kept")
        server.quits()


def a_reset_before_the_header(program):
    """A proxy's connection that fails before anything came is closed at once, and nothing is told of it."""
    options = ("--workers", "1", "--console", "console")
    more = {"proxy": "proxy", **LISTED}
    with watched_server(program, (RECVFROM,), *options, **more) as (watched, server):
        watched.fail(of(RECVFROM), errno.ECONNRESET)
        with called(server) as device:
            require(is_closed(device, LONGEST_WAIT), "it is kept")
        told = typed(program, server, "status")
        require('{why="bad_proxy_header"} 0\n' in told, f"it tells {told}")


def headers_that_are_awaited(program):
    """As many as there may be connections. One more is closed, and the others are served."""
    options = ("--workers", "1", "--connections-at-once", "2")
    with Server(program, *options, proxy="proxy", **LISTED) as server, contextlib.ExitStack() as stack:
        silent = [stack.enter_context(called(server, b"PROXY ")) for _ in range(2)]
        with called(server, b"PROXY ") as one_more:
            require(is_closed(one_more, LONGEST_WAIT), "a third header is awaited")
        wanted = clear(PERMITTED, KEPT_IN_CLEAR)
        for device in silent:
            sent = line("127.0.0.1").removeprefix(b"PROXY ") + clear(ASK, KEPT_IN_CLEAR)
            require(answer(device, sent, len(wanted)) == wanted, "one of two isn't answered")
        server.quits()


def the_last_connections(program):
    """A worker that is to serve no more ends once they are served: one whose first packet comes in two
    parts, and one that it is given while it sends another's reply."""
    old = {"key": ("--devices", "devices"), "devices": f"{ONE}old-key tundra and taiga\n"}
    options = ("--workers", "1", "--connections", "1")
    with watched_server(program, (EPOLL_WAIT, RECVFROM), *options, **old) as (watched, server):
        with connect(server, "127.0.0.1") as device:
            sent, wanted = packet(ASK, KEY_OF_ONE, flag=KEPT), packet(PERMITTED, KEY_OF_ONE, flag=KEPT)
            device.sendall(sent[:20])
            is_read = lambda calls: any(map(of(RECVFROM), calls)) and calls[-1].number == EPOLL_WAIT
            watched.until(is_read, "the worker doesn't wait for the rest")
            require(answer(device, sent[20:], len(wanted)) == wanted, "its packet isn't served")
    numbers = (ACCEPT4, SENDTO, WRITE)
    with watched_server(program, numbers, "--workers", "2", "--connections", "2") as (watched, server):
        with connect(server) as first, connect(server) as second:
            require(asks(first), "the first isn't answered")
            worker = last_thread(watched, ACCEPT4)
            watched.freeze(lambda call: call.number == SENDTO and call.thread != worker)
            second.sendall(packet(ASK, flag=CLOSING))
            watched.until(lambda _: watched.held, "the second isn't answered")
            with connect(server) as third, connect(server) as fourth:
                # it is woken for each of its two devices, and at last both workers are
                is_over = lambda calls: counted(calls, of(WRITE, worker)) >= 4
                watched.until(is_over, "the second worker isn't given its last device")
                watched.release()
                require(asks(third) and asks(fourth), "one of the last two isn't answered")


def the_end_wakes_all(program):
    """Each of the workers is woken by `quit`, so that none sleeps on, and ends by that: the first one also
    while the next isn't woken yet."""
    with watched_server(program, (EPOLL_WAIT, WRITE), "--workers", "3") as (watched, server):
        with connect(server) as device:
            require(asks(device), "bob isn't permitted")
        process = server.process.pid
        is_wake = lambda call: call.thread == process and call.number == WRITE and call.arguments[2] == 8
        watched.freeze(lambda call: is_wake(call) and counted(watched.told, is_wake) > 1)
        server.process.stdin.write(b"quit\n")
        server.process.stdin.flush()
        watched.until(lambda _: watched.held, "no second worker is woken")
        workers = {call.thread for call in watched.told if call.number == EPOLL_WAIT}
        until = time.monotonic() + LONGEST_WAIT
        while all(os.path.exists(f"/proc/{process}/task/{worker}") for worker in workers):
            require(time.monotonic() < until, "the first of three that is woken doesn't end")
            time.sleep(0.02)
        watched.release()
        server.ends()
    woken = {call.arguments[0] for call in watched.told if is_wake(call)}
    require(len(woken) == 3, f"{len(woken)} of three workers are woken")


def the_end_closes_the_port(program):
    """Once `quit` is read, who waits to be accepted is disconnected and nobody can call, though a worker
    is busy."""
    with watched_server(program, (EPOLL_WAIT,), "--workers", "1") as (watched, server):
        with connect(server) as device:
            require(asks(device), "bob isn't permitted")
        watched.hold(of(EPOLL_WAIT))
        with connect(server) as waiting:
            server.process.stdin.write(b"quit\n")
            server.process.stdin.flush()
            require(is_closed(waiting, LONGEST_WAIT), "who waits is kept")
        with socket.socket() as late:
            require(late.connect_ex(server.address) == errno.ECONNREFUSED, "one more can call")
        watched.release()
        server.ends()
