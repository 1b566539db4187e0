"""`tacd ask`, which asks servers as a device does: the server of this program, and servers made here
that answer as RFC 8907 has it, or otherwise."""

import contextlib
import hashlib
import itertools
import os
import pathlib
import re
import socket
import struct
import subprocess
import tempfile
import threading
import time

from bench.lib.device import received
from bench.lib.packet import (
    CLEAR, COMMAND, HEADER_SIZE, LONGEST_BODY, VERSION, Header, header_of, padded,
)
from bench.lib.server import free_port
from lib.cases import LONGEST_WAIT, Wrong, require
from lib.devices import connect
from lib.proxies import header as proxy_header
from lib.servers import Server

KEY = b"wide kelp"
PASSWORD, ENABLE = b"blue-lake", b"deep lake"
POLICY = f"""policy 3
group ops
priv 15
service shell shell:roles*"network-operator vdc-admin"
service ppp/ip addr=192.0.2.1
permit show .*
deny reload
permit ()
user bob in ops
login {PASSWORD.decode()}
enable {ENABLE.decode()}
"""
SHELL = "PASS_ADD priv-lvl=15 'shell:roles*\"network-operator vdc-admin\"'\n"
BY_TLS = "device one\nat 127.0.0.1\ntls\n"
AUTHEN, AUTHOR, ACCT = 1, 2, 3
GRANTED, REFUSED, MISTAKEN, UNANSWERED = 0, 1, 2, 4
# What is over at once, or after a second, is over within these.
SOON = 8


class Asker:
    """The program, asking at a port of this machine."""

    def __init__(self, program, port, host="127.0.0.1", key=KEY):
        self.program, self.to, self.key = program, f"{host}:{port}", key

    def words(self, path, words):
        door = () if "--clear" in words else ("--key-file", path)
        return ["tacd", "ask", "--to", self.to, *door, *words]

    def begin(self, *words, output=subprocess.PIPE):
        """It asks, and waits for its password if it takes one."""
        self.folder = tempfile.TemporaryDirectory(prefix="tacd-asked-")
        path = os.path.join(self.folder.name, "key")
        pathlib.Path(path).write_bytes(self.key + b"\n")
        os.chmod(path, 0o600)
        return subprocess.Popen(
            self.words(path, words), executable=self.program, stdin=subprocess.PIPE, stdout=output,
            stderr=subprocess.PIPE,
        )

    def __call__(self, *words, typed=b""):
        """What it prints and says, and how it ends."""
        asking = self.begin(*words)
        try:
            printed, said = asking.communicate(typed, LONGEST_WAIT)
        except subprocess.TimeoutExpired:
            asking.kill()
            asking.communicate()
            return "it didn't end", "", None
        finally:
            self.folder.cleanup()
        return printed.decode(), said.decode(), asking.returncode

    def comes_to(self, *words, typed=b"", printed="", said="", status=GRANTED):
        came = self(*words, typed=typed)
        if said:
            said = f"tacd: {self.to}: {said}\n"
        require(came == (printed, said, status), f"{words}: {came}, not {(printed, said, status)}")

    def fails(self, *words, typed=b"", said="", seconds=SOON):
        """It ends with 4 within these seconds, and says why, and prints nothing."""
        begun = time.monotonic()
        self.comes_to(*words, typed=typed, said=said, status=UNANSWERED)
        took = time.monotonic() - begun
        require(took < seconds, f"{words}: it took {took:.1f} seconds")


@contextlib.contextmanager
def served(program, *options, **more):
    """A server of this program, and the program that asks it."""
    with Server(program, "--console", "console", *options, **{"policy": POLICY, **more}) as server:
        with connect(server):
            pass
        yield server, Asker(program, server.address[1])


class Packet:
    """One that came, with its body in clear."""

    def __init__(self, stream, key=KEY):
        self.head = received(stream, HEADER_SIZE)
        self.header = header_of(self.head)
        body = received(stream, self.header.length)
        self.body = body if self.header.flags & CLEAR else padded(self.head, body, key)

    def reply(self, body, key=KEY, **other):
        """The packet of a reply to it, otherwise where that is said."""
        parts = {"number": self.header.number + 1, "length": len(body), **other}
        header = self.header._replace(**parts)
        head = header.to_bytes()
        return head + (body if header.flags & CLEAR else padded(head, body, key))


def authen(status, message=b"", data=b"", flags=0):
    return struct.pack("!BBHH", status, flags, len(message), len(data)) + message + data


def author(status, message=b"", data=b"", args=()):
    head = struct.pack("!BBHH", status, len(args), len(message), len(data))
    return head + bytes(map(len, args)) + message + data + b"".join(args)


def acct(status, message=b"", data=b""):
    return struct.pack("!HHB", len(message), len(data), status) + message + data


PASS, AGREED, TAKEN = authen(1), author(1), acct(1)
# How something of each type is asked, and what grants it.
ASKED = {
    AUTHEN: (("login", "bob", "--pap"), PASS, "PASS"),
    AUTHOR: (("command", "bob", "show"), AGREED, "PASS_ADD"),
    ACCT: (("record", "start", "bob", "show"), TAKEN, "SUCCESS"),
}


class Made:
    """A server at a free port that does this with each connection, one after another."""

    def __init__(self, act):
        self.port = free_port()
        self.listener = socket.create_server(("127.0.0.1", self.port))
        self.act, self.wrong = act, []
        self.thread = threading.Thread(target=self.serve, daemon=True)
        self.thread.start()

    def serve(self):
        with contextlib.suppress(OSError):
            while True:
                stream, _ = self.listener.accept()
                stream.settimeout(LONGEST_WAIT)
                with stream, contextlib.suppress(OSError):
                    try:
                        self.act(stream)
                    except (Wrong, struct.error) as wrong:  # The latter where no packet came.
                        self.wrong.append(wrong)

    def ends(self):
        # Closing the listener alone would leave the thread in its `accept`.
        with contextlib.suppress(OSError):
            self.listener.shutdown(socket.SHUT_RDWR)
        self.listener.close()
        self.thread.join(LONGEST_WAIT)


@contextlib.contextmanager
def made(program, act):
    """The program, asking such a server, which then has to have met nothing wrong."""
    server = Made(act)
    try:
        yield Asker(program, server.port)
    finally:
        server.ends()
    if server.wrong:
        raise Wrong(f"the server: {server.wrong[0]}")


def answering(*bodies, **other):
    """What replies to one packet after another by these bodies."""

    def act(stream):
        for body in bodies:
            stream.sendall(Packet(stream).reply(body, **other))
        stream.recv(1)  # So that the client hangs up first.

    return act


def logins(program):
    methods = ((), ("--ascii",), ("--pap",), ("--chap",))
    with served(program) as (server, asks):
        for method, enable in itertools.product(methods, ((), ("--enable",))):
            words = ("login", "bob", *method, *enable)
            right, wrong = (ENABLE, PASSWORD) if enable else (PASSWORD, ENABLE)
            asks.comes_to(*words, typed=right + b"\n", printed="PASS\n")
            refusal = "FAIL Authentication failed\n"
            asks.comes_to(*words, typed=wrong + b"\n", printed=refusal, status=REFUSED)
            stranger = ("login", "alice", *method, *enable)
            asks.comes_to(*stranger, typed=right + b"\n", printed=refusal, status=REFUSED)


def what_a_user_may_do(program):
    with served(program) as (server, asks):
        for words, printed, status in (
            (("command", "bob", "show", "version"), "PASS_ADD\n", GRANTED),
            (("command", "bob", "show", "--all", "<cr>"), "PASS_ADD\n", GRANTED),
            (("command", "bob", "show version", "-x"), "PASS_ADD\n", GRANTED),
            (("command", "bob", "reload"), "FAIL denied by group ops rule 2\n", REFUSED),
            (("command", "bob", "reload", "now"), "FAIL denied by default\n", REFUSED),
            (("command", "alice", "show"), "FAIL unknown user\n", REFUSED),
            (("shell", "bob"), SHELL, GRANTED),
            (("shell", "alice"), "FAIL unknown user\n", REFUSED),
            (("service", "bob", "ppp/ip"), "PASS_ADD addr=192.0.2.1\n", GRANTED),
            (("service", "bob", "ppp/ip", "addr*"), "PASS_ADD addr=192.0.2.1\n", GRANTED),
            (("service", "bob", "ppp"), "FAIL unsupported service\n", REFUSED),
            (("service", "bob", "ppp/ip", "addr"), "FAIL bad argument\n", REFUSED),
        ):
            asks.comes_to(*words, printed=printed, status=status)


def records_of_all_kinds(program):
    kept = []
    with served(program) as (server, asks):
        for number, kind in enumerate(("start", "stop", "watchdog", "update"), 1):
            asks.comes_to("record", kind, "bob", "show", "version", printed="SUCCESS\n")
            kept.append(f"record {number} user bob {kind} task 1 elapsed 0 line show%20version")
        asks.comes_to("record", "--task-id", "7/2", "stop", "bob", printed="SUCCESS\n")
        kept.append("record 5 user bob stop task 7/2 elapsed 0")
        place = os.path.join(server.folder.name, "console")
        told = subprocess.run([program, "console", place, "records"], capture_output=True, text=True)
        require(told.stdout.splitlines() == kept, f"it has {told.stdout!r}")


def another_key(program):
    with served(program) as (server, _):
        asks = Asker(program, server.address[1], key=b"taiga")
        for words in (ASKED[AUTHEN][0], ASKED[AUTHOR][0], ASKED[ACCT][0], ("login", "bob")):
            said = "its reply can't be read: it may have another key for this client"
            asks.fails(*words, typed=PASSWORD, said=said)


def every_address(program):
    port = free_port()
    with Server(program, "--address", "::", "--no-console", host="::1", port=port, policy=POLICY) as server:
        with connect(server):
            pass
        for to in f"[::1]:{port}", f"127.0.0.1:{port}", f"localhost:{port}":
            asks = Asker(program, port)
            asks.to = to
            asks.comes_to("command", "bob", "show", "version", printed="PASS_ADD\n")


def relayed(path):
    """What a TLS proxy does with a connection, once its TLS is off: it tells who called, and hands
    on what comes."""

    def act(stream):
        with socket.socket(socket.AF_UNIX) as inner:
            inner.connect(path)
            inner.sendall(proxy_header("127.0.0.1"))
            inner.settimeout(0.05)
            stream.settimeout(0.05)
            while True:
                for one, other in ((stream, inner), (inner, stream)):
                    with contextlib.suppress(TimeoutError):
                        piece = one.recv(4096)
                        if not piece:
                            return
                        other.sendall(piece)

    return act


def packets_in_clear(program):
    """Inside TLS packets have no pad. At a server's port such a packet is closed unanswered."""
    more = {"key": ("--devices", "devices"), "devices": BY_TLS, "proxy": "proxy"}
    with served(program, **more) as (server, _):
        with made(program, relayed(os.path.join(server.folder.name, "proxy"))) as asks:
            for method in (), ("--pap",), ("--chap",):
                words = ("--clear", "login", "bob", *method)
                asks.comes_to(*words, typed=PASSWORD, printed="PASS\n")
            asks.comes_to("--clear", "shell", "bob", printed=SHELL)
            words = ("--clear", "record", "stop", "bob", "show")
            asks.comes_to(*words, printed="SUCCESS\n")
    with served(program) as (server, asks):
        asks.fails("--clear", "shell", "bob", said="it closed the connection without a reply")


def replies_in_clear(program):
    """Each side has to have a pad, or none."""
    with made(program, answering(AGREED)) as asks:
        asks.comes_to("--clear", "shell", "bob", printed="PASS_ADD\n")
    with made(program, answering(AGREED, flags=0)) as asks:
        said = "its reply isn't in clear, though no key was given"
        asks.fails("--clear", "shell", "bob", said=said)
    with made(program, answering(AGREED, flags=CLEAR)) as asks:
        asks.fails("shell", "bob", said="its reply is in clear, though a key was given")


def seen(program, words, *bodies, typed=PASSWORD):
    """The packets that come where these bodies are replied."""
    packets = []

    def act(stream):
        for body in bodies:
            packets.append(Packet(stream))
            stream.sendall(packets[-1].reply(body))
        stream.recv(1)

    with made(program, act) as asks:
        _, said, status = asks(*words, typed=typed)
        require(not said and status in (GRANTED, REFUSED), f"{words}: {said!r}, {status}")
    return packets


def start(level, kind, service, data=b"", user=b"bob", port=b"tty0", place=b""):
    """The body of a START (RFC 8907, section 5.1)."""
    head = bytes([1, level, kind, service, len(user), len(port), len(place), len(data)])
    return head + user + port + place + data


def the_bytes_of_a_login(program):
    """RFC 8907, sections 5.1, 5.3 and 5.4.2. By ASCII the password is typed where it is asked for."""
    ask = authen(5, b"Password: ", flags=1)
    for words, level, service in ((), 1, 1), (("--enable",), 15, 2):
        (one, two) = seen(program, ("login", "bob", *words), ask, PASS)
        require(one.head[:4] == bytes([0xC0, 1, 1, 0]), f"ASCII: its header is {one.head.hex()}")
        require(one.body == start(level, 1, service), f"ASCII: its body is {one.body}")
        require(two.head[:4] == bytes([0xC0, 1, 3, 0]), f"ASCII: it goes on by {two.head.hex()}")
        require(two.header.session == one.header.session, "ASCII: it goes on in another session")
        typed = struct.pack("!HHB", len(PASSWORD), 0, 0) + PASSWORD
        require(two.body == typed, f"ASCII: it types {two.body}")
        (one,) = seen(program, ("login", "bob", "--pap", *words), PASS)
        require(one.head[:4] == bytes([0xC1, 1, 1, 0]), f"PAP: its header is {one.head.hex()}")
        require(one.body == start(level, 2, service, PASSWORD), f"PAP: its body is {one.body}")
        (one,) = seen(program, ("login", "bob", "--chap", *words), PASS)
        require(one.head[:4] == bytes([0xC1, 1, 1, 0]), f"CHAP: its header is {one.head.hex()}")
        data = one.body[-33:]
        digest = hashlib.md5(data[:1] + PASSWORD + data[1:17]).digest()
        require(data[17:] == digest, f"CHAP: its response is {data[17:].hex()}")
        require(one.body == start(level, 3, service, data), f"CHAP: its body is {one.body}")
    words = ("--from", "192.0.2.7", "--port-name", "vty 3", "login", "bob", "--pap")
    (one,) = seen(program, words, PASS)
    wanted = start(1, 2, 1, PASSWORD, port=b"vty 3", place=b"192.0.2.7")
    require(one.body == wanted, f"its body is {one.body}")


def request(level, *texts, flags=b"", port=b"tty0", place=b""):
    """The body of a REQUEST about bob (RFC 8907, sections 6.1 and 7.1)."""
    texts = [text.encode() for text in texts]
    head = bytes([6, level, 1, 1, 3, len(port), len(place), len(texts), *map(len, texts)])
    return flags + head + b"bob" + port + place + b"".join(texts)


def the_bytes_of_requests(program):
    shown = ("service=shell", "cmd=show", "cmd-arg=run", "cmd-arg=<cr>")
    for words, body in (
        (("command", "bob", "show", "run", "<cr>"), request(15, *shown)),
        (("command", "bob", "exit"), request(15, "service=shell", "cmd=exit")),
        (("shell", "bob"), request(1, "service=shell", "cmd=")),
        (("service", "bob", "ppp"), request(1, "service=ppp")),
        (
            ("service", "bob", "PaloAlto/fire/wall", "cisco-av-pair*", "-x"),
            request(1, "service=PaloAlto", "protocol=fire/wall", "cisco-av-pair*", "-x"),
        ),
        (
            ("--from", "::1", "--port-name", "", "shell", "bob"),
            request(1, "service=shell", "cmd=", port=b"", place=b"::1"),
        ),
    ):
        (one,) = seen(program, words, AGREED)
        require(one.head[:4] == bytes([0xC0, 2, 1, 0]), f"{words}: its header is {one.head.hex()}")
        require(one.body == body, f"{words}: its body is {one.body}")
    for kind, flag in ("start", b"\x02"), ("stop", b"\x04"), ("watchdog", b"\x08"), ("update", b"\x0a"):
        (one,) = seen(program, ("record", kind, "bob", "show", "run", "<cr>"), TAKEN)
        require(one.head[:4] == bytes([0xC0, 3, 1, 0]), f"{kind}: its header is {one.head.hex()}")
        wanted = request(15, "task_id=1", *shown, flags=flag)
        require(one.body == wanted, f"{kind}: its body is {one.body}")
    (one,) = seen(program, ("record", "--task-id", "x y", "stop", "bob"), TAKEN)
    wanted = request(15, "task_id=x y", "service=shell", flags=b"\x04")
    require(one.body == wanted, f"a shell: its body is {one.body}")


def answers_to_questions(program):
    """The name and the password are typed once each, and only by ASCII. No other question is
    answered: it is the answer."""
    name, secret, other = authen(4, b"Username: "), authen(5, b"Password: "), authen(3, b"Token: ")
    for words, bodies, printed, typed in (
        ((), (name, secret, PASS), "PASS", [b"bob", PASSWORD]),
        ((), (secret, PASS), "PASS", [PASSWORD]),
        ((), (PASS,), "PASS", []),
        ((), (other,), "GETDATA Token: ", []),
        ((), (secret, other), "GETDATA Token: ", [PASSWORD]),
        ((), (secret, secret), "GETPASS Password: ", [PASSWORD]),
        ((), (name, name), "GETUSER Username: ", [b"bob"]),
        ((), (secret, name, PASS), "PASS", [PASSWORD, b"bob"]),
        (("--pap",), (secret,), "GETPASS Password: ", []),
        (("--chap",), (secret,), "GETPASS Password: ", []),
        (("--pap",), (name,), "GETUSER Username: ", []),
    ):
        came = []

        def act(stream):
            for body in bodies:
                came.append(Packet(stream))
                stream.sendall(came[-1].reply(body))
            require(stream.recv(1) == b"", "more is typed")

        with made(program, act) as asks:
            status = GRANTED if printed == "PASS" else REFUSED
            asks.comes_to("login", "bob", *words, typed=PASSWORD, printed=printed + "\n", status=status)
        require([it.body[5:] for it in came[1:]] == typed, f"{bodies}: typed is {came}")
        require([it.header.number for it in came] == [1, 3, 5][: len(came)], f"{bodies}: its numbers")


def no_two_alike(program):
    """Sessions and challenges are other ones each time."""
    packets = [seen(program, ("login", "bob", "--chap"), PASS)[0] for _ in range(5)]
    require(len({it.header.session for it in packets}) == 5, "two have one session")
    require(len({it.body[-32:-16] for it in packets}) == 5, "two have one challenge")


def every_status(program):
    """RFC 8907, sections 5.2, 6.2 and 7.2. No other status is a reply's."""
    names = {
        AUTHEN: {
            1: "PASS", 2: "FAIL", 3: "GETDATA", 4: "GETUSER", 5: "GETPASS", 6: "RESTART", 7: "ERROR",
            0x21: "FOLLOW",
        },
        AUTHOR: {1: "PASS_ADD", 2: "PASS_REPL", 0x10: "FAIL", 0x11: "ERROR", 0x21: "FOLLOW"},
        ACCT: {1: "SUCCESS", 2: "ERROR", 0x21: "FOLLOW"},
    }
    grants = {(AUTHEN, 1), (AUTHOR, 1), (AUTHOR, 2), (ACCT, 1)}
    for kind, body in (AUTHEN, authen), (AUTHOR, author), (ACCT, acct):
        words = ASKED[kind][0]
        for number in *range(0x13), 0x20, 0x21, 0x22, 0xFF:
            with made(program, answering(body(number, b"as told"))) as asks:
                if number in names[kind]:
                    printed = f"{names[kind][number]} as told\n"
                    status = GRANTED if (kind, number) in grants else REFUSED
                    asks.comes_to(*words, typed=PASSWORD, printed=printed, status=status)
                else:
                    said = "its reply has an unknown status: it may have another key for this client"
                    asks.fails(*words, typed=PASSWORD, said=said)


def all_of_an_answer(program):
    """Arguments, message and data, and as many and as long as a reply has them."""
    long = b"m" * 65_535
    for kind, body, printed in (
        (AUTHEN, authen(1, b"hello", b"d"), "PASS hello; data d"),
        (AUTHEN, authen(1, b"", b"d"), "PASS; data d"),
        (AUTHEN, authen(1, long, b"n" * 60_000), f"PASS {'m' * 65_535}; data {'n' * 60_000}"),
        (ACCT, acct(1, b"kept", b"d"), "SUCCESS kept; data d"),
        (ACCT, acct(1, long), f"SUCCESS {'m' * 65_535}"),
        (AUTHOR, author(1, b"hello", b"d", [b"a=1", b"b*"]), "PASS_ADD a=1 b*; message hello; data d"),
        (AUTHOR, author(2, args=[b"a= x", b"", b"it's"]), "PASS_REPL 'a= x'  it\\x27s"),
        (AUTHOR, author(1, args=[b"x" * 255] * 255), "PASS_ADD" + f" {'x' * 255}" * 255),
    ):
        with made(program, answering(body)) as asks:
            asks.comes_to(*ASKED[kind][0], typed=PASSWORD, printed=printed + "\n")


def nothing_comes_to_a_terminal(program):
    """Of all bytes, printable ASCII alone is printed as it is."""
    every = bytes(range(256))

    def printed_of(text, *others):
        return "".join(
            chr(it) if 0x20 <= it <= 0x7E and it not in others else f"\\x{it:02x}" for it in text
        )

    shown = printed_of(every, 0x5C)
    for body, printed in (
        (author(0x10, every), f"FAIL {shown}\n"),
        (author(0x10, b"", every), f"FAIL; data {shown}\n"),
    ):
        with made(program, answering(body)) as asks:
            asks.comes_to("shell", "bob", printed=printed, status=REFUSED)
    with made(program, answering(author(1, args=[b"\x1b[2J", every[:128]]))) as asks:
        quoted = printed_of(every[:128], 0x5C, 0x27)
        asks.comes_to("shell", "bob", printed=f"PASS_ADD \\x1b[2J '{quoted}'\n")


def wait(stream):
    """Until the client hangs up."""
    while stream.recv(4096):
        pass


def no_reply_in_time(program):
    """Nothing, and parts of a reply; by ASCII the whole exchange counts, not each reply."""

    def begins(count):
        def act(stream):
            stream.sendall(Packet(stream).reply(PASS)[:count])
            wait(stream)

        return act

    def asks_late(stream):
        packet = Packet(stream)
        time.sleep(0.7)
        stream.sendall(packet.reply(authen(5)))
        wait(stream)

    for act in wait, begins(0), begins(1), begins(11), begins(12), begins(17), asks_late:
        with made(program, act) as asks:
            words = ("--timeout", "1", "login", "bob")
            begun = time.monotonic()
            asks.fails(*words, typed=PASSWORD, said="no whole reply came in time", seconds=SOON)
            require(time.monotonic() - begun > 0.9, "it didn't wait")


def a_byte_now_and_then(program):
    """A reply that would be whole after four seconds, where one is waited for."""

    def act(stream):
        for byte in Packet(stream).reply(PASS):
            stream.sendall(bytes([byte]))
            time.sleep(0.22)

    with made(program, act) as asks:
        words = ("--timeout", "1", "login", "bob")
        asks.fails(*words, typed=PASSWORD, said="no whole reply came in time")
    with made(program, act) as asks:
        asks.comes_to("--timeout", "15", "login", "bob", typed=PASSWORD, printed="PASS\n")


UNREAD = "its reply can't be read: it may have another key for this client"


def no_reply_to_what_was_asked(program):
    for kind, (words, body, _) in ASKED.items():
        for said, other in (
            ("its reply is of another session", {"session": 7}),
            ("its reply has a wrong sequence number", {"number": 1}),
            ("its reply has a wrong sequence number", {"number": 4}),
            ("its reply has a wrong sequence number", {"number": 0}),
            ("its reply is of another type than the request", {"kind": kind % 3 + 1}),
            ("its reply is of another type than the request", {"kind": 0}),
            ("what it answers isn't TACACS+", {"version": 0xB0}),
            ("what it answers isn't TACACS+", {"version": 0xC2}),
            ("its reply is over 131075 bytes long", {"length": 131_076}),
            ("its reply is over 131075 bytes long", {"length": 2**32 - 1}),
            (UNREAD, {"key": b"taiga"}),
        ):
            with made(program, answering(body, **other)) as asks:
                asks.fails(*words, typed=PASSWORD, said=said)
        # A body with a byte less, or one more, is none.
        for body in b"", body[:1], body[:-1], body + b"\0":
            with made(program, answering(body)) as asks:
                asks.fails(*words, typed=PASSWORD, said=UNREAD)
    for said, other in (
        ("its reply is of another session", {"session": 7}),
        ("its reply has a wrong sequence number", {"number": 2}),
    ):
        fails_by_its_second_reply(program, said, **other)


def fails_by_its_second_reply(program, said, **other):
    """It is judged as the first."""

    def act(stream):
        stream.sendall(Packet(stream).reply(authen(5)))
        stream.sendall(Packet(stream).reply(PASS, **other))
        wait(stream)

    with made(program, act) as asks:
        asks.fails("login", "bob", typed=PASSWORD, said=said)


def no_tacacs_at_all(program):
    for sent in (
        b"HTTP/1.1 400 Bad Request\r\n\r\n",
        b"SSH-2.0-OpenSSH_9.2p1\r\n",
        bytes(12),
        b"\xff" * 4096,
    ):

        def act(stream):
            stream.sendall(sent)
            wait(stream)

        with made(program, act) as asks:
            asks.fails("shell", "bob", said="what it answers isn't TACACS+")
    for count, said in (
        (0, "it closed the connection without a reply"),
        (1, "it closed the connection within a reply"),
        (12, "it closed the connection within a reply"),
        (17, "it closed the connection within a reply"),
    ):
        cut = lambda stream: stream.sendall(Packet(stream).reply(AGREED)[:count])
        with made(program, cut) as asks:
            asks.fails("shell", "bob", said=said)
    with made(program, resets) as asks:
        printed, said, status = asks("shell", "bob")
        require((printed, status) == ("", UNANSWERED), f"a reset: {printed!r}, {status}")
        told = (
            "it closed the connection without a reply",
            "the request could not be sent",
            "Connection reset by peer (os error 104)",  # While it is made.
        )
        require(said in [f"tacd: {asks.to}: {it}\n" for it in told], f"a reset: {said!r}")


def resets(stream):
    stream.setsockopt(socket.SOL_SOCKET, socket.SO_LINGER, struct.pack("ii", 1, 0))


def too_much(program):
    """A gigabyte, of which no more is taken than the longest packet and what the system keeps."""
    for head in (
        bytes([0xC0, 2, 2, 0]) + bytes(8),
        Header(VERSION, COMMAND, 2, 0, 1, LONGEST_BODY).to_bytes(),
        Header(VERSION, COMMAND, 2, 0, 1, 2**30).to_bytes(),
        b"",
    ):
        sent = 0

        def act(stream):
            nonlocal sent
            piece = bytes(65_536)
            stream.sendall(head)
            while sent < 2**30:
                stream.sendall(piece)
                sent += len(piece)

        with made(program, act) as asks:
            begun = time.monotonic()
            printed, said, status = asks("shell", "bob")
            took = time.monotonic() - begun
            came = (printed, status, said.count("\n"), said.startswith(f"tacd: {asks.to}: "))
            require(came == ("", UNANSWERED, 1, True), f"{head.hex()}: {came}, {said!r}")
            require(took < SOON, f"{head.hex()}: it took {took:.1f} seconds")
        require(sent < 2**25, f"{head.hex()}: it took {sent} bytes")


def nobody_there(program):
    asks = Asker(program, free_port())
    asks.fails("shell", "bob", said="Connection refused (os error 111)")
    asks.to = "no-such-host.invalid:49"
    printed, said, status = asks("shell", "bob")
    require((printed, status) == ("", UNANSWERED), f"no such host: {printed!r}, {status}")
    require(said.startswith("tacd: no-such-host.invalid:49: "), f"no such host: {said!r}")


def how_long_it_took(program):
    def late(stream):
        packet = Packet(stream)
        time.sleep(0.3)
        stream.sendall(packet.reply(author(0x10, b"no")))
        stream.recv(1)

    with made(program, late) as asks:
        printed, said, status = asks("--times", "shell", "bob")
        require((said, status) == ("", REFUSED), f"{said!r}, {status}")
        told = re.fullmatch(r"FAIL no\ntook ([0-9]+)\.[0-9]{3} ms\n", printed)
        require(told and 300 <= int(told[1]) < 1000 * SOON, f"it prints {printed!r}")


def the_password_is_nowhere(program):
    """Where others could see it: among the words of the process and in its environment."""
    with made(program, wait) as asks:
        asking = asks.begin("--timeout", "10", "login", "bob", "--pap")
        try:
            asking.stdin.write(PASSWORD + b"\n")
            asking.stdin.close()
            time.sleep(0.3)
            for name in "cmdline", "environ", "comm":
                text = pathlib.Path(f"/proc/{asking.pid}/{name}").read_bytes()
                require(PASSWORD not in text, f"it is in {name}")
                require(KEY not in text, f"the key is in {name}")
        finally:
            asking.kill()
            asking.wait()
            asking.stdout.close()
            asking.stderr.close()
            asks.folder.cleanup()


def passwords_as_they_come(program):
    """The first line, without its end, and nothing after it."""
    for typed, wanted in (
        (PASSWORD, PASSWORD),
        (PASSWORD + b"\n", PASSWORD),
        (PASSWORD + b"\r\n", PASSWORD),
        (PASSWORD + b"\nother\n", PASSWORD),
        (b" a b \t\n", b" a b \t"),
        (b"\xff\x00\x01\n", b"\xff\x00\x01"),
        (b"", b""),
        (b"\n", b""),
    ):
        (one,) = seen(program, ("login", "bob", "--pap"), PASS, typed=typed)
        require(one.body == start(1, 2, 1, wanted), f"{typed}: its body is {one.body}")
        words = ("login", "bob")
        one, two = seen(program, words, authen(5), PASS, typed=typed)
        require(two.body[5:] == wanted, f"{typed}: it types {two.body}")
    # What follows stays there for whoever reads on.
    with made(program, answering(PASS)) as asks, tempfile.TemporaryDirectory() as folder:
        path = pathlib.Path(folder, "key")
        path.write_bytes(KEY)
        path.chmod(0o600)
        script = f"tacd() {{ exec -a tacd {program} \"$@\"; }}; (tacd ask --to {asks.to} " \
            f"--key-file {path} login bob --pap); cat"
        ran = subprocess.run(["bash", "-c", script], input=b"one\ntwo\n", capture_output=True)
        require(ran.stdout == b"PASS\ntwo\n", f"what follows is {ran.stdout}")


def too_long_to_be_sent(program):
    """A length is one byte, but for what is typed. What is too long is said, and nothing is sent."""
    fault = "error: a field is over 255 bytes long, or there are over 255 arguments\n"

    def refuses(*words, typed=b"", said=fault):
        came = asks(*words, typed=typed)
        require(came == ("", said, MISTAKEN), f"{words[:3]}: {came}")

    def act(stream):
        with contextlib.suppress(struct.error):  # Mostly no packet comes.
            answering(AGREED)(stream)

    with made(program, act) as asks:
        asks.comes_to("command", "u" * 255, "c" * 251, *["a" * 247] * 253, printed="PASS_ADD\n")
        refuses("command", "u" * 256, "show")
        refuses("--port-name", "p" * 256, "command", "bob", "show")
        refuses("--from", "r" * 256, "command", "bob", "show")
        refuses("command", "bob", "c" * 252)
        refuses("command", "bob", "show", "a" * 248)
        refuses("command", "bob", "show", *["a"] * 254)
        refuses("service", "bob", "s" * 248)
        refuses("service", "bob", "s/" + "p" * 247)
        refuses("service", "bob", "s", "a" * 256)
        refuses("record", "start", "bob", "c" * 252)
        refuses("login", "u" * 256)
        refuses("login", "bob", "--pap", typed=b"p" * 256)
    long = 65_535
    one, two = seen(program, ("login", "bob"), authen(5), PASS, typed=b"p" * long)
    require(two.body[5:] == b"p" * long, f"it types {len(two.body) - 5} bytes")
    with made(program, wait) as asks:
        said = "tacd: the password is over 65535 bytes long\n"
        refuses("login", "bob", typed=b"p" * (long + 1), said=said)


def nowhere_to_print(program):
    with made(program, answering(AGREED)) as asks, open("/dev/full", "wb") as full:
        asking = asks.begin("shell", "bob", output=full)
        _, said = asking.communicate(b"", LONGEST_WAIT)
        asks.folder.cleanup()
        came = (said, asking.returncode)
        require(came == (b"tacd: the output could not be written\n", UNANSWERED), f"{came}")


def files_of_keys(program):
    """A key on the command line, the first line of a file, and none."""
    with made(program, answering(AGREED)) as asks, tempfile.TemporaryDirectory() as folder:
        path = os.path.join(folder, "key")

        def comes_to(option, value, printed, said, status):
            words = ["tacd", "ask", "--to", asks.to, option, value, "shell", "bob"]
            ran = subprocess.run(words, executable=program, capture_output=True, text=True)
            came = (ran.stdout, ran.stderr, ran.returncode)
            require(came == (printed, said, status), f"{option} {value}: {came}")

        comes_to("--key", KEY.decode(), "PASS_ADD\n", "", GRANTED)
        said = f"tacd: {path}: No such file or directory (os error 2)\n"
        comes_to("--key-file", path, "", said, UNANSWERED)
        pathlib.Path(path).write_bytes(KEY + b"\nother\n")
        os.chmod(path, 0o600)
        comes_to("--key-file", path, "PASS_ADD\n", "", GRANTED)
        os.chmod(path, 0o644)
        said = f"tacd: {path}: it has secrets, and any user of this machine can read it\n"
        comes_to("--key-file", path, "PASS_ADD\n", said, GRANTED)
        pathlib.Path(path).write_bytes(b"\n")
        os.chmod(path, 0o600)
        said = f"tacd: {path}: its first line is not 1 to 128 printable ASCII characters\n"
        comes_to("--key-file", path, "", said, MISTAKEN)
