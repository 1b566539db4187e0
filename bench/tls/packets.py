"""Packets as devices send them (RFC 8907), under a key or in clear, and what comes back."""

from typing import NamedTuple

from lib import packet as packets
from lib.device import received
from lib.packet import (
    ACCOUNT, ASCII, CHAP, CLEAR, COMMAND, HEADER_SIZE, LOGIN, PAP, VERSION, WHOLE_LOGIN, Header,
    answer, header_of, padded, proof,
)

CLOSED, KEPT = "closed", "kept"
# For how long a connection that isn't closed is watched.
WATCHED = 0.5
SOURCE = b"198.51.100.7"

POLICY = """policy 3
group ops
priv 15
service shell shell:roles*"network-operator vdc-admin"
service junos-exec local-user-name=ops
service junos-exec allow-commands=(show|ping) .*
permit show .*
deny reload
permit ()
user bob in ops
login blue-lake
enable high-lake
"""


class Clear:
    """Bodies as they are, inside TLS (RFC 9887)."""

    FLAG = CLEAR

    def carry(self, header, body):
        return body


class Padded:
    """Bodies under the pad of a key."""

    FLAG = 0

    def __init__(self, key):
        self.key = key.encode()

    def carry(self, header, body):
        return padded(header.to_bytes(), body, self.key)


class Asked(NamedTuple):
    """A session: the version and the type of its packets, their bodies, and whether the last of
    them has a reply."""

    version: int
    kind: int
    bodies: list
    first: int = 1
    is_answered: bool = True


# ---- bodies


def start(kind, user=b"bob", data=b"", service=1):
    return packets.start(kind, user, data, source=SOURCE, service=service)


def request(*arguments):
    return packets.request(b"bob", [it.encode() for it in arguments], source=SOURCE)


def command(line):
    return packets.request(b"bob", packets.command(line), source=SOURCE)


def login(kind, data, **more):
    return Asked(WHOLE_LOGIN, LOGIN, [start(kind, data=data, **more)])


def ascii_login(*answers):
    return Asked(VERSION, LOGIN, [start(ASCII, user=b""), *map(answer, answers)])


def authorisation(body):
    return Asked(VERSION, COMMAND, [body])


def record(flags, *arguments):
    return Asked(VERSION, ACCOUNT, [bytes([flags]) + request("task_id=7", *arguments)])


SHOW = authorisation(command("show version"))
PERMITTED = "010000000000"
BAD_BODY = {
    LOGIN: "070000080000" + b"bad body".hex(),
    COMMAND: "110000080000" + b"bad body".hex(),
    ACCOUNT: "0008000002" + b"bad body".hex(),
}

# All kinds of sessions, with the line of the log's type and status for each, or why it is refused.
SESSIONS = {
    "a login by questions": (ascii_login(b"bob", b"blue-lake"), "login PASS"),
    "a wrong one by questions": (ascii_login(b"bob", b"red-lake"), "login FAIL"),
    "a login by PAP": (login(PAP, b"blue-lake"), "login PASS"),
    "a wrong one by PAP": (login(PAP, b"red-lake"), "login FAIL"),
    "a login by CHAP": (login(CHAP, proof(b"blue-lake")), "login PASS"),
    "an enable": (login(PAP, b"high-lake", service=2), "login PASS"),
    "a login of no kind": (login(9, b"blue-lake"), "login ERROR"),
    "a command that is permitted": (SHOW, "command PASS_ADD"),
    "one that is denied": (authorisation(command("reload")), "command FAIL"),
    "a shell": (authorisation(request("service=shell", "cmd=")), "command PASS_ADD"),
    "a service with attributes": (authorisation(request("service=junos-exec")), "command PASS_ADD"),
    "a service that nobody has": (authorisation(request("service=x")), "command FAIL"),
    "a start": (record(2, "service=shell"), "account SUCCESS"),
    "a stop": (record(4, "service=shell", "cmd=show", "elapsed_time=12"), "account SUCCESS"),
    "a record of no kind": (record(0), "account ERROR"),
    "a body that is cut off": (Asked(VERSION, ACCOUNT, [b"\2\6\1"]), "bad body"),
    "a type that isn't served": (Asked(VERSION, 9, [b"body"]), "unserved type"),
    "a login that is given up": (
        Asked(VERSION, LOGIN, [start(ASCII), answer(b"", aborts=True)], is_answered=False),
        "aborted",
    ),
    "a packet out of turn": (SHOW._replace(first=3), "out of turn"),
    "a version of its own": (SHOW._replace(version=0xD0), "bad header"),
}


# ---- what comes back


class Reply(NamedTuple):
    header: Header
    body: bytes


def reply(stream, door):
    """The next reply in clear, or what came in its place."""
    try:
        data = received(stream, HEADER_SIZE)
        if len(data) < HEADER_SIZE:
            return CLOSED if data == b"" else f"cut off: {data.hex()}"
        header = header_of(data)
        return Reply(header, door.carry(header, received(stream, header.length)))
    except ConnectionError:
        return CLOSED
    except TimeoutError:
        return "nothing comes"


def part_of(came, part):
    """A part of a reply, or what came in its place."""
    return part(came) if isinstance(came, Reply) else came


def packet(door, asked, session, number=0, flags=0):
    """The packet of this number of a session."""
    body = asked.bodies[number]
    at = asked.first + 2 * number
    header = Header(asked.version, asked.kind, at, flags | door.FLAG, session, len(body))
    return header.to_bytes() + door.carry(header, body)


def replies(stream, door, asked, session, flags=0):
    """The replies to all packets of a session, each as it came, up to one that isn't there."""
    came, last = [], len(asked.bodies) - 1
    for number in range(len(asked.bodies)):
        stream.sendall(packet(door, asked, session, number, flags))
        if number < last or asked.is_answered:
            came.append(reply(stream, door))
            if not isinstance(came[-1], Reply):
                break
    return came


def ends(stream):
    """Whether nothing more comes on a connection, and it is closed."""
    stream.settimeout(WATCHED)
    try:
        data = stream.recv(1)
    except TimeoutError:
        return KEPT
    except ConnectionError:
        return CLOSED
    return f"more comes: {data.hex()}" if data else CLOSED


def is_permitted(stream, door=Clear(), session=1, flags=0):
    """Whether a command line is asked about on this connection, and permitted."""
    try:
        came = replies(stream, door, SHOW, session, flags)[0]
    except (ConnectionError, TimeoutError):
        return False
    return part_of(came, lambda it: it.body.hex()) == PERMITTED
