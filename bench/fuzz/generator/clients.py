"""What a device sends: logins, requests and records, with a thing wrong now and then."""

import hashlib
from typing import NamedTuple

from reference.decisions import chain_of
from reference.hashes import Hash
from reference.texts import bytes_of, is_name
from reference.wire import ACCOUNTING, AUTHENTICATION, AUTHORISATION, Header, padded

from .patterns import line
from .policies import PASSWORDS, SECRETS, SERVICES, USERS

ASCII, PAP, CHAP = 1, 2, 3
ENABLE = 2


class Packet(NamedTuple):
    header: Header
    body: bytes

    def clear(self):
        return self.header.to_bytes() + self.body

    def sent(self, key):
        return self.header.to_bytes() + padded(self.header, key, self.body)


class Login(NamedTuple):
    """An ASCII login that is under way: the next seq_no, the service, the user or None."""

    seq_no: int
    service: int
    user: str


class Client:
    """The device at one end of a connection.

    It knows what it was asked by what it sent, as long as nothing was wrong.
    """

    def __init__(self, choices, world):
        self.choices = choices
        self.world = world
        self.flags = 0x04 if choices.chance(0.55) else 0
        self.logins = {}
        self.next_id = choices.choice([1, 2, 0x01020304, 0xFFFFFFFE])
        self.prefers = choices.choice(["login", "line", "line", "record", None, None])
        self.many_logins = self.flags and choices.chance(0.06)

    def packet(self):
        choices = self.choices
        goes_on = 0.05 if self.many_logins else 0.75
        if self.logins and choices.chance(goes_on if self.flags else 0.93):
            packet = self.go_on()
        else:
            packet = self.begin()
        if self.many_logins:
            return packet
        if choices.chance(0.04):
            packet = self.spoiled_header(packet)
        elif choices.chance(0.05):
            packet = self.spoiled_body(packet)
        return packet

    def session_id(self):
        if self.many_logins:
            self.next_id = (self.next_id + 1) % 2**32
            return self.next_id
        if self.logins and self.choices.chance(0.05):
            return self.choices.choice(list(self.logins))
        if self.choices.chance(0.85):
            self.next_id = (self.next_id + 1) % 2**32
        return self.next_id

    def header(self, kind, seq_no, session_id, body, minor=None):
        choices = self.choices
        if minor is None:
            minor = choices.randrange(2)
        flags = self.flags if seq_no == 1 and choices.chance(0.9) else choices.choice([0, 4])
        if choices.chance(0.05):
            flags |= choices.choice([0x02, 0x08, 0xF0])
        return Header(0xC0 | minor, kind, seq_no, flags, session_id, len(body))

    def begin(self):
        choices = self.choices
        kind = self.prefers if self.prefers and choices.chance(0.7) else None
        match "login" if self.many_logins else kind or choices.choice(["login", "line", "record"]):
            case "login":
                return self.start()
            case "line":
                user = self.world.user()
                body = request(choices, user, asked(choices, self.world, user))
                return self.single(AUTHORISATION, body)
        body = bytes([accounting_flags(choices)])
        body += request(choices, self.world.user(), record_arguments(choices, self.world))
        return self.single(ACCOUNTING, body)

    def single(self, kind, body):
        return Packet(self.header(kind, 1, self.session_id(), body), body)

    def start(self):
        choices = self.choices
        session_id = self.session_id()
        kind = choices.kind({ASCII: 200 if self.many_logins else 45, PAP: 25, CHAP: 25})
        action = 1
        if choices.chance(0.03):
            action = choices.choice([0, 2, 3, 4, 255])
        if choices.chance(0.03):
            kind = choices.choice([0, 4, 5, 6, 255])
        service = choices.choice([ENABLE, ENABLE, 1, 1, 0, 3, 9, 255])
        user = self.world.user()
        if choices.chance(0.3):
            user = ""
        data = self.login_data(kind, user, service)
        body = fields(
            [action, choices.choice([0, 1, 15]), kind, service],
            [bytes_of(user), *terminal(choices), data],
        )
        minor = 0 if choices.chance(0.9 if kind == ASCII else 0.05) else 1
        header = self.header(AUTHENTICATION, 1, session_id, body, minor)
        if action == 1 and kind == ASCII:
            self.logins[session_id] = Login(3, service, user or None)
        return Packet(header, body)

    def login_data(self, kind, user, service):
        choices = self.choices
        if kind == PAP:
            return bytes_of(self.password(user, service))
        if kind != CHAP:
            return choices.choice([b"", b"x", b"secret"])
        if choices.chance(0.15):
            return bytes(choices.randrange(256) for _ in range(choices.randrange(19)))
        identifier = bytes([choices.randrange(256)])
        challenge = bytes(choices.randrange(256) for _ in range(choices.count(0, 20)))
        secret = bytes_of(self.password(user, service))
        response = hashlib.md5(identifier + secret + challenge).digest()
        if choices.chance(0.1):
            place = choices.randrange(16)
            response = response[:place] + bytes([response[place] ^ 1]) + response[place + 1 :]
        return identifier + challenge + response

    def password(self, user, service):
        """Mostly the right one."""
        choices = self.choices
        right = self.world.secret(user, service == ENABLE)
        if right is None or choices.chance(0.15):
            right = self.world.secret(user, service != ENABLE) or choices.choice(SECRETS)
        if choices.chance(0.1):
            return choices.spoiled(right)
        return "" if choices.chance(0.02) else right

    def go_on(self):
        choices = self.choices
        session_id = choices.choice(list(self.logins))
        login = self.logins.pop(session_id)
        flags = 0
        if choices.chance(0.08):
            flags = choices.choice([0x01, 0x03, 0xFF, 0x02, 0x80])
        if login.user is None:
            typed = "" if choices.chance(0.06) else self.world.user()
            if typed and not flags & 1:
                self.logins[session_id] = Login(login.seq_no + 2, login.service, typed)
        else:
            typed = self.password(login.user, login.service)
        data = choices.choice([b"", b"", b"data"])
        sizes = len(typed).to_bytes(2, "big") + len(data).to_bytes(2, "big")
        body = sizes + bytes([flags]) + bytes_of(typed) + data
        return Packet(self.header(AUTHENTICATION, login.seq_no, session_id, body, 0), body)

    def spoiled_header(self, packet):
        choices, header = self.choices, packet.header
        other = choices.choice([0, 1, 2, 3, 4, 5, 255, choices.randrange(256)])
        parts = {"version": 2, "kind": 2, "seq_no": 3, "flags": 2, "id": 3, "length": 2}
        match choices.kind(parts):
            case "version":
                version = choices.choice([0xC2, 0xD0, 0xB0, 0xCF, 0x00, header.version ^ 1])
                header = header._replace(version=version)
            case "kind":
                header = header._replace(kind=other)
            case "seq_no":
                near = choices.choice([header.seq_no + 1, header.seq_no + 2, header.seq_no - 1])
                seq_no = choices.choice([near, 0, 1, 3, 254, 255])
                header = header._replace(seq_no=seq_no % 256)
            case "flags":
                header = header._replace(flags=choices.choice([0x01, 0x05, 0xFE, 0xFF, 0x04]))
            case "id":
                session_id = choices.choice([*self.logins, 0, 7])
                header = header._replace(session_id=session_id)
            case "length":
                near = max(header.length + choices.choice([-1, 1, 12]), 0)
                length = choices.choice([near, near, 0, 131_075, 131_076, 2**32 - 1])
                header = header._replace(length=length)
        return Packet(header, packet.body)

    def spoiled_body(self, packet):
        choices, body = self.choices, packet.body
        at = choices.randrange(min(len(body), 12) + 1) if body else 0
        match choices.randrange(5):
            case 0:
                body = body[: choices.randrange(len(body) + 1)]
            case 1:
                body += bytes(choices.randrange(256) for _ in range(choices.count(1, 3)))
            case 2:
                body = body[:at] + body[at + 1 :]
            case 3:
                body = body[:at] + bytes([choices.randrange(256)]) + body[at + 1 :]
            case _ if at < len(body):
                near = (body[at] + choices.choice([-1, 1])) % 256
                body = body[:at] + bytes([near]) + body[at + 1 :]
        return Packet(packet.header._replace(length=len(body)), body)


def fields(fixed, parts):
    """The fixed bytes, a byte of length for each part, and the parts."""
    parts = [part[:255] for part in parts]
    return bytes(fixed) + bytes(len(part) for part in parts) + b"".join(parts)


def terminal(choices):
    """Port and remote address, which nothing is asked of; the log escapes what they have."""
    port = choices.choice([b"", b"tty0", b"p", b'"\\\n\x1f\x7f\x80\x9f\xa0\xff'])
    return [port, choices.choice([b"", b"10.0.0.1", b"\x00" * 40])]


def request(choices, user, arguments):
    names = [bytes_of(user)[:255], *terminal(choices)]
    arguments = [bytes_of(argument)[:255] for argument in arguments[:255]]
    sizes = [len(name) for name in names] + [len(arguments)] + [len(it) for it in arguments]
    fixed = [choices.choice([0, 6, 1]), choices.choice([0, 1, 15]), 1, choices.choice([1, 1, 2])]
    return bytes(fixed + sizes) + b"".join(names + arguments)


def asked(choices, world, user):
    """The arguments of a line or of a service; the latter often where the policy names some."""
    known = world.services(user)
    if not choices.chance(0.6 if known else 0.1):
        return arguments(choices, world)
    asks_known = known and choices.chance(0.85)
    return service_arguments(choices, choices.choice(known if asks_known else SERVICES))


def service_arguments(choices, service):
    """The arguments that ask for a service, or nearly do. Devices send others beside them."""
    name, _, protocol = (service, "", "") if choices.chance(0.08) else service.partition("/")
    found = [f"service={name}"] + [f"protocol={protocol}"] * (protocol != "")
    if name == "shell":
        found.append("cmd=")
    if choices.chance(0.1):
        found = [argument.replace("=", "*", 1) for argument in found]
    for _ in range(choices.choice([0, 0, 0, 1, 2])):
        found.insert(choices.randrange(len(found) + 1), argument_beside_a_service(choices))
    if choices.chance(0.05):
        del found[choices.randrange(len(found))]
    if choices.chance(0.1):
        choices.shuffle(found)
    return found


def argument_beside_a_service(choices):
    others = ["cisco-av-pair*", "shell:roles*", "addr=192.0.2.1", "cmd=", "cmd=show", "cmd-arg=x"]
    protocols = ["protocol=", "protocol*", "protocol=ip", "protocol=firewall", "protocol=y"]
    odd = ["protocol", "service=ppp", "service=x/y", "service=shell", "Protocol=ip", "=", "a=\xe9"]
    return choices.choice(choices.choice([others, protocols, odd]))


def arguments(choices, world):
    """The arguments that make a line, or nearly do."""
    command = "" if choices.chance(0.2) else line(choices, world.patterns())
    found = ["service=shell"] + command_arguments(choices, command)
    if choices.chance(0.2):
        found.insert(choices.randrange(len(found) + 1), odd_argument(choices))
    if choices.chance(0.05):
        del found[choices.randrange(len(found))]
    if choices.chance(0.1):
        choices.shuffle(found)
    return found


def command_arguments(choices, command):
    """The line cut at some of its blanks."""
    parts, present = [], ""
    for piece in command.split(" "):
        if present and choices.chance(0.8):
            parts.append(present)
            present = piece
        else:
            present = f"{present} {piece}" if present or parts else piece
    if present or not parts:
        parts.append(present)
    signs = ["*" if choices.chance(0.1) else "=" for _ in parts]
    names = ["cmd"] + ["cmd-arg"] * (len(parts) - 1)
    return [name + sign + part for name, sign, part in zip(names, signs, parts)]


def odd_argument(choices):
    return choices.choice(
        [
            "service=ppp",
            "service*shell",
            "service",
            "service=",
            "cmd",
            "cmd*x",
            "cmd=show",
            "cmd=a=b*c",
            "cmd-arg=<cr>",
            "cmd-arg*",
            "cmd-arg",
            "cmd-arg=\xe9",
            "cmd-arg=\x00",
            "cmd-arg=a\tb",
            "cmd =x",
            "Cmd=x",
            "priv-lvl=15",
            "protocol=ip",
            "=x",
            "*",
            "=",
            "",
            "noescape",
            "cmd-arg=" + "a" * 247,
        ]
    )


def accounting_flags(choices):
    flags = choices.choice([2, 2, 4, 4, 4, 8, 0x0A])
    if choices.chance(0.06):
        flags = choices.choice([0, 6, 0x0C, 0x0E, 1])
    return flags | (choices.choice([0x01, 0x10, 0xF1, 0xF0]) if choices.chance(0.1) else 0)


def record_arguments(choices, world):
    found = []
    if choices.chance(0.85):
        found.append("task_id" + choices.choice("==*") + choices.choice(["7", "7", "8", "", "a b"]))
    if choices.chance(0.5):
        found.append("elapsed_time" + choices.choice("==*") + elapsed(choices))
    if choices.chance(0.75):
        found += arguments(choices, world)
    if choices.chance(0.15):
        odd = ["task_id=9", "elapsed_time=5", "elapsed_time", "task_id", "task_id=%\xe9", "stop=1"]
        found.insert(choices.randrange(len(found) + 1), choices.choice(odd))
    if choices.chance(0.2):
        choices.shuffle(found)
    return found


def elapsed(choices):
    if choices.chance(0.7):
        return str(choices.randrange(100))
    near_the_end = ["4294967295", "4294967296", "0" * 30 + "7", "9" * 40]
    return choices.choice([*near_the_end, "0012", "", "-1", "1 ", "1a", "\xb2"])


class World:
    """What of the present policy whoever sends or types knows."""

    def __init__(self, choices, server):
        self.choices = choices
        self.server = server

    def subjects(self):
        return self.server.desk.policy

    def has_batch(self):
        return self.server.desk.batch is not None

    def user(self):
        """Mostly one that is there."""
        users = [subject.name for subject in self.subjects() if subject.kind == "user"]
        if users and self.choices.chance(0.9):
            return self.choices.choice(users)
        odd = ["absent", "", "n" * 33, "a b", "%", "\xe9\x00", "~" * 255, "Bob"]
        return self.choices.choice(USERS + odd)

    def secret(self, user, enable):
        secret = self.server.desk.secret_of(user, ENABLE if enable else 1)
        if isinstance(secret, Hash):
            known = PASSWORDS.get(str(secret), "secret")
            return str(secret) if self.choices.chance(0.05) else known
        return secret

    def services(self, user=None):
        """Those that the policy has lines about, as often as it has: along the chain of a user who
        is there, or all."""
        subject = self.server.desk.user(user)
        subjects = self.subjects() if subject is None else chain_of(self.subjects(), subject)
        return [line.service for subject in subjects for line in subject.services]

    def record_users(self):
        """The users of the records, as far as a tally of them can be asked for."""
        return [record.user for record in self.server.desk.records if is_name(record.user)]

    def patterns(self):
        return [rule.pattern for subject in self.subjects() for rule in subject.rules]
