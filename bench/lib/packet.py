"""Packets as devices send them (RFC 8907, sections 4 to 7)."""

import hashlib
import struct
from typing import NamedTuple

HEADER_SIZE = 12
LONGEST_BODY = 131_075
# The versions of most packets, and of a login whose START has all of it.
VERSION, WHOLE_LOGIN = 0xC0, 0xC1
LOGIN, COMMAND, ACCOUNT = 1, 2, 3
ASCII, PAP, CHAP = 1, 2, 3
CLEAR, SINGLE = 0x01, 0x04
PASS, FAIL, GET_USER, GET_PASSWORD, ERROR = 1, 2, 4, 5, 7
PASS_ADD, DENIED = 1, 16
START, STOP, WATCHDOG, UPDATE = 2, 4, 8, 10


class Header(NamedTuple):
    version: int
    kind: int
    number: int
    flags: int
    session: int
    length: int

    def to_bytes(self):
        return struct.pack("!BBBBII", *self)


def header_of(data):
    return Header(*struct.unpack("!BBBBII", data))


def padded(header, body, key):
    """The body with the pad of these 12 bytes of a header put on, or taken off (section 4.5)."""
    seed = header[4:8] + key + header[:1] + header[2:3]
    digests, digest, size = [], b"", len(body)
    for _ in range(0, size, 16):
        digest = hashlib.md5(seed + digest).digest()
        digests.append(digest)
    pad = b"".join(digests)[:size]
    return (int.from_bytes(body, "big") ^ int.from_bytes(pad, "big")).to_bytes(size, "big")


def packet(kind, number, session, body, key, flags=SINGLE, version=VERSION):
    """A whole packet, under this key."""
    header = Header(version, kind, number, flags, session, len(body)).to_bytes()
    return header + padded(header, body, key)


# ---- bodies


def sized(*fields):
    """The lengths of these fields, a byte each, and the fields."""
    return bytes(map(len, fields)), b"".join(fields)


def start(kind, user, data=b"", port=b"tty0", source=b"", service=1):
    """A START of a login of this kind (section 5.1)."""
    lengths, fields = sized(user, port, source, data)
    return bytes([1, 1, kind, service]) + lengths + fields


def answer(text, data=b"", aborts=False):
    """A CONTINUE, with the name or the password that was asked for (section 5.3)."""
    return struct.pack("!HHB", len(text), len(data), aborts) + text + data


def request(user, arguments, port=b"tty0", source=b""):
    """An authorisation request (section 6.1)."""
    lengths, fields = sized(user, port, source)
    sizes, texts = sized(*arguments)
    return bytes([6, 1, 1, 1]) + lengths + bytes([len(arguments)]) + sizes + fields + texts


def record(flags, user, arguments, port=b"tty0", source=b""):
    """An accounting request (section 7.1)."""
    return bytes([flags]) + request(user, arguments, port, source)


def command(line):
    """The arguments by which a device asks about a command line."""
    word, *words = line.encode().split(b" ")
    return [b"service=shell", b"cmd=" + word, *(b"cmd-arg=" + word for word in words)]


def proof(secret, number=7, challenge=b"challenge of sixteen"):
    """What a login by CHAP has for data: number, challenge and response (section 5.4.2.3)."""
    head = bytes([number])
    return head + challenge + hashlib.md5(head + secret + challenge).digest()
