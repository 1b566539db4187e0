"""Headers, pads and bodies (RFC 8907, sections 4 to 7; docs/DEFINITIONS.md, "The wire")."""

import hashlib
import struct
from typing import NamedTuple, Optional

HEADER_SIZE = 12
LONGEST_BODY = 131_075

AUTHENTICATION, AUTHORISATION, ACCOUNTING = 1, 2, 3
UNENCRYPTED, SINGLE_CONNECTION = 0x01, 0x04


class Header(NamedTuple):
    version: int
    kind: int
    seq_no: int
    flags: int
    session_id: int
    length: int

    def to_bytes(self):
        return struct.pack("!BBBBII", *self)

    def minor_version(self):
        return self.version & 0x0F

    def is_refused(self):
        return (
            self.version >> 4 != 0xC
            or self.minor_version() > 1
            or self.flags & UNENCRYPTED != 0
            or self.length > LONGEST_BODY
        )


def header_of(data):
    return Header(*struct.unpack("!BBBBII", data))


def padded(header, key, body):
    """The body XOR its pad, by as much of the pad as the body is long; twice gives it back."""
    seed = struct.pack("!I", header.session_id) + key + bytes([header.version, header.seq_no])
    pad = digest = b""
    while len(pad) < len(body):
        digest = hashlib.md5(seed + digest).digest()
        pad += digest
    return bytes(byte ^ mask for byte, mask in zip(body, pad))


def cut(data, lengths):
    """The fields of these lengths, or None where they aren't the whole of the data."""
    if sum(lengths) != len(data):
        return None
    fields = []
    for length in lengths:
        fields.append(data[:length])
        data = data[length:]
    return fields


class Start(NamedTuple):
    action: int
    privilege: int
    authen_type: int
    service: int
    user: bytes
    port: bytes
    address: bytes
    data: bytes


def start_of(body) -> Optional[Start]:
    if len(body) < 8:
        return None
    fields = cut(body[8:], body[4:8])
    if fields is None:
        return None
    return Start(*body[:4], *fields)


class Continue(NamedTuple):
    message: bytes
    aborts: bool


def continue_of(body) -> Optional[Continue]:
    if len(body) < 5:
        return None
    message_length, data_length, flags = struct.unpack("!HHB", body[:5])
    fields = cut(body[5:], [message_length, data_length])
    if fields is None:
        return None
    return Continue(fields[0], flags & 0x01 != 0)


class Request(NamedTuple):
    """What is read of an authorisation request, and of an accounting request behind its flags."""

    privilege: int
    service: int
    user: bytes
    port: bytes
    address: bytes
    arguments: list


def request_of(body) -> Optional[Request]:
    if len(body) < 8 or len(body) < 8 + body[7]:
        return None
    fixed = 8 + body[7]
    fields = cut(body[fixed:], body[4:7] + body[8:fixed])
    if fields is None:
        return None
    return Request(body[1], body[3], *fields[:3], fields[3:])


def authentication_reply(status, text="", hidden=False):
    return struct.pack("!BBHH", status, 1 if hidden else 0, len(text), 0) + text.encode()


def authorisation_reply(status, text="", arguments=()):
    lengths = bytes(len(argument) for argument in arguments)
    fixed = struct.pack("!BBHH", status, len(arguments), len(text), 0)
    return fixed + lengths + text.encode() + "".join(arguments).encode()


def authorisation_text(reply):
    """The reply's text, which stands between the lengths of its arguments and these."""
    begin = 6 + reply[1]
    return reply[begin : begin + int.from_bytes(reply[2:4], "big")].decode()


def authorisation_arguments(reply):
    """The reply's arguments, which stand at its end."""
    begin = 6 + reply[1]
    return cut(reply[begin + int.from_bytes(reply[2:4], "big") :], reply[6:begin])


def accounting_reply(status, text=""):
    return struct.pack("!HHB", len(text), 0, status) + text.encode()
