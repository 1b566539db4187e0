"""Proxies of TLS that call the socket of a server: the header that tells who called, and then packets in
clear (RFC 9887)."""

import contextlib
import os
import socket
import struct
import time

from .cases import LONGEST_WAIT, require
from .notation import spelled

# TAC_PLUS_UNENCRYPTED_FLAG alone, and with TAC_PLUS_SINGLE_CONNECT_FLAG.
IN_CLEAR, KEPT_IN_CLEAR = "01", "05"
SIGNATURE = bytes.fromhex("0d0a0d0a000d0a515549540a")
TLS, NAME = 0x20, 0x22
# PP2_CLIENT_SSL, PP2_CLIENT_CERT_CONN and PP2_CLIENT_CERT_SESS, and all of them.
BY_TLS, SHOWN, SHOWN_BEFORE, VERIFIED = 1, 2, 4, 7


def line(address, family=4):
    """A header of version 1."""
    return f"PROXY TCP{family} {address} 198.51.100.1 40000 300\r\n".encode()


def vector(kind, value):
    return struct.pack(">BH", kind, len(value)) + value


def header(address, name=None, command=0x21, client=VERIFIED, verify=0, more=b""):
    """A header of version 2, with the name of a certificate if one is said, and with nothing of TLS
    where the client has no flags."""
    family = socket.AF_INET6 if ":" in address else socket.AF_INET
    told = socket.inet_pton(family, address) * 2 + struct.pack(">HH", 40000, 300)
    if client is not None:
        inner = b"" if name is None else vector(NAME, name)
        told += vector(TLS, struct.pack(">BI", client, verify) + inner)
    told += more
    kind = 0x21 if family == socket.AF_INET6 else 0x11
    return SIGNATURE + struct.pack(">BBH", command, kind, len(told)) + told


def clear(text, flag=IN_CLEAR):
    """A packet of the notation whose body is as it stands."""
    return bytes.fromhex(spelled("packet " + text.format(flag=flag)).removeprefix("packet "))


def flagged(text):
    """The notation of a packet with the place for its flags."""
    return f"{text[:6]}{{flag}}{text[8:]}"


@contextlib.contextmanager
def called(server, head=b""):
    """A connection of a proxy that has sent this first."""
    path = os.path.join(server.folder.name, "proxy")
    until = time.monotonic() + LONGEST_WAIT
    with socket.socket(socket.AF_UNIX) as device:
        device.settimeout(LONGEST_WAIT)
        while device.connect_ex(path):
            require(time.monotonic() < until, "nobody listens")
            time.sleep(0.005)
        with contextlib.suppress(ConnectionError):
            device.sendall(head)
        yield device
