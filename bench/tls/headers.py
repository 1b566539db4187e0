"""PROXY headers ("The PROXY protocol, versions 1 & 2", section 2), right and wrong ones."""

import ipaddress
import struct

SIGNATURE = b"\r\n\r\n\0\r\nQUIT\n"
LOCAL, PROXY = 0x20, 0x21
UNSPEC, TCP4, TCP6, UDP4, UNIX = 0x00, 0x11, 0x21, 0x12, 0x31
NOOP, SSL, VERSION, NAME = 0x04, 0x20, 0x21, 0x22
# The client used TLS, and showed a certificate on this connection.
USED, SHOWN = 0x01, 0x02
PORT = 50_000
# How long a header may be.
LONGEST, LONGEST_LINE = 536, 107


def line(source, family="TCP4", target="127.0.0.1", ports=f"{PORT} 300"):
    return f"PROXY {family} {source} {target} {ports}\r\n".encode()


def vector(kind, value):
    return struct.pack("!BH", kind, len(value)) + value


def certificate(name, client=USED | SHOWN, verify=0):
    """What tells the common name of a certificate."""
    inner = vector(VERSION, b"TLSv1.3") + (b"" if name is None else vector(NAME, name))
    return vector(SSL, struct.pack("!BI", client, verify) + inner)


def addresses(source, target=None):
    source = ipaddress.ip_address(source)
    target = ipaddress.ip_address(target or ("127.0.0.1" if source.version == 4 else "::1"))
    return source.packed + target.packed + struct.pack("!HH", PORT, 300)


def raw(command, kind, rest, size=None):
    """One with these bytes behind the first sixteen, which say their number or another."""
    size = len(rest) if size is None else size
    return SIGNATURE + struct.pack("!BBH", command, kind, size) + rest


def binary(source, rest=b"", size=None):
    kind = TCP4 if ipaddress.ip_address(source).version == 4 else TCP6
    return raw(PROXY, kind, addresses(source) + rest, size)


def of_length(source, length, rest=b""):
    """One of so many bytes in all."""
    header = binary(source, rest)
    return binary(source, rest + vector(NOOP, bytes(length - len(header) - 3)))
