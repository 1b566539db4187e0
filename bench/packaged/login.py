#!/usr/bin/env python3
"""Prints the status of the reply to a login of bob by PAP, as a device sends it.

    login.py PORT PASSWORD      under the key tundra, at this machine's port
    login.py SOCKET PASSWORD    in clear, as a proxy hands it on at a Unix socket
"""

import pathlib
import socket
import sys

sys.path.append(str(pathlib.Path(__file__).resolve().parents[1]))

from lib.device import Device, received  # noqa: E402
from lib.packet import CLEAR, HEADER_SIZE, LOGIN, PAP, WHOLE_LOGIN, Header, start  # noqa: E402

HEADER = b"PROXY TCP4 192.0.2.7 192.0.2.1 50000 300\r\n"


def by_proxy(place, body):
    """The body of the reply in clear."""
    header = Header(WHOLE_LOGIN, LOGIN, 1, CLEAR, 7, len(body))
    with socket.socket(socket.AF_UNIX) as stream:
        stream.settimeout(10)
        stream.connect(place)
        stream.sendall(HEADER + header.to_bytes() + body)
        return received(stream, 1 << 16)[HEADER_SIZE:]


def main():
    place, password = sys.argv[1], sys.argv[2].encode()
    body = start(PAP, b"bob", password)
    if "/" in place:
        reply = by_proxy(place, body)
    else:
        with Device(int(place), b"tundra", 10) as device:
            reply = device.ask(LOGIN, body, WHOLE_LOGIN)
    print(reply[0])


main()
