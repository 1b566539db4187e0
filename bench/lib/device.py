"""A device: a connection to a server, on which it asks."""

import socket

from .packet import HEADER_SIZE, SINGLE, VERSION, header_of, packet, padded


class Closed(ConnectionError):
    """The server closed the connection before all of a reply had come."""


def received(stream, count):
    """So many bytes, or fewer where the connection ends before."""
    data = b""
    while len(data) < count:
        piece = stream.recv(count - len(data))
        if not piece:
            break
        data += piece
    return data


class Device:
    """A connection to this port, which is kept open for many sessions, under a key."""

    def __init__(self, port, key, patience=30):
        self.stream = socket.create_connection(("127.0.0.1", port), patience)
        self.stream.setsockopt(socket.IPPROTO_TCP, socket.TCP_NODELAY, 1)
        self.key = key
        self.session = 0

    def __enter__(self):
        return self

    def __exit__(self, *_):
        self.close()

    def close(self):
        self.stream.close()

    def is_closed(self):
        """Whether the server closes it, without a byte more."""
        try:
            return self.stream.recv(1) == b""
        except ConnectionError:
            return True

    def send(self, kind, number, body, version=VERSION, key=None):
        """The packet of this number of the present session."""
        key = self.key if key is None else key
        self.stream.sendall(packet(kind, number, self.session, body, key, SINGLE, version))

    def reply(self):
        """The body of the next reply."""
        header = self.have(HEADER_SIZE)
        return padded(header, self.have(header_of(header).length), self.key)

    def have(self, count):
        try:
            data = received(self.stream, count)
        except ConnectionError:
            data = b""
        if len(data) < count:
            raise Closed
        return data

    def ask(self, kind, body, version=VERSION):
        """The body of the reply to the first packet of a new session."""
        self.session += 1
        self.send(kind, 1, body, version)
        return self.reply()
