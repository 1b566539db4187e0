"""The console of a server at its socket: by `tacd console`, and by an operator without it."""

import socket
import subprocess

from .metrics import numbers


def client(program, place, *words, given=None, patience=60):
    """How `tacd console` ended for these words, or for the lines that it was given."""
    stdin = {"stdin": subprocess.DEVNULL} if given is None else {"input": given}
    command = [program, "console", place, *words]
    return subprocess.run(command, **stdin, text=True, capture_output=True, timeout=patience)


class Operator:
    """Somebody at the socket at this place."""

    def __init__(self, place, name=None, patience=10):
        self.stream = socket.socket(socket.AF_UNIX)
        self.stream.settimeout(patience)
        self.stream.connect(place)
        self.held = b""
        self.first = self.heard()
        if name is not None:
            self.ask(f"operator {name}")

    def __enter__(self):
        return self

    def __exit__(self, *_):
        self.leave()

    def leave(self):
        self.stream.close()

    def send(self, text):
        self.stream.sendall(text.encode())

    def heard(self):
        """The next answer, or None where the session has ended."""
        while not (self.held.startswith(b"\n") or b"\n\n" in self.held):
            piece = self.stream.recv(1 << 16)
            if piece == b"":
                return None
            self.held += piece
        if self.held.startswith(b"\n"):
            self.held = self.held[1:]
            return ""
        answer, _, self.held = self.held.partition(b"\n\n")
        return answer.decode()

    def ask(self, line):
        self.send(f"{line}\n")
        return self.heard()

    def numbers(self):
        """What `status` tells of each name."""
        return numbers(self.ask("status"))
