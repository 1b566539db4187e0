"""The console of a server of a test: at standard input, by `tacd console`, and by operators at its socket."""

import os
import subprocess

from bench.lib import console

from .cases import LONGEST_WAIT, Wrong, require
from .servers import Server, starts


def types(server, line, *answers):
    """A line at the console is answered by these."""
    server.process.stdin.write(f"{line}\n".encode())
    server.process.stdin.flush()
    for wanted in answers:
        came = server.process.stdout.readline().decode().removesuffix("\n")
        require(came == wanted, f"after {line!r} came {came!r}, not {wanted!r}")


def typed(program, server, line, status=0):
    """What the console at its socket answers, by a client that ends so."""
    words = ["tacd", "console", "console", line]
    ran = subprocess.run(
        words, executable=program, cwd=server.folder.name, capture_output=True, timeout=LONGEST_WAIT
    )
    require((ran.stderr, ran.returncode) == (b"", status), f"{line} ends with {ran}")
    return ran.stdout.decode()


class Operator(console.Operator):
    """Somebody at the socket of a server."""

    def __init__(self, server, place="console"):
        super().__init__(os.path.join(server.folder.name, place), patience=LONGEST_WAIT)

    def heard(self):
        """The next answer, or None where the session has ended."""
        try:
            return super().heard()
        except TimeoutError:
            raise Wrong("an operator isn't answered") from None

    def type(self, line):
        self.send(f"{line}\n")


def told(operator, *turns):
    """Each line of an operator is answered so."""
    for line, wanted in turns:
        came = operator.ask(line)
        require(came == wanted, f"{line} is answered by {came!r}, not {wanted!r}")


def attended(program, *options, **more):
    """A server with its console at a socket, which is there."""
    server = Server(program, "--console", "console", *options, **more)
    starts(server)
    return server


def stops(server, operator, complained=""):
    """It ends once its operator is told so, and its socket is gone."""
    told(operator, ("quit", "ok"))
    server.ends(complained=complained, is_listening=False)
    require(not os.path.lexists(f"{server.folder.name}/console"), "the socket is still there")


def asks_all(program, server, lines):
    """What a client prints of these lines, by a pipe, and how it ends."""
    ran = subprocess.run(
        ["tacd", "console", "console"],
        executable=program,
        cwd=server.folder.name,
        input=lines,
        capture_output=True,
        text=True,
        timeout=LONGEST_WAIT,
    )
    return ran.stdout, ran.stderr, ran.returncode
