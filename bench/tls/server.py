"""A server behind a proxy, its console and its log."""

import json
import re
import socket
import subprocess
import time

from lib import console, server as servers
from lib.judge import compare, settles
from lib.metrics import numbers
from packets import POLICY
from places import USER, as_user

KEY = "wintry-tundra-ridge-41"
PATIENCE = 10


class Server:
    """`tacd serve --proxy`, with its console at a socket and a log, as the server's user."""

    def __init__(self, program, places, devices, *options, has_port=True):
        self.program, self.places = program, places
        self.port = servers.free_port() if has_port else None
        self.options = options
        places.write("devices", devices)
        places.write("policy", POLICY)
        self.running = None

    def start(self):
        places = self.places
        words = ["--proxy", places.socket, "--devices", places.own / "devices",
                 "--console", places.console, "--log", places.log, *self.options]
        self.running = servers.Server(
            self.program, *words, places.own / "policy", port=self.port,
            has_port=self.port is not None, cwd=places.own, stdin=subprocess.DEVNULL, **as_user(USER),
        ).started()

    def __enter__(self):
        self.start()
        return self

    def __exit__(self, *_):
        self.running.kill()

    def told(self, *line):
        """What the console answers to a line."""
        done = console.client(self.program, self.places.console, *line)
        return done.stdout or done.stderr

    def reload_devices(self, devices):
        self.places.write("devices", devices)
        answer = self.told("reload", "devices")
        compare("reload devices", answer.partition(":")[0], "devices ok")

    def quit(self):
        compare("quit", self.told("quit"), "ok\n")
        compare("the server's status", self.running.ended(PATIENCE).status, 0)

    def status(self):
        """The numbers of `status`, by their names."""
        return numbers(self.told("status"))

    def number(self, name):
        return self.status().get(f"tacd_{name}")

    def lines(self):
        """The lines of the log of devices."""
        lines = [json.loads(line) for line in self.places.log.read_text().splitlines() if line]
        return [line for line in lines if "device" in line]

    def connection(self, source="127.0.0.1"):
        """One at the port."""
        return socket.create_connection(("127.0.0.1", self.port), PATIENCE, (source, 0))


# Of these nothing is said here.
APART = re.compile(r"tacd_(info|uptime|memory|operators|records)|.*_ended_total")


class Numbers:
    """The numbers of `status` as they are to be, which grow by what is done."""

    def __init__(self, server):
        self.server = server
        self.wanted = self.found()

    def found(self):
        return {name: number for name, number in self.server.status().items()
                if not APART.match(name)}

    def add(self, name, more=1):
        self.wanted[f"tacd_{name}"] = self.wanted.get(f"tacd_{name}", 0) + more

    def served(self, more=1):
        self.add("connections_accepted_total", more)

    def refused(self, why, more=1):
        word = {"too many connections": "per_address"}.get(why, why.replace(" ", "_"))
        self.add(f'connections_refused_total{{why="{word}"}}', more)

    def told(self, said, more=1):
        """A line of the log of this type and status, or of this reason."""
        kind, blank, status = said.partition(" ")
        if blank and status.isupper():
            return self.add(f'requests_total{{type="{kind}",status="{status}"}}', more)
        word = {"bad body": "bad_body", "bad header": "bad_header",
                "unserved type": "unserved_type"}.get(said, "unanswered")
        self.add(f'requests_refused_total{{why="{word}"}}', more)

    def judge(self, what):
        found = settles(self.found, self.wanted)
        off = [f"{name} is {found.get(name)} and not {self.wanted.get(name)}"
               for name in {**self.wanted, **found} if found.get(name) != self.wanted.get(name)]
        compare(f"status, {what}", "; ".join(off) or "exact", "exact")
        self.wanted = found


def since(lines, count):
    """The lines of a log behind the first so many, once some are there."""
    end = time.monotonic() + 2
    while len(found := lines()[count:]) == 0 and time.monotonic() < end:
        time.sleep(0.02)
    return found
