"""Whole scripts of `tacd replay` and texts for `tacd check`."""

from typing import NamedTuple

from reference.decisions import first_too_large
from reference.desk import Desk
from reference.policy import BadPolicy, read_policy
from reference.script import Fault, Server
from reference.texts import bytes_of

from . import limits, policies
from .clients import Client, World
from .operators import Operator

KEYS = ["k", "tundra", " k ", "k" * 128]
NO_KEYS = ["", "k" * 129, "k\xe9", "k\r", "\t"]


class Case(NamedTuple):
    """What the program is run on: the command, and the text that it reads."""

    command: str
    text: bytes


def case(choices):
    kind = choices.kind(
        {"script": 780, "refused": 70, "head": 20, "spoiled": 20, "check": 95, "limit": 15}
    )
    match kind:
        case "check":
            return Case("check", check_text(choices))
        case "limit":
            return limit_case(choices)
        case "refused":
            policy = policies.refused(choices)
            return Case("replay", ended(choices, script(choices, policy)))
        case "head":
            return Case("replay", ended(choices, wrong_head(choices)))
    lines = script(choices, policies.policy(choices))
    if kind == "spoiled":
        for _ in range(choices.count(1, 3)):
            at = choices.randrange(len(lines))
            lines[at] = choices.spoiled(lines[at], " 0aF\t\r\xe9\n")
    return Case("replay", ended(choices, lines))


def ended(choices, lines):
    """Each line with its end, which the last may lack."""
    text = "".join(line + "\n" for line in lines)
    return bytes_of(text[:-1] if choices.chance(0.1) else text)


def check_text(choices):
    refused = choices.chance(0.4)
    return ended(choices, policies.refused(choices) if refused else policies.policy(choices))


def wrong_head(choices):
    """A script that ends before its events begin, by one fault or by several."""
    lines = script(choices, choices.choice([policies.policy, policies.refused])(choices))
    for _ in range(choices.count(1, 2)):
        match choices.randrange(4):
            case 0 if lines:
                lines[0] = choices.choice(["key", "Key k", "", "key\tk", "run", " key k"])
            case 1 if lines:
                lines[0] = f"key {choices.choice(NO_KEYS)}"
            case 2:
                odd = choices.choice(["run ", " run", "Run", "", "#run"])
                lines = [odd if line == "run" else line for line in lines]
            case _:
                lines = lines[: choices.randrange(len(lines) + 1)]
    return lines


def script(choices, policy):
    key = choices.choice(KEYS)
    lines = [f"key {key}", *policy, "run"]
    try:
        subjects = read_policy(policy)
    except BadPolicy:
        subjects = None
    if subjects is None or first_too_large(subjects) is not None:
        return lines + ["console policy"]
    return lines + Play(choices, key, subjects).events()


class Play:
    """The events of a script, drawn as it is played."""

    def __init__(self, choices, key, subjects):
        self.choices = choices
        self.server = Server(bytes_of(key), Desk(subjects), log=[])
        self.world = World(choices, self.server)
        self.operator = Operator(choices, self.world)
        numbers = choices.sample(["1", "2", "007", "65535", "0"], choices.count(0, 3))
        self.devices = [Device(choices, self.world, number) for number in numbers]
        self.typing = choices.choice([0.15, 0.4, 0.7]) if numbers else 1

    def events(self):
        lines = []
        for _ in range(self.choices.count(1, 30)):
            line = self.line()
            lines.append(line)
            try:
                self.server.event(line)
            except Fault:
                if self.choices.chance(0.5):
                    lines.append("console policy")
                return lines
        return lines + self.last_questions()

    def line(self):
        choices = self.choices
        if choices.chance(0.01):
            return odd_event(choices)
        if choices.chance(0.02):
            return f"pieces {choices.choice(['1', '2', '5', '11', '12', '13', '9999', '0001'])}"
        if choices.chance(self.typing):
            return f"console {self.operator.line()}"
        return choices.choice(self.devices).line()

    def last_questions(self):
        """What was done is often seen only by what is asked later."""
        lines = []
        if self.choices.chance(0.5):
            lines.append("console records")
        for subject in self.server.desk.policy:
            if self.choices.chance(0.3):
                lines.append(f"console tally {subject.label()}")
            if self.choices.chance(0.2):
                lines.append(f"console reach {subject.label()}")
        return lines


class Device:
    """A connection of a number, opened again where it was closed."""

    def __init__(self, choices, world, number):
        self.choices = choices
        self.world = world
        self.number = number
        self.client = None
        self.unsent = b""
        self.cuts = choices.chance(0.3)

    def line(self):
        choices, server = self.choices, self.world.server
        is_open = int(self.number) in server.connections
        if not is_open and choices.chance(0.99):
            self.client = Client(choices, self.world)
            self.unsent = b""
            return f"open {self.number}"
        if choices.chance(0.01):
            return f"{choices.choice(['lost', 'lost', 'lost', 'open'])} {self.number}"
        if self.client is None:
            self.client = Client(choices, self.world)
        if not self.unsent:
            most = 9 if self.client.many_logins else 3
            packets = [self.client.packet() for _ in range(choices.count(1, most))]
            if not self.cuts or choices.chance(0.2):
                words = [self.hex(packet.clear()) for packet in packets]
                return f"packet {self.number} {' '.join(words)}"
            self.unsent = b"".join(packet.sent(server.key) for packet in packets)
        piece, self.unsent = self.cut()
        return f"bytes {self.number} {self.hex(piece)}"

    def cut(self):
        """The unsent bytes, cut anywhere, often near the end of a header."""
        choices, size = self.choices, len(self.unsent)
        at = choices.choice([size, choices.randint(1, size), choices.choice([1, 11, 12, 13, 20])])
        return self.unsent[:at], self.unsent[at:]

    def hex(self, data):
        digits = data.hex()
        return digits.upper() if self.choices.chance(0.05) else digits


def odd_event(choices):
    header = "c00201000000000100000000"
    return choices.choice(
        ["", "#", " ", "run", "key k", "close 1", "console", "Console policy"]
        + ["open", "open ", "open 1 ", "open  3", "open 65536", "open 000001", "open x"]
        + ["lost", "lost 99999", "lost 60000", "lost 1 2", "pieces 0", "pieces 00001", "pieces"]
        + ["packet", "packet 1", "packet 1 ", "packet 1 c0", "packet 9 c0", f"packet 9 {header}"]
        + [f"packet 1  {header}", f"packet 1 {header} ", f"packet 9 {header} c0"]
        + [f"packet x {header}", f"packet 9 {header}0", f"open 1 {header}"]
        + ["bytes 1", "bytes 9 c0", "bytes 9 c", "bytes 1 c", "bytes 1 zz", "bytes 1 c0 c0"]
        + ["bytes 9 ", "bytes 9 c0 c0"]
    )


def limit_case(choices):
    policy = limits.policy(choices)
    if choices.chance(0.3):
        return Case("check", ended(choices, policy))
    lines = [f"key {KEYS[0]}", *policy, "run"]
    return Case("replay", ended(choices, lines + limits.events(choices)))
