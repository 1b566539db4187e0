"""What `tacd replay` prints of a script, how it ends (docs/SCRIPT.md), and what `--log` writes."""

from . import console, wire
from .auditing import Log
from .conversations import Connection
from .decisions import first_too_large
from .desk import Desk
from .policy import BadPolicy, read_policy
from .texts import bytes_of, is_secret, lines_of, number_of, text_of

DONE, FAULT = 0, 1
HIGHEST_CONNECTION = 65_535
HEX_DIGITS = "0123456789abcdefABCDEF"


class Fault(Exception):
    """A fault, as it is printed behind the word."""


def replay(script):
    """The output, the status, and the lines of the log."""
    output = []
    log = []
    status = DONE
    try:
        play(lines_of(text_of(script)), output, log)
    except Fault as fault:
        output.append(f"fault {fault}\n")
        status = FAULT
    return bytes_of("".join(output)), status, "".join(log).encode()


def play(lines, output, log):
    if not lines or not lines[0].startswith("key ") or not is_secret(lines[0][4:]):
        raise Fault("line 1 BadKey")
    if "run" not in lines[1:]:
        raise Fault(f"line {len(lines) + 1} NoRun")
    end = lines.index("run", 1)
    try:
        policy = read_policy(lines[1:end], first_line=2)
    except BadPolicy as fault:
        raise Fault(f"line {fault.line} {fault.refused}") from None
    large = first_too_large(policy)
    if large is not None:
        raise Fault(f"TooManyStates {large.label()}")
    server = Server(bytes_of(lines[0][4:]), Desk(policy), log)
    for number, line in enumerate(lines[end + 1 :], start=end + 2):
        try:
            output.append(server.event(line))
        except Fault as fault:
            raise Fault(f"line {number} {fault}") from None


class Server:
    def __init__(self, key, desk, log):
        self.key = key
        self.desk = desk
        self.log = log
        self.connections = {}

    def event(self, line):
        """What the event line prints."""
        word, blank, rest = line.partition(" ")
        if blank and word in EVENTS:
            return EVENTS[word](self, rest)
        raise Fault("BadCommand")

    def open(self, rest):
        number = connection_of(rest)
        if number in self.connections:
            raise Fault("AlreadyOpen")
        self.connections[number] = Connection(self.key, self.desk, Log(number, self.log))
        return ""

    def lost(self, rest):
        self.connections.pop(connection_of(rest), None)
        return ""

    def pieces(self, rest):
        if not number_of(rest, 4):
            raise Fault("BadCommand")
        return ""

    def console(self, rest):
        return console.answer(self.desk, rest)

    def bytes(self, rest):
        match rest.split(" "):
            case [number, digits]:
                return self.hand_in(connection_of(number), data_of(digits))
        raise Fault("BadCommand")

    def packet(self, rest):
        number, *packets = rest.split(" ")
        number = connection_of(number)
        if not packets:
            raise Fault("BadCommand")
        return self.hand_in(number, b"".join([self.packed(digits) for digits in packets]))

    def packed(self, digits):
        data = data_of(digits)
        if len(data) < wire.HEADER_SIZE:
            raise Fault("BadCommand")
        header, body = data[: wire.HEADER_SIZE], data[wire.HEADER_SIZE :]
        return header + wire.padded(wire.header_of(header), self.key, body)

    def hand_in(self, number, data):
        connection = self.connections.get(number)
        if connection is None:
            raise Fault("NoConnection")
        lines = [
            f"reply {number} {header.to_bytes().hex()}{body.hex()}\n"
            for header, body in connection.take(data)
        ]
        if connection.closed:
            del self.connections[number]
            lines.append(f"closed {number}\n")
        return "".join(lines)


EVENTS = {
    "open": Server.open,
    "lost": Server.lost,
    "pieces": Server.pieces,
    "console": Server.console,
    "bytes": Server.bytes,
    "packet": Server.packet,
}


def connection_of(text):
    number = number_of(text, 5)
    if number is None or number > HIGHEST_CONNECTION:
        raise Fault("BadCommand")
    return number


def data_of(text):
    if text == "" or len(text) % 2 or any(digit not in HEX_DIGITS for digit in text):
        raise Fault("BadCommand")
    return bytes.fromhex(text)
