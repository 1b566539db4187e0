"""The lines that `tacd replay --log` writes of packets (docs/AUDIT.md)."""

from . import wire
from .accounting import first_value, kind_of, line_of, pairs_of
from .texts import text_of

BAD_BODY, BAD_HEADER, UNSERVED = "bad body", "bad header", "unserved type"
OUT_OF_TURN, ABORTED = "out of turn", "aborted"

LOGIN_STATUS = {1: "PASS", 2: "FAIL", 7: "ERROR"}
COMMAND_STATUS = {0x01: "PASS_ADD", 0x10: "FAIL"}
ACCOUNT_STATUS = {1: "SUCCESS", 2: "ERROR"}


class Log:
    """The lines of one connection's packets, behind those of others."""

    def __init__(self, number, lines):
        self.device = f"connection {number}"
        self.lines = lines

    def write(self, header, kind, members):
        begin = {
            "time": "null",
            "device": quoted(self.device),
            "session": quoted(f"{header.session_id:08x}"),
            "type": quoted(kind),
        }
        told = [f"{quoted(name)}:{value}" for name, value in (begin | members).items()]
        self.lines.append(f"{{{','.join(told)}}}\n")

    def refused(self, header, why):
        self.write(header, "refused", {"why": quoted(why)})

    def in_turn(self, header, body, login, reply):
        """Of a packet that came in its turn: `login` is the one that waited for it, and `reply` the
        clear body of its reply, or None."""
        match header.kind:
            case wire.AUTHORISATION:
                self.command(header, wire.request_of(body), reply)
            case wire.ACCOUNTING:
                self.account(header, body[:1], wire.request_of(body[1:]), reply)
            case _ if login is None:
                self.begun(header, wire.start_of(body), reply)
            case _:
                self.gone_on(header, wire.continue_of(body), login, reply)

    def command(self, header, request, reply):
        if request is None:
            return self.refused(header, BAD_BODY)
        pairs = pairs_of(request.arguments)
        line = None if None in pairs else line_of(pairs)
        members = {
            "arguments": listed(request.arguments),
            "line": quoted_or_null(line),
            "status": quoted(COMMAND_STATUS[reply[0]]),
            "text": quoted(wire.authorisation_text(reply)),
        }
        given = wire.authorisation_arguments(reply)
        if given:
            members["given"] = listed(given)
        self.write(header, "command", asker(request) | members)

    def account(self, header, flags, request, reply):
        if request is None:
            return self.refused(header, BAD_BODY)
        members = {
            "kind": quoted_or_null(kind_of(flags[0])),
            "task": quoted(first_value(pairs_of(request.arguments), "task_id") or ""),
            "arguments": listed(request.arguments),
            "status": quoted(ACCOUNT_STATUS[reply[4]]),
            "text": quoted(text_of(reply[5:])),
        }
        self.write(header, "account", asker(request) | members)

    def begun(self, header, start, reply):
        if start is None:
            return self.refused(header, BAD_BODY)
        self.login(header, start, reply)

    def gone_on(self, header, typed, login, reply):
        if typed is None:
            return self.refused(header, BAD_BODY)
        if reply is None:
            return self.refused(header, ABORTED)
        self.login(header, login.start._replace(user=login.user or typed.message), reply)

    def login(self, header, start, reply):
        """Questions have no line."""
        if reply[0] in LOGIN_STATUS:
            members = {
                "status": quoted(LOGIN_STATUS[reply[0]]),
                "text": quoted(text_of(reply[6:])),
            }
            self.write(header, "login", asker(start) | members)


def asker(request):
    return {
        "user": quoted(text_of(request.user)),
        "port": quoted(text_of(request.port)),
        "from": quoted(text_of(request.address)),
        "privilege": str(request.privilege),
        "service": str(request.service),
    }


def listed(arguments):
    return f"[{','.join(quoted(text_of(argument)) for argument in arguments)}]"


def quoted_or_null(text):
    return "null" if text is None else quoted(text)


def quoted(text):
    return f'"{"".join(map(spelled, text))}"'


def spelled(symbol):
    if symbol in '"\\':
        return "\\" + symbol
    if symbol < " " or "\x7f" <= symbol <= "\x9f":
        return f"\\u{ord(symbol):04x}"
    return symbol
