"""A connection: which packets come in their turn, and what each is answered
(docs/DEFINITIONS.md, "A connection"; docs/SCRIPT.md, "What the server answers")."""

from typing import NamedTuple, Optional

from . import auditing, wire
from .accounting import kind_of, line_of, pairs_of, record_of
from .services import SHELL, asked_of
from .texts import text_of
from .wire import ACCOUNTING, AUTHENTICATION, AUTHORISATION, HEADER_SIZE, SINGLE_CONNECTION

MOST_SESSIONS = 16
LAST_SEQ_NO = 255

LOGIN = 1
ASCII, PAP, CHAP = 1, 2, 3

PASS, FAIL, GETUSER, GETPASS, AUTHENTICATION_ERROR = 1, 2, 4, 5, 7
PASS_ADD, DENIED, AUTHORISATION_ERROR = 0x01, 0x10, 0x11
SUCCESS, ACCOUNTING_ERROR = 1, 2


class Session(NamedTuple):
    """An ASCII login that waits for a name, or for the password of the user."""

    next_seq_no: int
    start: wire.Start
    user: Optional[bytes]


class Connection:
    """All replies are pairs of a header and a clear body."""

    def __init__(self, key, desk, log):
        self.key = key
        self.desk = desk
        self.log = log
        self.unread = b""
        self.single = None
        self.sessions = {}
        self.closed = False

    def take(self, data):
        """The replies to these bytes."""
        self.unread += data
        replies = []
        while not self.closed and len(self.unread) >= HEADER_SIZE:
            header = wire.header_of(self.unread[:HEADER_SIZE])
            if header.is_refused():
                self.refuse(header, auditing.BAD_HEADER)
                break
            end = HEADER_SIZE + header.length
            if len(self.unread) < end:
                break
            body = wire.padded(header, self.key, self.unread[HEADER_SIZE:end])
            self.unread = self.unread[end:]
            reply = self.answer(header, body)
            if reply is not None:
                replies.append(reply)
        return replies

    def answer(self, header, body):
        if self.single is None:
            self.single = header.flags & SINGLE_CONNECTION != 0
        if header.seq_no == LAST_SEQ_NO:
            return self.refuse(header, auditing.OUT_OF_TURN)
        if header.kind not in (AUTHENTICATION, AUTHORISATION, ACCOUNTING):
            self.refuse(header, auditing.UNSERVED)
            return header._replace(seq_no=header.seq_no + 1, length=0), b""
        if not self.comes_in_turn(header):
            return self.refuse(header, auditing.OUT_OF_TURN)
        login = self.sessions.get(header.session_id)
        clear = self.judge(header, body)
        self.log.in_turn(header, body, login, clear)
        if clear is None:
            return None
        flags = SINGLE_CONNECTION if self.single else 0
        return header._replace(seq_no=header.seq_no + 1, flags=flags, length=len(clear)), clear

    def refuse(self, header, why):
        self.log.refused(header, why)
        self.closed = True

    def comes_in_turn(self, header):
        session = self.sessions.get(header.session_id)
        if session is not None:
            return header.kind == AUTHENTICATION and header.seq_no == session.next_seq_no
        return header.seq_no == 1 and (self.single or not self.sessions)

    def judge(self, header, body):
        """The clear body of the reply, or None where nothing is said."""
        if header.kind == AUTHORISATION:
            return self.authorise(wire.request_of(body))
        if header.kind == ACCOUNTING:
            return self.account(body)
        if header.session_id in self.sessions:
            return self.go_on(header, wire.continue_of(body))
        return self.start(header, wire.start_of(body))

    def ends(self, reply, session_id=None):
        """A session's last reply closes a connection that isn't single."""
        self.sessions.pop(session_id, None)
        if not self.single:
            self.closed = True
        return reply

    def closes(self, reply):
        self.closed = True
        return reply

    def start(self, header, start):
        if start is None:
            return self.closes(wire.authentication_reply(AUTHENTICATION_ERROR, "bad body"))
        by_text = start.authen_type == ASCII
        if (
            start.action != LOGIN
            or start.authen_type not in (ASCII, PAP, CHAP)
            or not by_text
            and header.minor_version() == 0
        ):
            return self.ends(wire.authentication_reply(AUTHENTICATION_ERROR, "unsupported"))
        if by_text:
            return self.ask(header, start)
        if start.authen_type == PAP:
            check = self.desk.passes_by_password
        else:
            check = self.desk.passes_by_response
        passes = check(text_of(start.user), start.service, start.data)
        return self.ends(login_reply(passes))

    def ask(self, header, start):
        if len(self.sessions) == MOST_SESSIONS:
            return self.ends(
                wire.authentication_reply(AUTHENTICATION_ERROR, "too many sessions")
            )
        user = start.user or None
        self.sessions[header.session_id] = Session(header.seq_no + 2, start, user)
        if user is None:
            return wire.authentication_reply(GETUSER, "Username: ")
        return wire.authentication_reply(GETPASS, "Password: ", hidden=True)

    def go_on(self, header, typed):
        if typed is None:
            return self.closes(wire.authentication_reply(AUTHENTICATION_ERROR, "bad body"))
        session = self.sessions[header.session_id]
        if typed.aborts:
            return self.ends(None, header.session_id)
        if session.user is not None:
            passes = self.desk.passes_by_password(
                text_of(session.user), session.start.service, typed.message
            )
            return self.ends(login_reply(passes), header.session_id)
        if typed.message == b"":
            return self.ends(login_reply(False), header.session_id)
        self.sessions[header.session_id] = session._replace(
            next_seq_no=header.seq_no + 2, user=typed.message
        )
        return wire.authentication_reply(GETPASS, "Password: ", hidden=True)

    def authorise(self, request):
        if request is None:
            return self.closes(wire.authorisation_reply(AUTHORISATION_ERROR, "bad body"))
        pairs = pairs_of(request.arguments)
        if None in pairs:
            return self.ends(wire.authorisation_reply(DENIED, "bad argument"))
        user, line, asked = text_of(request.user), line_of(pairs), asked_of(pairs)
        if line is not None:
            why, arguments = self.desk.line_answered(user, line)
        elif asked is None or asked.service == SHELL:
            why, arguments = "unsupported service", []
        else:
            why, arguments = self.desk.service_answered(user, asked)
        if why is not None:
            return self.ends(wire.authorisation_reply(DENIED, why))
        return self.ends(wire.authorisation_reply(PASS_ADD, "", arguments))

    def account(self, body):
        request = wire.request_of(body[1:])
        if request is None:
            return self.closes(wire.accounting_reply(ACCOUNTING_ERROR, "bad body"))
        kind = kind_of(body[0])
        if kind is None:
            return self.ends(wire.accounting_reply(ACCOUNTING_ERROR, "bad flags"))
        if not self.desk.store(record_of(request, kind)):
            return self.ends(wire.accounting_reply(ACCOUNTING_ERROR, "records full"))
        return self.ends(wire.accounting_reply(SUCCESS))


def login_reply(passes):
    if passes:
        return wire.authentication_reply(PASS)
    return wire.authentication_reply(FAIL, "Authentication failed")
