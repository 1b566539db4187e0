"""What a configuration of tac_plus F4.0.4 says, after its user's guide.

A command is decided by the nearest of the user, its group, that one's group and so on which has a
block `cmd = NAME` about it, and by that block alone: the expressions are searched for in the
arguments, joined by blanks, one after another; the first that is found decides, and where none is,
the command is denied. A command that nobody has a block about is decided by the nearest `default
service`, which is deny where nobody has one. A shell is permitted where one of them has `service =
exec`, and else by the same default.

A service is given by the nearest of them that has a block about it, with the attributes of that
block alone, and refuses mandatory arguments that it doesn't list, unless it has `default attribute =
permit`. The first block of a subject about a command or a service counts.

A user logs in with the nearest `login`, else with the nearest `global`, `pap` or `chap`, in this
order, and enables with the nearest `enable`. The first of a subject counts.
"""

import re
import typing

from .expressions import Expression

HASH = re.compile(r"\$6\$(rounds=([^$]*)\$)?([^$]*)\$(.*)")
SYMBOLS = re.compile(r"[./0-9A-Za-z]+")
PURPOSES = {
    "login": "login", "enable": "enable", "global": "global", "pap": "pap", "chap": "chap",
    "arap": "arap", "opap": "opap", "ms-chap": "ms-chap", "mschap": "ms-chap",
}
# By which passwords a user logs in, the first of these that there is.
LOGINS = ("login", "global", "pap", "chap")
WITHOUT_TEXT = ("skey", "nopassword", "PAM", "pam")


def hash_fault(text):
    """The words by which it is told why a hash that begins with `$6$` isn't taken; none where it is."""
    rounds, number, salt, digest = HASH.fullmatch(text).groups()
    if rounds and not re.fullmatch("[1-9][0-9]*", number):
        return "fewest digits"
    if rounds and int(number) > 999_999:
        return "more rounds"
    if rounds and int(number) < 1_000:
        return "fewer rounds"
    if not salt:
        return "empty salt"
    if len(salt) > 16 or not SYMBOLS.fullmatch(salt):
        return "1 to 16"
    return None if len(digest) == 86 and SYMBOLS.fullmatch(digest) else "86"


def are_symbols(text):
    return all(0x20 <= ord(it) <= 0x7E for it in text)


def tokens(text):
    """Words, quoted words and signs, each as a kind, a text and its line."""
    at, line = 0, 1
    while at < len(text):
        sign, begin = text[at], at
        if sign in " \t\n":
            at += 1
        elif sign == "#":
            while at < len(text) and text[at] != "\n":
                at += 1
        elif sign in "{}=":
            yield sign, sign, line
            at += 1
        elif sign == '"':
            word, at = quoted(text, at + 1)
            yield "word", word, line
        else:
            while at < len(text) and text[at] not in " \t\n=":
                at += 1
            yield "word", text[begin:at], line
        line += text.count("\n", begin, at)


def quoted(text, at):
    """What stands between quotation marks, after the first of them, and where it ends."""
    word = ""
    while text[at] != '"':
        if text[at] == "\\" and text[at + 1] == '"':
            at += 1
        elif text[at] == "\\":
            word += text[at]
            at += 1
        word += text[at]
        at += 1
    return word, at + 1


class Password(typing.NamedTuple):
    line: int
    purpose: str
    method: str
    text: str

    def fault(self):
        """The words by which it is told why a policy doesn't say it; none where it does."""
        if self.method == "cleartext":
            return None if 1 <= len(self.text) <= 128 and are_symbols(self.text) else "1 to 128"
        if self.method == "des" and self.text.startswith("$6$"):
            return hash_fault(self.text)
        return "no password in the clear"

    def is_same(self, other):
        return (self.method, self.text) == (other.method, other.text)

    def said(self, word):
        """The lines of a policy for it, which begins with this word."""
        if self.fault():
            return []
        return [f"{word}-hash {self.text}" if self.method == "des" else f"{word} {self.text}"]


class Attribute(typing.NamedTuple):
    is_optional: bool
    name: str
    value: str

    def sent(self):
        """What a device is sent."""
        return f"{self.name}{'*' if self.is_optional else '='}{self.value}"

    def is_one(self):
        name = re.match("[^=*]*", self.sent())[0]
        return bool(name) and " " not in name and len(self.sent()) <= 255 and are_symbols(self.sent())

    def level(self):
        """The level of a shell that it is, of 0 to 15."""
        if self.name == "priv-lvl" and re.fullmatch("[0-9]{1,4}", self.value) and int(self.value) <= 15:
            return int(self.value)
        return None


class Service:
    def __init__(self, line, name, protocol):
        self.line, self.name, self.protocol = line, name, protocol
        self.default = "deny"
        # its attributes, and their lines
        self.attributes, self.lines = [], []

    def is_shell(self):
        return self.name == "exec"

    def key(self):
        """By which it is known: a shell has no protocol."""
        return ("exec", None) if self.is_shell() else (self.name, self.protocol)

    def called(self):
        """What a policy calls it, if it has such a service."""
        if self.is_shell():
            return "shell"
        parts = [self.name] if self.protocol is None else [self.name, self.protocol]
        if self.name == "shell" or not all(re.fullmatch("[A-Za-z0-9_.@-]{1,32}", it) for it in parts):
            return None
        return "/".join(parts)

    def level(self):
        """The first level, if it is a shell's, and whether that is optional."""
        found = ((it.level(), it.is_optional) for it in self.attributes if it.level() is not None)
        return next(found, (None, False))

    def sent(self):
        """What a device is sent for it, but for a level of a shell."""
        return {it.sent() for it in self.attributes if it.is_one() and not self.is_level(it)}

    def is_level(self, attribute):
        return self.is_shell() and attribute.name == "priv-lvl"


class Subject:
    def __init__(self, kind, name, line):
        self.kind, self.name, self.line = kind, name, line
        # the group that it is in, and the default, each with its line
        self.member = self.default = None
        self.passwords = []
        # all services, and of each name the first
        self.services, self.given = [], {}
        # of each command its rules: whether it permits, its expression, its line; and all blocks' lines
        self.commands, self.blocks = {}, []

    def password(self, purpose):
        return next((it for it in self.passwords if it.purpose == purpose), None)


class Meaning:
    """The users and groups of a configuration."""

    def __init__(self, text):
        self.rest = list(tokens(text))
        self.at = 0
        self.users, self.groups = {}, {}
        while self.at < len(self.rest):
            self.top()

    def take(self):
        self.at += 1
        return self.rest[self.at - 1][1]

    def line(self):
        return self.rest[self.at - 1][2]

    def expect(self, *words):
        for word in words:
            found = self.take()
            if found != word:
                raise ValueError(f"{word} is expected, and {found} is there")

    def value(self):
        self.expect("=")
        return self.take()

    def top(self):
        word, line = self.take(), self.line()
        if word == "key":
            self.value()
            return
        subjects = {"user": self.users, "group": self.groups}[word]
        name = self.value()
        self.expect("{")
        subjects[name] = self.subject(Subject(word, name, line))

    def subject(self, subject):
        while (word := self.take()) != "}":
            line = self.line()
            if word == "member":
                subject.member = self.value(), self.line()
            elif word == "default":
                self.expect("service", "=")
                subject.default = self.take(), line
            elif word in PURPOSES:
                method = self.value()
                text = "" if method in WITHOUT_TEXT else self.take()
                subject.passwords.append(Password(line, PURPOSES[word], method, text))
            elif word == "service":
                service = self.service(line)
                subject.services.append(service)
                subject.given.setdefault(service.key(), service)
            elif word == "cmd":
                name = self.value()
                self.expect("{")
                subject.commands.setdefault(name, self.rules())
                subject.blocks.append((name, line))
            else:
                raise ValueError(f"{word} isn't known")
        return subject

    def service(self, line):
        name, protocol = self.value(), None
        if self.take() == "protocol":
            protocol = self.value()
            self.expect("{")
        service = Service(line, name, protocol)
        while (word := self.take()) != "}":
            if word == "default":
                self.expect("attribute", "=")
                service.default = self.take()
                continue
            is_optional = word == "optional"
            name = self.take() if is_optional else word
            service.lines.append(self.line())
            service.attributes.append(Attribute(is_optional, name, self.value()))
        return service

    def rules(self):
        rules = []
        while (verdict := self.take()) != "}":
            line = self.line()
            rules.append((verdict == "permit", Expression(self.take()), line))
        return rules

    def subjects(self):
        return [*self.users.values(), *self.groups.values()]

    def above(self, subject):
        """Its group, that one's group and so on."""
        while subject.member and subject.member[0] in self.groups:
            subject = self.groups[subject.member[0]]
            yield subject

    def chain(self, user):
        return [self.users[user], *self.above(self.users[user])]

    def permits(self, user, line):
        """Whether a line is permitted; the empty one asks for a shell."""
        chain = self.chain(user)
        if line == "" and any(("exec", None) in subject.given for subject in chain):
            return True
        command, _, arguments = line.partition(" ")
        for subject in chain:
            if line and command in subject.commands:
                rules = subject.commands[command]
                found = (it for it, wanted, _ in rules if wanted.search(arguments))
                return next(found, False)
        return default_of(chain) == "permit"

    def login(self, chain):
        """The password by which one logs in along a chain."""
        found = (it.password(purpose) for purpose in LOGINS for it in chain)
        return next((it for it in found if it), None)

    def enable(self, chain):
        return next((it for it in (it.password("enable") for it in chain) if it), None)

    def gives(self, user, called):
        """What a device is sent for a service, which a policy calls so; none where it is refused."""
        chain = self.chain(user)
        for at, subject in enumerate(chain):
            for service in subject.given.values():
                if service.called() == called:
                    return service.sent() | self.levels(service, chain[at + 1:])
        return set() if called == "shell" and self.permits(user, "") else None

    def levels(self, service, above):
        """The level of a shell, as it is sent: where it has none and one above it has one, that is 1."""
        if not service.is_shell():
            return set()
        level = service.level()[0]
        if level is None and self.have_level(above):
            level = 1
        return set() if level is None else {f"priv-lvl={level}"}

    def have_level(self, chain):
        shells = (it.given.get(("exec", None)) for it in chain)
        return any(it.level()[0] is not None for it in shells if it)


def default_of(chain):
    return next((it.default[0] for it in chain if it.default), "deny")
