"""A policy's text: reading, refusals and printed form (docs/POLICY.md, "The text of a policy")."""

from typing import NamedTuple, Optional, Union

from .hashes import Hash, hash_of
from .patterns import BadPattern, Pattern, read_pattern
from .services import ServiceLine, is_service
from .texts import is_name, is_secret, is_text, number_of

MOST_SUBJECTS = 1024
MOST_RULES = 256
MOST_SERVICES = 64
LONGEST_CHAIN = 8
HIGHEST_LEVEL = 15
VERSION_LINES = {"policy 2": 2, "policy 3": 3}

GROUP, USER = "group", "user"
PERMIT, DENY = "permit", "deny"


class Rule(NamedTuple):
    verdict: str
    pattern: Pattern


class Subject(NamedTuple):
    kind: str
    name: str
    parent: Optional[str] = None
    login: Optional[Union[str, Hash]] = None
    enable: Optional[Union[str, Hash]] = None
    level: Optional[int] = None
    services: tuple = ()
    rules: tuple = ()

    def label(self):
        return f"{self.kind} {self.name}"


class Refused(Exception):
    """A refusal as it is printed: `N REFUSAL`, with what a pattern adds."""


class BadPolicy(Exception):
    def __init__(self, line, refused):
        super().__init__(line, refused)
        self.line = line
        self.refused = refused


def refuse(number, name):
    raise Refused(f"{number} {name}")


def read_policy(lines, first_line=1):
    """The policy that the lines say: a tuple of subjects. Lines count from the number given."""
    version = VERSION_LINES.get(lines[0], 1) if lines else 1
    reader = Reader(version)
    for number, line in list(enumerate(lines, start=first_line))[1 if version > 1 else 0 :]:
        try:
            reader.read(line, number)
        except Refused as fault:
            raise BadPolicy(number, str(fault)) from None
    reader.judge_chains()
    return tuple(reader.subjects)


class Reader:
    def __init__(self, version):
        self.version = version
        self.subjects = []
        self.lines = []  # The line at which each subject stands.

    def read(self, line, number):
        if not is_text(line):
            refuse(1, "BadLine")
        line = line.lstrip(" ")
        if line == "" or line.startswith("#"):
            return
        word, blank, rest = line.partition(" ")
        if not blank:
            refuse(1, "BadLine")
        if word in (GROUP, USER):
            self.begin(word, rest.split(" "), number)
        elif word in ("login", "enable"):
            self.set_secret(word, rest if is_secret(rest) else None)
        elif word in ("login-hash", "enable-hash") and self.version == 3:
            self.set_secret(word.removesuffix("-hash"), hash_of(rest))
        elif word == "priv":
            self.set_level(rest)
        elif word == "service" and self.version == 3:
            service, blank, attribute = rest.partition(" ")
            self.add_service(word, service, attribute if blank else None)
        elif word == "refuse" and self.version == 3:
            if " " in rest:
                refuse(1, "BadLine")
            self.add_service(word, rest, None)
        elif word in (PERMIT, DENY):
            self.add_rule(word, rest)
        else:
            refuse(1, "BadLine")

    def begin(self, kind, fields, number):
        if len(fields) not in (1, 3) or len(fields) == 3 and fields[1] != "in":
            refuse(1, "BadLine")
        if not all(is_name(name) for name in fields[::2]):
            refuse(2, "BadName")
        if find(self.subjects, kind, fields[0]) is not None:
            refuse(3, "Repeated")
        if len(self.subjects) == MOST_SUBJECTS:
            refuse(10, "Limit")
        self.subjects.append(Subject(kind, fields[0], fields[2] if len(fields) == 3 else None))
        self.lines.append(number)

    def last(self):
        if not self.subjects:
            refuse(4, "NoSubject")
        return self.subjects[-1]

    def set_secret(self, word, secret):
        if self.subjects and self.subjects[-1].kind == GROUP:
            refuse(1, "BadLine")
        if getattr(self.last(), word) is not None:
            refuse(3, "Repeated")
        if secret is None:
            refuse(6, "BadValue")
        self.subjects[-1] = self.last()._replace(**{word: secret})

    def set_level(self, text):
        if " " in text:
            refuse(1, "BadLine")
        if self.last().level is not None:
            refuse(3, "Repeated")
        level = number_of(text, 4)
        if level is None or level > HIGHEST_LEVEL:
            refuse(6, "BadValue")
        self.subjects[-1] = self.last()._replace(level=level)

    def add_service(self, word, service, attribute):
        if not is_service(service):
            refuse(2, "BadName")
        line = ServiceLine(word, service, attribute)
        services = self.last().services
        if any(line.clashes(other) for other in services):
            refuse(3, "Repeated")
        if not line.is_right():
            refuse(6, "BadValue")
        if len(services) == MOST_SERVICES:
            refuse(10, "Limit")
        self.subjects[-1] = self.last()._replace(services=services + (line,))

    def add_rule(self, verdict, source):
        subject = self.last()
        try:
            rule = Rule(verdict, read_pattern(source, min(self.version, 2)))
        except BadPattern as fault:
            raise Refused(f"5 BadPattern {fault}") from None
        if len(subject.rules) == MOST_RULES:
            refuse(10, "Limit")
        self.subjects[-1] = subject._replace(rules=subject.rules + (rule,))

    def judge_chains(self):
        groups = {subject.name for subject in self.subjects if subject.kind == GROUP}
        lengths = [chain_length(self.subjects, subject) for subject in self.subjects]
        for line, subject in zip(self.lines, self.subjects):
            if subject.parent is not None and subject.parent not in groups:
                raise BadPolicy(line, "7 NoSuchParent")
        for line, length in zip(self.lines, lengths):
            if length is None:
                raise BadPolicy(line, "8 Cycle")
        for line, length in zip(self.lines, lengths):
            if length > LONGEST_CHAIN:
                raise BadPolicy(line, "9 TooDeep")


def find(subjects, kind, name):
    for place, subject in enumerate(subjects):
        if subject.kind == kind and subject.name == name:
            return place
    return None


def chain_length(subjects, subject):
    """How many subjects the chain has, as far as groups are found; None where it doesn't end."""
    parents = {group.name: group.parent for group in subjects if group.kind == GROUP}
    length, parent = 1, subject.parent
    while parent is not None and parent in parents:
        if length > len(subjects):
            return None
        length, parent = length + 1, parents[parent]
    return length


def secret_line(word, secret):
    return f"{word}-hash {secret}" if isinstance(secret, Hash) else f"{word} {secret}"


def has_hash(subject):
    return isinstance(subject.login, Hash) or isinstance(subject.enable, Hash)


def needs_third(subject):
    return has_hash(subject) or subject.services != ()


def printed(policy):
    lines = ["policy 3" if any(needs_third(subject) for subject in policy) else "policy 2"]
    for subject in policy:
        lines.append(subject.label() + (f" in {subject.parent}" if subject.parent else ""))
        if subject.login is not None:
            lines.append(secret_line("login", subject.login))
        if subject.enable is not None:
            lines.append(secret_line("enable", subject.enable))
        if subject.level is not None:
            lines.append(f"priv {subject.level}")
        lines.extend(str(line) for line in subject.services)
        lines.extend(f"{rule.verdict} {rule.pattern.source}" for rule in subject.rules)
    return "".join(line + "\n" for line in lines)
