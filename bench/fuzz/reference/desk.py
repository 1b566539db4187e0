"""What logins, lines, services and records are answered by a policy and the records so far
(docs/DEFINITIONS.md, "What the desk answers")."""

import hashlib

from .accounting import sum_of, tally_of
from .decisions import attributes_of, chain_of, decision_on, level_of, permits, said_of
from .hashes import Hash
from .policy import GROUP, USER, find
from .services import SHELL, Asked
from .texts import bytes_of, is_text

MOST_RECORDS = 1_000_000
ENABLE_SERVICE = 2


class Desk:
    """Where `keep` is given, so many records are kept: the older half, rounded up, goes where one
    more comes. Else no further record is stored at the limit."""

    def __init__(self, policy, keep=None):
        self.policy = policy
        self.records = []
        self.forgotten = 0
        self.keep = keep
        self.batch = None

    def user(self, name):
        place = find(self.policy, USER, name)
        return None if place is None else self.policy[place]

    def secret_of(self, name, service):
        user = self.user(name)
        if user is None:
            return None
        return user.enable if service == ENABLE_SERVICE else user.login

    def passes_by_password(self, name, service, password):
        secret = self.secret_of(name, service)
        if isinstance(secret, Hash):
            return secret.passes(password)
        return secret is not None and bytes_of(secret) == password

    def passes_by_response(self, name, service, data):
        """A CHAP login: one byte of id, the challenge, and the 16 bytes of the response."""
        secret = self.secret_of(name, service)
        if secret is None or isinstance(secret, Hash) or len(data) < 17:
            return False
        digest = hashlib.md5(data[:1] + bytes_of(secret) + data[1:-16]).digest()
        return digest == data[-16:]

    def why_denied(self, name, line):
        """The text of a refusal, or None where the line is permitted."""
        user = self.user(name)
        if user is None:
            return "unknown user"
        if not is_text(line):
            return "unprintable command"
        entry = decision_on(self.policy, user, line)
        if permits(entry):
            return None
        return f"denied by {entry or 'default'}"

    def line_answered(self, name, line):
        """The text of a refusal, or None; and the arguments of the reply, where a shell starts."""
        why = self.why_denied(name, line)
        if why is not None or line != "":
            return why, []
        user = self.user(name)
        level = level_of(self.policy, user)
        _, lines = said_of(self.policy, user, Asked(SHELL, ""))
        return None, ([] if level is None else [f"priv-lvl={level}"]) + attributes_of(lines)

    def service_answered(self, name, asked):
        """The same of a service. Of a user who isn't there nothing is said."""
        user = self.user(name)
        owner, lines = (None, []) if user is None else said_of(self.policy, user, asked)
        if not lines:
            return "unsupported service", []
        if lines[0].word == "refuse":
            return f"refused by {owner.label()}", []
        return None, attributes_of(lines)

    def store(self, record):
        if len(self.records) == (MOST_RECORDS if self.keep is None else self.keep):
            gone = 0 if self.keep is None else (self.keep + 1) // 2
            if gone == 0:
                return False
            del self.records[:gone]
            self.forgotten += gone
        self.records.append(record)
        return True

    def tally(self, name):
        records = [record for record in self.records if record.user == name]
        return tally_of(records, lambda line: self.why_denied(name, line) is not None)

    def group_tally(self, name):
        return sum_of([self.tally(user.name) for user in self.users_of(name)])

    def users_of(self, group):
        for subject in self.policy:
            if subject.kind == USER and any(
                above.kind == GROUP and above.name == group
                for above in chain_of(self.policy, subject)
            ):
                yield subject
