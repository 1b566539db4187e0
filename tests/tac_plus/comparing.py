"""Compares what `tacd import` makes of a configuration with what it means.

What was decided of command lines, and what users are given, is a table for `tacd test`, which has to
find each so. Where the import tells that a rule was left out, or that a subject has too many, only what
is denied is compared: nobody gains a line by that.
"""

import pathlib
import subprocess

from . import remarks
from .meaning import Meaning

LONGEST_RUN = 300
MOST_BLOCKS = 256


class Compared:
    """A configuration, what differs, and how many lines and cases of services were compared."""

    def __init__(self, program, folder, text):
        self.program, self.folder = program, pathlib.Path(folder)
        self.text, self.meaning = text, Meaning(text)
        self.found = self.told = self.policy = ""
        self.lines_compared = self.services_compared = 0

    def compare(self, asked):
        """Compares all of it, and these lines of users."""
        source, policy = self.folder / "tac_plus.conf", self.folder / "policy"
        source.write_text(self.text)
        imported = self.run("import", source)
        if imported.returncode not in (0, 5):
            self.found = imported.stdout + imported.stderr
            return
        self.told, self.policy = imported.stderr, imported.stdout
        policy.write_text(self.policy)
        checked = self.run("check", policy)
        if checked.returncode != 0:
            self.found = checked.stdout
            return
        self.found = remarks.differing(self.meaning, self.told)
        self.status(imported.returncode)
        self.subjects()
        self.cases(asked)

    def run(self, *words):
        words = [str(word) for word in (self.program, *words)]
        return subprocess.run(words, capture_output=True, text=True, timeout=LONGEST_RUN, check=False)

    def differs(self, what):
        self.found += f"{what}\n"

    def status(self, status):
        left_out = any(what.endswith(remarks.LEFT_OUT) for _, what in remarks.parsed(self.told))
        if status != (5 if left_out else 0):
            self.differs(f"the status is {status}")

    def subjects(self):
        """Whether each subject has its group and its secrets, and no more rules than there may be."""
        version, *lines = self.policy.splitlines()
        is_third = any(it.startswith(("login-hash ", "enable-hash ", "service ")) for it in lines)
        if version != ("policy 3" if is_third else "policy 2"):
            self.differs(f"the version is {version}")
        parts = {}
        for line in lines:
            if line.startswith(("user ", "group ")):
                part = parts[tuple(line.split(" ")[:2])] = [line]
            else:
                part.append(line)
        wanted = {(it.kind, it.name): it for it in self.meaning.subjects()}
        if parts.keys() != wanted.keys():
            self.differs(f"the subjects are {sorted(parts)}")
            return
        full = self.full()
        for key, subject in wanted.items():
            self.subject(subject, parts[key], subject.line in full)

    def subject(self, subject, lines, is_full):
        above = list(self.meaning.above(subject))
        wanted = [f"{subject.kind} {subject.name}" + (f" in {above[0].name}" if above else "")]
        for password, word in (
            (self.meaning.login([subject, *above]), "login"),
            (self.meaning.enable([subject, *above]), "enable"),
        ):
            if password and subject.kind == "user":
                wanted += password.said(word)
        came = [lines[0], *(it for it in lines if it.startswith(("login", "enable")))]
        if came != wanted:
            self.differs(f"{came} came, and should be {wanted}")
        rules = [it for it in lines if it.startswith(("permit ", "deny "))]
        may_be_full = len(rules) == 256 or len(subject.blocks) > MOST_BLOCKS
        if is_full != (may_be_full and rules[-1] == "deny .*"):
            self.differs(f"{subject.name} has {len(rules)} rules, and is {'' if is_full else 'not '}told")

    def full(self):
        """The lines of subjects of which the rest is denied."""
        return {number for number, what in remarks.parsed(self.told) if what.endswith(remarks.FULL)}

    def unsaid(self):
        """The commands of which a rule was left out."""
        lines = {
            number for number, what in remarks.parsed(self.told)
            if what.startswith(remarks.RULE) and not what.endswith(remarks.OLDER)
        }
        return {
            name for subject in self.meaning.subjects() for name, rules in subject.commands.items()
            if any(line in lines for _, _, line in rules)
        }

    def cases(self, asked):
        """Compares the table of cases with what `tacd test` finds."""
        decided, given = list(self.lines(asked)), list(self.services())
        self.lines_compared, self.services_compared = len(decided), len(given)
        table = decided + given
        cases, policy = self.folder / "cases", self.folder / "policy"
        cases.write_text("".join(f"{case}\n" for case, _ in table))
        tested = self.run("test", policy, cases)
        wrong = {int(it.split(" ")[1].rstrip(":")) for it in tested.stdout.splitlines() if it != "ok"}
        for number, (case, is_so) in enumerate(table, 1):
            if is_so == (number in wrong):
                self.differs(f"{case}: is {'not so, and should be' if is_so else 'so, and should not be'}")

    def lines(self, asked):
        full, unsaid = self.full(), self.unsaid()
        cut = {it for it in self.meaning.users if any(of.line in full for of in self.meaning.chain(it))}
        for user, line in asked:
            is_permitted = self.meaning.permits(user, line)
            if not is_permitted or not (user in cut or line.split(" ")[0] in unsaid):
                yield f"{'permit' if is_permitted else 'deny'} {user} {line}", True

    def services(self):
        """Of each user and each service whether it is granted, and whether he is given each attribute."""
        full = self.full()
        attributes = {"shell": set(), "nothing": set()}
        for subject in self.meaning.subjects():
            for service in subject.services:
                if service.called():
                    sent = attributes.setdefault(service.called(), set())
                    sent |= service.sent() | {"priv-lvl=1"}
                    sent |= {f"priv-lvl={it.level()}" for it in service.attributes if it.level() is not None}
        for user in self.meaning.users:
            is_cut = any(it.line in full for it in self.meaning.chain(user))
            for called, sent in attributes.items():
                given = self.meaning.gives(user, called)
                if called == "shell" and is_cut and given is not None:
                    continue
                yield f"{'refuse' if given is None else 'grant'} {user} {called}", True
                for attribute in sorted(sent):
                    yield f"give {user} {called} {attribute}", attribute in (given or ())
