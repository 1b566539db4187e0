"""What an operator types: edits and questions of all kinds, with a thing wrong at times."""

from .patterns import line, pattern
from .policies import (
    ATTRIBUTES,
    GROUPS,
    HASHES,
    NO_ATTRIBUTES,
    NO_HASHES,
    NO_NAMES,
    NO_SERVICES,
    SECRETS,
    SERVICES,
    USERS,
)

WORDS = [
    "add",
    "remove",
    "move",
    "login",
    "enable",
    "login-hash",
    "enable-hash",
    "clear login",
    "clear enable",
    "priv",
    "clear priv",
    "service",
    "service",
    "refuse",
    "clear service",
    "insert",
    "insert",
    "insert",
    "insert",
    "drop",
    "drop",
    "shift",
    "shift",
]


class Operator:
    def __init__(self, choices, world):
        self.choices = choices
        self.world = world
        self.edits = choices.choice([0.2, 0.5, 0.8])
        self.batches = choices.choice([0, 0.02, 0.2])

    def line(self):
        choices = self.choices
        if choices.chance(0.02):
            return odd_line(choices)
        if choices.chance(self.batches):
            return self.batch_line()
        typed = self.edit() if choices.chance(self.edits) else self.question()
        return self.spoiled(typed) if choices.chance(0.06) else typed

    def batch_line(self):
        """Mostly one that may come now."""
        if self.choices.chance(0.1):
            return self.choices.choice(["begin", "commit", "abandon", "begin ", "commit 1"])
        if self.world.has_batch():
            return self.choices.choice(["commit", "commit", "commit", "abandon"])
        return "begin"

    def spoiled(self, typed):
        """One field left out, doubled or put for another, or one symbol wrong."""
        choices = self.choices
        if choices.chance(0.5):
            return choices.spoiled(typed, "  019aA\t\r\xe9.")
        parts = typed.split(" ")
        at = choices.randrange(len(parts))
        match choices.randrange(4):
            case 0:
                del parts[at]
            case 1:
                parts.insert(at, parts[at])
            case 2:
                parts[at] = choices.choice(NO_NAMES + ["group", "user", "in", "out", "0", "00001"])
            case _:
                parts.append("")
        return " ".join(parts)

    def subject(self, kind=None):
        """Kind and name, mostly of a subject that is there, with the number of its rules."""
        choices = self.choices
        there = [it for it in self.world.subjects() if kind in (None, it.kind)]
        if there and choices.chance(0.92):
            subject = choices.choice(there)
            return subject.kind, subject.name, len(subject.rules)
        kind = kind or choices.choice(["group", "user"])
        return kind, choices.choice(GROUPS if kind == "group" else USERS), choices.randrange(3)

    def edit(self):
        choices = self.choices
        word = choices.choice(WORDS)
        kind, name, rules = self.subject()
        _, group, _ = self.subject("group")
        _, user, _ = self.subject("user")
        match word:
            case "add":
                name = choices.choice(GROUPS if kind == "group" else USERS)
                return f"add {kind} {name}" + (f" in {group}" if choices.chance(0.6) else "")
            case "remove":
                return f"remove {kind} {name}"
            case "move":
                return f"move {kind} {name} " + (f"in {group}" if choices.chance(0.75) else "out")
            case "login" | "enable":
                return f"{word} {user} {self.secret()}"
            case "login-hash" | "enable-hash":
                return f"{word} {user} {self.hash()}"
            case "clear login" | "clear enable":
                return f"{word} {user}"
            case "priv":
                level = choices.choice(["0", "1", "15", "16", "015", "0015", "9999", "00015"])
                return f"priv {kind} {name} {level}"
            case "clear priv":
                return f"clear priv {kind} {name}"
            case "service" | "clear service":
                said = f"{word} {kind} {name} {self.service()}"
                return said + (f" {self.attribute()}" if choices.chance(0.6) else "")
            case "refuse":
                return f"refuse {kind} {name} {self.service()}"
            case "insert":
                verdict = choices.choice(["permit", "deny"])
                at = self.place(rules + 1)
                return f"insert {kind} {name} {at} {verdict} {pattern(choices, 0.15)}"
            case "drop":
                return f"drop {kind} {name} {self.place(rules)}"
        return f"shift {kind} {name} {self.place(rules)} {self.place(rules)}"

    def place(self, last):
        choices = self.choices
        if choices.chance(0.15) or last == 0:
            return choices.choice(["0", str(last + 1), "9999", "01", "0001", "10000"])
        return str(choices.randint(1, last))

    def secret(self):
        choices = self.choices
        if choices.chance(0.1):
            return choices.choice(["", "s" * 129, " ", "s" * 128, "a b "])
        return choices.choice(SECRETS)

    def hash(self):
        choices = self.choices
        return choices.choice(NO_HASHES if choices.chance(0.1) else HASHES)

    def service(self):
        choices, known = self.choices, self.world.services()
        if known and choices.chance(0.4):
            return choices.choice(known)
        return choices.choice(NO_SERVICES if choices.chance(0.05) else SERVICES[:5])

    def attribute(self):
        choices = self.choices
        return choices.choice(NO_ATTRIBUTES if choices.chance(0.1) else ATTRIBUTES)

    def question(self):
        choices = self.choices
        kind, name, _ = self.subject()
        _, user, _ = self.subject("user")
        recorded = self.world.record_users()
        tally = 60 if recorded else 10
        asked = choices.kind(
            {"policy": 12, "shadow": 15, "reach": 20, "tally": tally, "why": 25, "records": 10}
            | {"given": 25}
        )
        match asked:
            case "tally" if recorded and choices.chance(0.6):
                return f"tally user {choices.choice(recorded)}"
            case "reach" | "tally":
                return f"{asked} {kind} {name}"
            case "why":
                text = line(choices, self.world.patterns())
                return f"why {user}" + ("" if choices.chance(0.1) else f" {text}")
            case "given":
                return f"given {user} {self.service()}"
        return asked


def odd_line(choices):
    return choices.choice(
        ["", " ", "quit", "help", "policy ", "records x", "why", "why ", "tally", "reach user"]
        + ["shadow group g", " policy", "Policy", "#", "\xe9", "insert", "why u\t", "clear", "run"]
        + ["clear priv", "clear login", "add", "add group", "move user u out ", "in"]
        + ["service", "refuse", "clear service", "service user u", "refuse user u x y"]
        + ["given", "given u", "given u ", "given u shell ", "given u/ x"]
    )
