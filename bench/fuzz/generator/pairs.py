"""Two policies, of which the second was made of the first: the text of each, as bytes."""

from reference.hashes import hash_of
from reference.policy import BadPolicy, printed, read_policy

from .policies import GROUPS, HASHES, SECRETS, USERS, policy, service_lines

LEVELS = [0, 0, 1, 7, 15, None]
SECRETS_OR_NONE = SECRETS + [hash_of(text) for text in HASHES[:2]] + [None]


def pair(choices):
    """The second policy is one of its own, or the first with some of it changed."""
    old = right_policy(choices)
    new = right_policy(choices) if choices.chance(0.4) else changed(choices, old)
    return text_of_policy(choices, old), text_of_policy(choices, new)


def right_policy(choices):
    while True:
        lines = eight(choices) if choices.chance(0.3) else policy(choices)
        try:
            return read_policy(lines)
        except BadPolicy:
            pass


def eight(choices):
    """Groups one below the other, eight of them or fewer, with users, in any order."""
    names = choices.sample(GROUPS + ["last"], choices.choice([5, 7, 8]))
    lines = [f"group {names[0]}"]
    lines += [f"group {name} in {above}" for above, name in zip(names, names[1:])]
    lines += [f"user {name} in {choices.choice(names[:-1])}" for name in choices.sample(USERS, 2)]
    choices.shuffle(lines)
    return lines


def changed(choices, old):
    """The subjects in another order, with some secrets, levels, services and rules changed."""
    new = [with_changes(choices, subject) for subject in old]
    choices.shuffle(new)
    return tuple(new)


def with_changes(choices, subject):
    if choices.chance(0.4):
        subject = subject._replace(level=choices.choice(LEVELS))
    if subject.kind == "user":
        for word in ("login", "enable"):
            if choices.chance(0.4):
                subject = subject._replace(**{word: choices.choice(SECRETS_OR_NONE)})
    if choices.chance(0.4):
        subject = subject._replace(services=other_services(choices, subject))
    if subject.rules and choices.chance(0.4):
        rules = list(subject.rules)
        choices.shuffle(rules)
        subject = subject._replace(rules=tuple(rules[: choices.randrange(len(rules) + 1)]))
    return subject


def other_services(choices, subject):
    """Other lines, or some of those that are there, with what else there may be beside them."""
    (other,) = read_policy(["policy 3", "group g"] + service_lines(choices))
    if choices.chance(0.5):
        return other.services
    kept = tuple(line for line in subject.services if choices.chance(0.7))
    return kept + tuple(
        line for line in other.services if not any(line.clashes(it) for it in kept)
    )


def text_of_policy(choices, subjects):
    subjects = list(subjects)
    if choices.chance(0.5):
        choices.shuffle(subjects)
    return printed(tuple(subjects)).encode("latin-1")
