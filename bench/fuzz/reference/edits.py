"""Edits of a policy (docs/POLICY.md, "Edits").

`read_edit` makes a function of a line, from the policy to the edited one. Both it and that function
raise Refused.
"""

from .decisions import chain_of, first_too_large
from .hashes import hash_of
from .patterns import BadPattern, read_pattern
from .policy import (
    DENY,
    GROUP,
    HIGHEST_LEVEL,
    LONGEST_CHAIN,
    MOST_RULES,
    MOST_SERVICES,
    MOST_SUBJECTS,
    PERMIT,
    USER,
    Refused,
    Rule,
    Subject,
    chain_length,
    find,
    refuse,
)
from .services import ServiceLine, is_attribute, is_service
from .texts import is_name, is_secret, is_text, number_of

WORDS = (
    "add",
    "remove",
    "move",
    "login",
    "enable",
    "login-hash",
    "enable-hash",
    "clear",
    "priv",
    "service",
    "refuse",
    "insert",
    "drop",
    "shift",
)


def edited(policy, edit):
    """The policy after the edit, or Refused."""
    return not_too_large(edit(policy))


def edited_together(policy, kept):
    """The policy after all of the edits, or Refused with the number of the first that is."""
    for number, edit in enumerate(kept, start=1):
        try:
            policy = edit(policy)
        except Refused as fault:
            raise Refused(f"at edit {number}: {fault}") from None
    return not_too_large(policy)


def not_too_large(policy):
    large = first_too_large(policy)
    if large is not None:
        raise Refused(f"11 TooManyStates {large.label()}")
    return policy


def read_edit(line):
    word = line.partition(" ")[0]
    if word not in WORDS or not is_text(line):
        refuse(1, "BadEdit")
    edit = READERS[word](line)
    if edit is None:
        refuse(1, "BadEdit")
    return edit


def is_subject(kind, name):
    return kind in (GROUP, USER) and is_name(name)


def read_add(line):
    match line.split(" "):
        case [_, kind, name] if is_subject(kind, name):
            return lambda policy: add(policy, kind, name, None)
        case [_, kind, name, "in", parent] if is_subject(kind, name) and is_name(parent):
            return lambda policy: add(policy, kind, name, parent)
    return None


def read_remove(line):
    match line.split(" "):
        case [_, kind, name] if is_subject(kind, name):
            return lambda policy: remove(policy, kind, name)
    return None


def read_move(line):
    match line.split(" "):
        case [_, kind, name, "out"] if is_subject(kind, name):
            return lambda policy: move(policy, kind, name, None)
        case [_, kind, name, "in", parent] if is_subject(kind, name) and is_name(parent):
            return lambda policy: move(policy, kind, name, parent)
    return None


def read_secret(line):
    match line.split(" ", 2):
        case [("login" | "enable") as word, name, text] if is_name(name):
            secret = text if is_secret(text) else None
            return lambda policy: set_secret(policy, word, name, secret)
        case [word, name, text] if is_name(name):
            secret = hash_of(text)
            return lambda policy: set_secret(policy, word.removesuffix("-hash"), name, secret)
    return None


def read_clear(line):
    match line.split(" "):
        case [_, ("login" | "enable") as word, name] if is_name(name):
            return lambda policy: clear(policy, word, USER, name)
        case [_, "priv", kind, name] if is_subject(kind, name):
            return lambda policy: clear(policy, "level", kind, name)
    match line.split(" ", 5)[1:]:
        case ["service", kind, name, service, *rest] if is_subject(kind, name):
            if is_service(service):
                attribute = rest[0] if rest else None
                return lambda policy: clear_service(policy, kind, name, service, attribute)
    return None


def read_service(line):
    match line.split(" ", 4):
        case [word, kind, name, service, *rest] if is_subject(kind, name) and is_service(service):
            if word == "service" or not rest:
                said = ServiceLine(word, service, rest[0] if rest else None)
                return lambda policy: add_service(policy, kind, name, said)
    return None


def read_level(line):
    match line.split(" "):
        case [_, kind, name, digits] if is_subject(kind, name):
            level = number_of(digits, 4)
            if level is not None:
                return lambda policy: set_level(policy, kind, name, level)
    return None


def read_insert(line):
    match line.split(" ", 5):
        case [_, kind, name, digits, verdict, source] if is_subject(kind, name):
            at = number_of(digits, 4)
            if at is not None and verdict in (PERMIT, DENY):
                return lambda policy: insert(policy, kind, name, at, verdict, source)
    return None


def read_drop(line):
    match line.split(" "):
        case [_, kind, name, digits] if is_subject(kind, name):
            at = number_of(digits, 4)
            if at is not None:
                return lambda policy: drop(policy, kind, name, at)
    return None


def read_shift(line):
    match line.split(" "):
        case [_, kind, name, first, second] if is_subject(kind, name):
            source, target = number_of(first, 4), number_of(second, 4)
            if source is not None and target is not None:
                return lambda policy: shift(policy, kind, name, source, target)
    return None


READERS = {
    "add": read_add,
    "remove": read_remove,
    "move": read_move,
    "login": read_secret,
    "enable": read_secret,
    "login-hash": read_secret,
    "enable-hash": read_secret,
    "clear": read_clear,
    "priv": read_level,
    "service": read_service,
    "refuse": read_service,
    "insert": read_insert,
    "drop": read_drop,
    "shift": read_shift,
}


def place_of(policy, kind, name):
    place = find(policy, kind, name)
    if place is None:
        refuse(2, "NoSuch")
    return place


def changed(policy, place, **fields):
    return policy[:place] + (policy[place]._replace(**fields),) + policy[place + 1 :]


def add(policy, kind, name, parent):
    above = 0
    if parent is not None:
        above = len(chain_of(policy, policy[place_of(policy, GROUP, parent)]))
    if find(policy, kind, name) is not None:
        refuse(3, "Exists")
    if above + 1 > LONGEST_CHAIN:
        refuse(6, "TooDeep")
    if len(policy) == MOST_SUBJECTS:
        refuse(10, "Limit")
    return policy + (Subject(kind, name, parent),)


def remove(policy, kind, name):
    place = place_of(policy, kind, name)
    if kind == GROUP and any(subject.parent == name for subject in policy):
        refuse(4, "InUse")
    return policy[:place] + policy[place + 1 :]


def move(policy, kind, name, parent):
    place = place_of(policy, kind, name)
    if parent is not None:
        place_of(policy, GROUP, parent)
    after = changed(policy, place, parent=parent)
    lengths = [chain_length(after, subject) for subject in after]
    if None in lengths:
        refuse(5, "Cycle")
    if max(lengths) > LONGEST_CHAIN:
        refuse(6, "TooDeep")
    return after


def set_secret(policy, word, name, secret):
    place = place_of(policy, USER, name)
    if secret is None:
        refuse(9, "BadValue")
    return changed(policy, place, **{word: secret})


def clear(policy, field, kind, name):
    return changed(policy, place_of(policy, kind, name), **{field: None})


def set_level(policy, kind, name, level):
    place = place_of(policy, kind, name)
    if level > HIGHEST_LEVEL:
        refuse(9, "BadValue")
    return changed(policy, place, level=level)


def add_service(policy, kind, name, said):
    place = place_of(policy, kind, name)
    services = policy[place].services
    if any(said.clashes(other) for other in services):
        refuse(3, "Exists")
    if not said.is_right():
        refuse(9, "BadValue")
    if len(services) == MOST_SERVICES:
        refuse(10, "Limit")
    return changed(policy, place, services=services + (said,))


def clear_service(policy, kind, name, service, attribute):
    place = place_of(policy, kind, name)
    if attribute is not None and not is_attribute(service, attribute):
        refuse(9, "BadValue")
    others = [
        line
        for line in policy[place].services
        if line.service != service or attribute not in (None, line.attribute)
    ]
    return changed(policy, place, services=tuple(others))


def insert(policy, kind, name, at, verdict, source):
    place = place_of(policy, kind, name)
    rules = policy[place].rules
    if not 1 <= at <= len(rules) + 1:
        refuse(7, "BadIndex")
    try:
        rule = Rule(verdict, read_pattern(source))
    except BadPattern as fault:
        raise Refused(f"8 BadPattern {fault}") from None
    if len(rules) == MOST_RULES:
        refuse(10, "Limit")
    return changed(policy, place, rules=rules[: at - 1] + (rule,) + rules[at - 1 :])


def drop(policy, kind, name, at):
    place = place_of(policy, kind, name)
    rules = policy[place].rules
    if not 1 <= at <= len(rules):
        refuse(7, "BadIndex")
    return changed(policy, place, rules=rules[: at - 1] + rules[at:])


def shift(policy, kind, name, source, target):
    place = place_of(policy, kind, name)
    rules = policy[place].rules
    if not (1 <= source <= len(rules) and 1 <= target <= len(rules)):
        refuse(7, "BadIndex")
    others = rules[: source - 1] + rules[source:]
    rules = others[: target - 1] + (rules[source - 1],) + others[target - 1 :]
    return changed(policy, place, rules=rules)
