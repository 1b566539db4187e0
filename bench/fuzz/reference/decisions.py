"""Chains, decisions, what is said of services, sizes and reports (docs/DEFINITIONS.md, "The policy"
and "Reports")."""

from typing import NamedTuple

from .policy import GROUP, PERMIT, USER, find
from .residuals import first_match, has_more_states, state_of, states_with_least_texts

MOST_STATES = 16384


class Entry(NamedTuple):
    """A rule along a chain: whose it is, its number there, and the rule."""

    owner: str
    number: int
    rule: object

    def __str__(self):
        return f"{self.owner} rule {self.number}"


def chain_of(policy, subject):
    chain = [subject]
    while chain[-1].parent is not None:
        chain.append(policy[find(policy, GROUP, chain[-1].parent)])
    return chain


def entries_of(policy, subject):
    return [
        Entry(owner.label(), number, rule)
        for owner in chain_of(policy, subject)
        for number, rule in enumerate(owner.rules, start=1)
    ]


def patterns_of(entries):
    return [entry.rule.pattern for entry in entries]


def decision_on(policy, subject, line):
    """The first entry that matches the whole line, or None where it is denied by default."""
    entries = entries_of(policy, subject)
    place = first_match(state_of(patterns_of(entries), line))
    return None if place is None else entries[place]


def permits(entry):
    return entry is not None and entry.rule.verdict == PERMIT


def level_of(policy, subject):
    levels = [owner.level for owner in chain_of(policy, subject) if owner.level is not None]
    return levels[0] if levels else None


def said_of(policy, subject, asked):
    """The nearest of the chain who has lines about what is asked for, and these; or no lines."""
    for owner in chain_of(policy, subject):
        lines = [line for line in owner.services if line.is_about(asked)]
        if lines:
            return owner, lines
    return None, []


def attributes_of(lines):
    return [line.attribute for line in lines if line.attribute is not None]


def first_too_large(policy):
    """The first subject whose rules along the chain have too many states, or None."""
    small = set()
    for subject in policy:
        patterns = tuple(patterns_of(entries_of(policy, subject)))
        if patterns not in small and has_more_states(patterns, MOST_STATES):
            return subject
        small.add(patterns)
    return None


def reach_of(policy, subject):
    """Each entry with the least line that it decides, or with None."""
    entries = entries_of(policy, subject)
    least = [None] * len(entries)
    for text, (state,) in states_with_least_texts(patterns_of(entries)):
        place = first_match(state)
        if place is not None and least[place] is None:
            least[place] = text
    return list(zip(entries, least))


def shadowed(policy):
    """Each subject with each entry of it that decides no line."""
    return [
        (subject, entry)
        for subject in policy
        for entry, least in reach_of(policy, subject)
        if least is None
    ]


def changes_of(before, after):
    """Each user with the least line that it may give now, and that it may no longer, or None."""
    users = [subject for subject in after if subject.kind == USER]
    gone = [
        subject
        for subject in before
        if subject.kind == USER and find(after, USER, subject.name) is None
    ]
    changes = []
    for user in users + gone:
        old, new = entries_of_user(before, user.name), entries_of_user(after, user.name)
        if old != new:
            changes.append((user.name, *least_changes(old, new)))
    return [change for change in changes if change[1] is not None or change[2] is not None]


def entries_of_user(policy, name):
    """A user that isn't there may do nothing, as one without rules."""
    place = find(policy, USER, name)
    return [] if place is None else entries_of(policy, policy[place])


def least_changes(old, new):
    permitted = denied = None
    for text, (before, after) in states_with_least_texts(patterns_of(old), patterns_of(new)):
        was = is_permitted(old, before)
        now = is_permitted(new, after)
        if now and not was and permitted is None:
            permitted = text
        if was and not now and denied is None:
            denied = text
    return permitted, denied


def is_permitted(entries, state):
    place = first_match(state)
    return place is not None and permits(entries[place])
