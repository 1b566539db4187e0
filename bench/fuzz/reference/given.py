"""What users are given for services: what `given` answers (docs/REVIEW.md, "What is given for a
service"), and what is told of a change of the policy (docs/CONSOLE.md, "What is told of
services")."""

from .decisions import attributes_of, chain_of, decision_on, permits, said_of
from .desk import Desk
from .policy import USER, find
from .services import SHELL, Asked


def given_lines(desk, name, service):
    user = desk.user(name)
    if user is None:
        return ["unknown user"]
    owner, lines = said_of(desk.policy, user, asked(service))
    attributes = [] if owner is None else gives(owner, attributes_of(lines))
    if service == SHELL:
        entry = decision_on(desk.policy, user, "")
        first = f"{'permitted' if permits(entry) else 'denied'} by {entry or 'default'}"
        return [first, *level_lines(desk.policy, user), *attributes] if permits(entry) else [first]
    if owner is None:
        return ["unsupported service"]
    if lines[0].word == "refuse":
        return [f"refused by {owner.label()}"]
    return [f"granted by {owner.label()}", *attributes]


def asked(service):
    name, _, protocol = service.partition("/")
    return Asked(name, protocol)


def gives(owner, arguments):
    return [f"{owner.label()} gives {argument}" for argument in arguments]


def level_lines(policy, user):
    for subject in chain_of(policy, user):
        if subject.level is not None:
            return gives(subject, [f"priv-lvl={subject.level}"])
    return []


def changed_lines(before, after):
    """What is told of all users and services where a policy takes the place of another."""
    users = [subject.name for subject in after if subject.kind == USER]
    users += [
        subject.name
        for subject in before
        if subject.kind == USER and find(after, USER, subject.name) is None
    ]
    old, new = Desk(before), Desk(after)
    return [
        line
        for user in users
        for service in services_named(before, after)
        for line in told(user, service, reply_of(old, user, service), reply_of(new, user, service))
    ]


def services_named(before, after):
    lines = [line for policy in (after, before) for subject in policy for line in subject.services]
    return list(dict.fromkeys([SHELL, *(line.service for line in lines)]))


def reply_of(desk, user, service):
    """The arguments, or None where it isn't granted; a shell that doesn't start has none."""
    if service == SHELL:
        return desk.line_answered(user, "")[1]
    why, arguments = desk.service_answered(user, asked(service))
    return arguments if why is None else None


def told(user, service, was, now):
    said = f"user {user} service {service}"
    if was == now:
        return []
    if now is None:
        return [f"{said} now refused"]
    if was is None:
        return [f"{said} now granted", *(f"{said} now gives: {argument}" for argument in now)]
    lines = [f"{said} now gives: {argument}" for argument in now if argument not in was]
    lines += [f"{said} no longer gives: {argument}" for argument in was if argument not in now]
    return lines or [f"{said} gives the same in another order"]
