"""Compares what `tacd import` tells of a configuration with what the reference finds in it."""

import collections

from .meaning import LOGINS, default_of

OLDER = "that reading is left out"
DENIED = "the command is denied from here on"
FULL = " has over 255 rules: the rest is left out and denied"
# What is told of a rule begins so.
RULE = ("permit '", "deny '")
# What is told of something that was left out ends so.
LEFT_OUT = ("left out", "left out and denied", DENIED)
# What a rule finds that decides all lines: these among others.
ANY = ("", "a", "zz 9", "<cr>", "run 1 2 3")


def parsed(told):
    """The lines that are told of, each with what is told."""
    for line in told.splitlines():
        _, _, rest = line.partition(" line ")
        number, _, what = rest.partition(": ")
        yield int(number), what


def differing(meaning, told):
    """What is told otherwise than it should be, if anything. Rules aside, each line that is told has
    one that is expected, of which it has the words, and the other way round."""
    remarks = list(parsed(told))
    left = collections.Counter(expected(meaning))
    found = [*rules(meaning, remarks)]
    for number, what in remarks:
        if what.startswith(RULE) or what.endswith(FULL):
            continue
        words = next((it for it in left if it[0] == number and it[1] in what and left[it]), None)
        if words:
            left[words] -= 1
        else:
            found.append(f"line {number}: it is told that {what}\n")
    found += [f"line {number}: {words!r} isn't told\n" for number, words in left.elements()]
    return "".join(found)


def expected(meaning):
    """Of each line that is to be told, some words by which it is."""
    for subject in meaning.subjects():
        above = list(meaning.above(subject))
        if subject.member and subject.member[0] not in meaning.groups:
            yield subject.member[1], "is no group of the file"
        if subject.default and subject.default[0] == "permit":
            yield subject.default[1], "services that nobody lists"
        if above and default_of([subject, *above]) != default_of(above):
            yield subject.line, "another default than its group"
        seen = set()
        for name, line in subject.blocks:
            if name in seen:
                yield line, "is a second 'cmd' of this name"
            seen.add(name)
        yield from passwords(meaning, subject, [subject, *above])
        yield from services(meaning, subject, above)


def passwords(meaning, subject, chain):
    login, enable = meaning.login(chain), meaning.enable(chain)
    for it in subject.passwords:
        if it.fault():
            yield it.line, it.fault()
        elif it.purpose == "enable":
            if not it.is_same(enable):
                yield it.line, "is a second one, and the first counts"
        elif it is login:
            if it.purpose not in LOGINS[:2]:
                yield it.line, "is the login here"
        elif not login or it.purpose in ("arap", "ms-chap", "opap") or not it.is_same(login):
            yield it.line, "isn't the login"


def services(meaning, subject, above):
    for it in subject.services:
        if it is not subject.given[it.key()]:
            yield it.line, "is a second 'service' of this name"
        elif it.name == "shell":
            yield it.line, "is asked for as a shell"
        elif not it.called():
            yield it.line, "is no service here"
        else:
            if it.default != "permit":
                yield it.line, "refuses mandatory arguments"
            yield from attributes(it)
            if it.is_shell():
                yield from levels(it, meaning.have_level(above))


def attributes(service):
    for at, it in enumerate(service.attributes):
        if not (service.is_level(it) or it.is_one() or it in service.attributes[:at]):
            yield service.lines[at], "is no attribute here"


def levels(shell, have_level):
    level, is_optional = shell.level()
    if is_optional:
        yield shell.line, "is given as mandatory here"
    if level is None and have_level:
        yield shell.line, "'priv 1' is written"
    is_found = False
    for it, line in zip(shell.attributes, shell.lines):
        if it.name == "priv-lvl":
            if is_found or it.level() is None:
                yield line, "is no level of 0 to 15"
            is_found |= it.level() is not None


def rules(meaning, remarks):
    older = {number for number, what in remarks if what.endswith(OLDER)}
    told = {number for number, what in remarks if what.startswith(RULE)}
    denied = {number for number, what in remarks if what.endswith(DENIED)}
    full = {number for number, what in remarks if what.endswith(FULL)}
    for subject in meaning.subjects():
        for block in subject.commands.values():
            for _, wanted, line in block:
                if subject.line in full and line not in told:
                    # It may be among the rest.
                    break
                what = fault(wanted, line in older, line in told)
                if what:
                    yield f"line {line}: {wanted.text} {what}\n"
                if line in denied or all(wanted.search(text) for text in ANY):
                    # Nothing after it is looked at.
                    break


def fault(wanted, is_older_told, is_told):
    """What is wrong with what is told of an expression. One that the C library refuses is told in some
    way, and of one that the older expressions refuse it doesn't matter."""
    if not wanted.is_taken():
        return None if is_told else "is no expression, and isn't told"
    if is_older_told:
        return None if wanted.differs() else "is read alike by older expressions, and is told"
    if wanted.differs() and wanted.is_taken_by_older():
        return "is read otherwise by older expressions, and isn't told"
    return None
