"""Reads conversations: files of the form that tests/README.md describes."""

import itertools
import re
import typing

from .cases import Case, Mistake, replay_check
from .notation import has_packets, spelled
from .paragraphs import Line, bare, paragraphs, plain

PRINTED = ("reply ", "closed ", "fault ")
EVENTS = ("open", "packet", "bytes", "pieces", "lost")
LIST = re.compile("each ([A-Z]+) of")
# A line of the log: the number of the connection, the session, and the members after these.
LOGGED = re.compile("log ([0-9]+) ([0-9a-f]{8}) (.+)")


class Step(typing.NamedTuple):
    """A line of a script, with its end where it has one, the lines that it prints, and those that
    the log takes."""

    line: Line
    script: str
    printed: list
    logged: list


def read_talks(path, name):
    """The cases of a file, one for each conversation from each of its beginnings."""
    beginnings, lists = [[]], {}
    has_begun, is_used, used = False, True, set()
    all_paragraphs = list(paragraphs(path, name))
    has_log = any(LOGGED.fullmatch(line.text) for line in itertools.chain(*all_paragraphs))
    for paragraph in all_paragraphs:
        head = paragraph[0]
        listed = LIST.fullmatch(head.text)
        if listed:
            if listed[1] in lists or not paragraph[1:]:
                raise Mistake(f"{name}:{head.number}: an empty list, or a second one of its name")
            lists[listed[1]] = paragraph[1:]
        elif head.text == "begin":
            beginnings = [*beginnings, paragraph[1:]] if has_begun else [paragraph[1:]]
            has_begun, is_used = True, False
        else:
            has_begun, is_used = False, True
            used.update(line.text for line in itertools.chain(*beginnings, paragraph))
            for begun in beginnings:
                where = f"{name}:{head.number}"
                if len(beginnings) > 1:
                    where += f" from line {begun[0].number}"
                for lines in variants(begun + paragraph, lists):
                    yield conversation(where, lines, name, has_log)
    if not is_used:
        raise Mistake(f"{name}: nothing goes on from the last beginning")
    for unused in lists.keys() - used:
        raise Mistake(f"{name}: no line of a conversation is {unused}")


def variants(lines, lists):
    """The same lines, once for each choice from the lists that they name."""
    choices = [lists.get(line.text, [line]) for line in lines]
    return map(list, itertools.product(*choices))


def conversation(where, lines, name, has_log):
    """A case that replays each beginning of the conversation which ends after an event."""
    told = steps(lines, name)
    script = printed = logged = ""
    checks = []
    for at, step in enumerate(told):
        script += step.script
        printed += "".join(step.printed)
        logged += "".join(step.logged)
        is_last = at + 1 == len(told)
        if is_last or "\nrun\n" in f"\n{script}":
            after = f"line {step.line.number}, {step.line.text}"
            log = logged.encode() if has_log else None
            checks.append(replay_check(script.encode(), printed.encode(), after, log))
    return Case(where, checks)


def steps(lines, name):
    told = []
    is_answer = False
    for line in lines:
        text = bare(line, name)
        noted = LOGGED.fullmatch(text)
        if noted and told:
            told[-1].logged.append(log_line(*noted.groups()))
            continue
        if text.startswith(PRINTED):
            is_printed = True
        elif text.startswith("> "):
            is_printed, is_answer = False, True
            text = "console " + text.removeprefix("> ")
        else:
            is_answer = is_answer and text.partition(" ")[0] not in EVENTS
            is_printed = is_answer
        if has_packets(text) and text.count("'") % 2:
            raise Mistake(f"{name}:{line.number}: a quote is missing")
        text = plain(spelled(text))
        if not is_printed:
            told.append(Step(line, text, [], []))
        elif told:
            told[-1].printed.append(text)
        else:
            raise Mistake(f"{name}:{line.number}: nothing comes before what is printed")
    return told


def log_line(connection, session, members):
    """The line of a log, by docs/AUDIT.md, "Lines of a script"."""
    return f'{{"time":null,"device":"connection {connection}","session":"{session}",{members}}}\n'
