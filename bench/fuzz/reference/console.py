"""What the console answers to a line (docs/CONSOLE.md)."""

from . import edits
from .decisions import changes_of, decision_on, permits, reach_of, shadowed
from .edits import is_subject
from .given import changed_lines, given_lines
from .policy import GROUP, USER, Refused, find, printed, refuse
from .services import is_service
from .texts import is_name, is_text, lines_of, percent_form


MOST_KEPT = 64


def answer(desk, line):
    """The answer; an edit or a batch that is accepted changes the desk's policy."""
    try:
        lines = said_to(desk, line)
    except Refused as fault:
        lines = [f"refused {fault}"]
    return "".join(said + "\n" for said in lines)


def said_to(desk, line):
    if line in ("begin", "commit", "abandon"):
        return batch(desk, line)
    if line.partition(" ")[0] not in edits.WORDS:
        return ask(desk, line)
    edit = edits.read_edit(line)
    if desk.batch is not None:
        return keep(desk, edit)
    return change(desk, edits.edited(desk.policy, edit))


def batch(desk, word):
    """A batch is the list of the kept edits, or None."""
    if (word == "begin") != (desk.batch is None):
        refuse(1, "BadEdit")
    kept, desk.batch = desk.batch, [] if word == "begin" else None
    if word == "commit":
        return change(desk, edits.edited_together(desk.policy, kept))
    return ["ok"]


def keep(desk, edit):
    if len(desk.batch) == MOST_KEPT:
        refuse(10, "Limit")
    desk.batch.append(edit)
    return [f"kept {len(desk.batch)}"]


def change(desk, policy):
    before, desk.policy = desk.policy, policy
    lines = ["ok"]
    for user, permitted, denied in changes_of(before, policy):
        if permitted is not None:
            lines.append(f"user {user} now permits: {permitted}")
        if denied is not None:
            lines.append(f"user {user} now denies: {denied}")
    return lines + changed_lines(before, policy)


def ask(desk, line):
    if not is_text(line):
        refuse(1, "BadEdit")
    match line.split(" ", 2):
        case ["policy"]:
            return lines_of(printed(desk.policy))
        case ["shadow"]:
            return shadow_lines(desk.policy)
        case ["records"]:
            return record_lines(desk.records, desk.forgotten)
        case ["reach", kind, name] if is_subject(kind, name):
            return reach_lines(desk.policy, kind, name)
        case ["tally", kind, name] if is_subject(kind, name):
            return [tally_line(desk, kind, name)]
        case ["why", name, *rest] if is_name(name):
            return [why_line(desk, name, rest[0] if rest else "")]
        case ["given", name, service] if is_name(name) and is_service(service):
            return given_lines(desk, name, service)
    refuse(1, "BadEdit")


def shadow_lines(policy):
    found = shadowed(policy)
    return [f"shadowed in {subject.label()}: {entry}" for subject, entry in found] or ["none"]


def reach_lines(policy, kind, name):
    place = find(policy, kind, name)
    if place is None:
        refuse(2, "NoSuch")
    lines = [
        f"{entry} never reached" if least is None else f"{entry} first reached by: {least}"
        for entry, least in reach_of(policy, policy[place])
    ]
    return lines or ["none"]


def tally_line(desk, kind, name):
    if kind == USER:
        return f"tally user {name} {desk.tally(name)}"
    if find(desk.policy, GROUP, name) is None:
        refuse(2, "NoSuch")
    return f"tally group {name} {desk.group_tally(name)}"


def why_line(desk, name, line):
    user = desk.user(name)
    if user is None:
        return "unknown user"
    entry = decision_on(desk.policy, user, line)
    return f"{'permitted' if permits(entry) else 'denied'} by {entry or 'default'}"


def record_lines(records, forgotten):
    lines = []
    for number, record in enumerate(records, start=forgotten + 1):
        user, task = percent_form(record.user), percent_form(record.task)
        line = f"record {number} user {user} {record.kind} task {task} elapsed {record.elapsed}"
        if record.line is not None:
            line += f" line {percent_form(record.line)}"
        lines.append(line)
    return lines or ["none"]
