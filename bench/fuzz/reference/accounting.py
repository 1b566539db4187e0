"""Arguments, lines, records and tallies (docs/DEFINITIONS.md, "The line of a request" and "Records
and tallies")."""

from typing import NamedTuple, Optional

from .texts import DIGITS, is_text, text_of

START, STOP, WATCHDOG, UPDATE = "start", "stop", "watchdog", "update"


def split_argument(argument):
    """Name and value round the first sign, or None where there is none."""
    for place, symbol in enumerate(argument):
        if symbol in "=*":
            return argument[:place], argument[place + 1 :]
    return None


def pairs_of(arguments):
    return [split_argument(text_of(argument)) for argument in arguments]


def first_value(pairs, name):
    for pair in pairs:
        if pair is not None and pair[0] == name:
            return pair[1]
    return None


def command_of(pairs):
    """The line of a command, whatever the service is, or None where there is no command."""
    command = first_value(pairs, "cmd")
    if command is None:
        return None
    return " ".join([command] + [value for name, value in pairs if name == "cmd-arg"])


def line_of(pairs):
    """The line of a shell, or None where the service is another one or there is no command."""
    return command_of(pairs) if first_value(pairs, "service") == "shell" else None


class Record(NamedTuple):
    user: str
    kind: str
    task: str
    elapsed: int
    line: Optional[str]


def kind_of(flags):
    return {0x02: START, 0x04: STOP, 0x08: WATCHDOG, 0x0A: UPDATE}.get(flags & 0x0E)


def record_of(request, kind):
    pairs = pairs_of(request.arguments)
    line = None if None in pairs else command_of(pairs)
    if line is not None and not is_text(line):
        line = None
    return Record(
        text_of(request.user),
        kind,
        first_value(pairs, "task_id") or "",
        seconds_of(first_value(pairs, "elapsed_time") or ""),
        line,
    )


def seconds_of(text):
    if text == "" or any(symbol not in DIGITS for symbol in text):
        return 0
    return int(text) if int(text) < 2**32 else 0


class Tally(NamedTuple):
    starts: int
    stops: int
    watchdogs: int
    updates: int
    open: int
    elapsed: int
    drift: int

    def __str__(self):
        return " ".join(f"{name} {count}" for name, count in self._asdict().items())


def tally_of(records, is_denied):
    """The tally of one user's records, in their order."""
    stops = [record for record in records if record.kind == STOP]

    def count(kind):
        return sum(record.kind == kind for record in records)

    last = {record.task: record.kind for record in records if record.kind in (START, STOP)}
    return Tally(
        starts=count(START),
        stops=len(stops),
        watchdogs=count(WATCHDOG),
        updates=count(UPDATE),
        open=sum(kind == START for kind in last.values()),
        elapsed=sum(record.elapsed for record in stops),
        drift=sum(record.line is not None and is_denied(record.line) for record in stops),
    )


def sum_of(tallies):
    return Tally(*(sum(counts) for counts in zip(*tallies))) if tallies else Tally(*[0] * 7)
