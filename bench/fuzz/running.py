"""What a case comes to: output, status and the lines of the log, by the reference or by one like it.
A check has no log."""

from reference import check, script
from reference.texts import text_of


def by_reference(case, replay=script.replay, check=check.check):
    return replay(case.text) if case.command == "replay" else (*check(case.text), b"")


def told(outcome):
    """For a reader: bytes that are no symbols stand as escapes."""
    output, status, log = outcome
    return f"{escaped(text_of(output))}status {status}\n{escaped(log.decode())}"


def escaped(text):
    return text.encode("ascii", "backslashreplace").decode()
