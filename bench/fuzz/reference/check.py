"""What `tacd check` prints of a policy's text, and how it ends (docs/POLICY.md, "Checking a
policy")."""

from .console import shadow_lines
from .decisions import first_too_large
from .policy import BadPolicy, read_policy
from .script import DONE, FAULT
from .texts import bytes_of, lines_of, text_of


def check(text):
    """The output and the status."""
    try:
        policy = read_policy(lines_of(text_of(text)))
    except BadPolicy as fault:
        return bytes_of(f"fault line {fault.line} {fault.refused}\n"), FAULT
    large = first_too_large(policy)
    if large is not None:
        return bytes_of(f"fault TooManyStates {large.label()}\n"), FAULT
    rules = sum(len(subject.rules) for subject in policy)
    services = sum(len(subject.services) for subject in policy)
    counts = f"policy ok: {len(policy)} subjects, {rules} rules"
    if services > 0:
        counts += f", {services} service lines"
    lines = [counts] + shadow_lines(policy)
    return bytes_of("".join(line + "\n" for line in lines)), DONE
