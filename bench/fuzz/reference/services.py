"""Lines about services: reading, which of them clash, printed form, and what a request asks for
(docs/POLICY.md, "Services")."""

import re
from typing import NamedTuple, Optional

from .accounting import first_value
from .texts import is_name, is_text

LONGEST_ATTRIBUTE = 255
SHELL = "shell"


class Asked(NamedTuple):
    """What a request asks for. The protocol is empty where it names none."""

    service: str
    protocol: str


class ServiceLine(NamedTuple):
    """`word` is `service` or `refuse`; the second has no attribute."""

    word: str
    service: str
    attribute: Optional[str] = None

    def __str__(self):
        return " ".join(filter(None, self))

    def is_about(self, asked):
        """Name and protocol are compared one by one: a name that is asked for may have a slash."""
        name, _, protocol = self.service.partition("/")
        return (name, protocol) == asked

    def is_right(self):
        """Whether what is said of the service may be said of it."""
        if self.word == "refuse":
            return self.service != SHELL
        return self.attribute is None or is_attribute(self.service, self.attribute)

    def clashes(self, other):
        if self.service != other.service:
            return False
        return self == other or None in (self.attribute, other.attribute)


def is_service(text):
    name, slash, protocol = text.partition("/")
    return is_name(name) and (slash == "" or name != SHELL and is_name(protocol))


def is_attribute(service, text):
    name, *value = re.split("[=*]", text, maxsplit=1)
    if not value or name == "" or " " in name or (service, name) == (SHELL, "priv-lvl"):
        return False
    return len(text) <= LONGEST_ATTRIBUTE and is_text(text)


def asked_of(pairs):
    """What the arguments ask for: the first service, with the first protocol that isn't empty."""
    service = first_value(pairs, "service")
    protocols = [value for name, value in pairs if name == "protocol" and value != ""]
    return None if service is None else Asked(service, protocols[0] if protocols else "")
