"""What docs/TLS.md and examples/tls say, taken out to be tried."""

import re

from lib.program import TOP

EXAMPLES = TOP / "examples/tls"
PAGE = (TOP / "docs/TLS.md").read_text()


def blocks(text):
    """The blocks of a text between fences, each with the words of its fence."""
    return re.findall(r"^ *```([^`\n]*)\n(.*?)^ *```$", text, re.MULTILINE | re.DOTALL)


def commands(section):
    """The commands of a section, block by block."""
    text = PAGE.partition(f"\n## {section}\n")[2].partition("\n## ")[0]
    return [block for word, block in blocks(text) if word == "sh"]


def undocumented():
    """The examples that the page doesn't have, to the line."""
    shown = {block for _, block in blocks(PAGE)}
    return [path.name for path in sorted(EXAMPLES.iterdir()) if path.read_text() not in shown]


def example(name, *changes):
    """An example's text, each part of which that is to be another there once."""
    text = (EXAMPLES / name).read_text()
    for old, new in changes:
        if text.count(old) != 1:
            raise ValueError(f"examples/tls/{name} has {old!r} {text.count(old)} times")
        text = text.replace(old, new)
    return text
