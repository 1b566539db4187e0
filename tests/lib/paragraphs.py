"""The paragraphs of a file of tests, and how their lines stand for those of a text."""

import typing

from .cases import Mistake

# The picture of the end of a text, and of each other control character.
END = "\u2403"
PICTURES = {0x2400 + code: code for code in range(0x20) if chr(0x2400 + code) != END}
PICTURES[0x2421] = 0x7F


class Line(typing.NamedTuple):
    number: int
    text: str


def paragraphs(path, name):
    """The paragraphs of a file, without its comments."""
    lines = path.read_text("utf-8").split("\n")
    paragraph = []
    for number, text in enumerate(lines, start=1):
        if text.startswith("#"):
            continue
        if text != text.strip():
            raise Mistake(f"{name}:{number}: a line with blanks at an end stands between bars")
        if text:
            paragraph.append(Line(number, text))
        elif paragraph:
            yield paragraph
            paragraph = []
    if paragraph:
        raise Mistake(f"{name}: the last line has no end")


def bare(line, name):
    """The line without the bars that it stands between, if it does."""
    text = line.text
    if not text.startswith("|"):
        return text
    if len(text) < 2 or not text.endswith("|"):
        raise Mistake(f"{name}:{line.number}: the second bar is missing")
    return text[1:-1]


def plain(text):
    """The line with its end, and with characters in place of their pictures."""
    text = text.removesuffix(END) if text.endswith(END) else text + "\n"
    return text.translate(PICTURES)
