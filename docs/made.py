"""What the scripts of docs/ share: where the sources are, and the made part of a page."""
import os
import sys

TOP = os.path.dirname(os.path.dirname(os.path.realpath(__file__)))


def read(*parts):
    with open(os.path.join(TOP, *parts), encoding="utf-8") as it:
        return it.read()


def crates():
    """The names in crates.txt, lowest first."""
    return [line.split(":")[0] for line in read("crates.txt").split("\n")
            if ":" in line and line[0] != "#"]


class Page:
    """A page of docs/ of which a part is made: between two lines that say so."""

    def __init__(self, name, begin, end):
        self.name = name
        self.text = read("docs", name)
        self.begin, self.end = f"<!-- {begin} -->", f"<!-- {end} -->"
        if self.begin not in self.text or self.end not in self.text:
            sys.exit(f"docs/{name}: there is no line '{self.begin}', or none that ends it")

    def made(self):
        return self.text.partition(self.begin)[2].partition(self.end)[0]

    def has(self, lines):
        return self.made() == "\n".join(["", "", *lines, "", ""])

    def write(self, lines):
        before, _, rest = self.text.partition(self.begin)
        after = rest.partition(self.end)[2]
        made = "\n".join(["", "", *lines, "", ""])
        with open(os.path.join(TOP, "docs", self.name), "w", encoding="utf-8") as it:
            it.write(before + self.begin + made + self.end + after)
