"""What a server tells of itself, as Prometheus's text format has it."""

import re

HELP = re.compile(r"# HELP ([a-z_]+) [A-Z1].+[.]")
KIND = re.compile(r"# TYPE ([a-z_]+) (counter|gauge)")
LABEL = r'[a-z]+="[^"\\]*"'
NUMBER = re.compile(rf"([a-z_]+)(\{{{LABEL}(?:,{LABEL})*\}})? (\d+)")


def numbers(text):
    """The numbers of a text, by their names."""
    told = (line.rpartition(" ") for line in text.splitlines() if not line.startswith("#"))
    return {name: int(number) for name, _, number in told}


def fault_of(text):
    """What is wrong with a text by the rules of the format, or nothing. Before the numbers of a name
    stand what they are and of which kind, each once."""
    name, kind, helped, seen = None, None, set(), set()
    for line in text.removesuffix("\n").split("\n"):
        if told := HELP.fullmatch(line):
            name, kind = told[1], None
            if name in helped:
                return f"{name} is told twice"
            helped.add(name)
        elif told := KIND.fullmatch(line):
            kind = told[2]
            if told[1] != name:
                return f"{line!r} is below {name}"
            if (kind == "counter") != name.endswith("_total"):
                return f"{name} is no {kind}"
        else:
            told = NUMBER.fullmatch(line)
            if told is None or told[1] != name or kind is None:
                return f"{line!r} is below {name}, a {kind}"
            if line.rpartition(" ")[0] in seen:
                return f"{line!r} is there twice"
            seen.add(line.rpartition(" ")[0])
    return "" if text.endswith("\n") else "the last line isn't whole"
