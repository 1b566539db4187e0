"""The grammars of patterns, their refusals, and the flat form (docs/POLICY.md, "Patterns").

A term is a tuple of factors. A factor is a pair: CLASS and the frozen set of its symbols, or GROUP
or STAR and the tuple of its terms.
"""

import re
from typing import NamedTuple

from .texts import FIRST_SYMBOL, LAST_SYMBOL, SYMBOLS

LONGEST_PATTERN = {1: 200, 2: 400}
MOST_FACTORS = 400
MOST_OPEN = 32
MOST_REPEATS = 32
COUNT = re.compile(r"\{([0-9]{1,2})(?:,([0-9]{1,2}))?\}")

CLASS, GROUP, STAR = "class", "group", "star"
EVERY_SYMBOL = frozenset(SYMBOLS)


class BadPattern(Exception):
    """A refusal, as it is printed: `M REFUSAL`, with ` at P` where it has a place."""


def refusal(number, name, place=None):
    return BadPattern(f"{number} {name}" + ("" if place is None else f" at {place}"))


class Pattern(NamedTuple):
    source: str
    terms: tuple


def read_pattern(source, version=2):
    """The pattern that the source spells in this version; its own source is of version 2."""
    if len(source) > LONGEST_PATTERN[version]:
        raise refusal(1, "TooLong")
    for place, symbol in enumerate(source):
        if not FIRST_SYMBOL <= ord(symbol) <= LAST_SYMBOL:
            raise refusal(2, "Unprintable", place)
    alternatives = Reader(source, version).read()
    if sum(size_of_sequence(sequence) for sequence in alternatives) > MOST_FACTORS:
        raise refusal(9, "TooLarge")
    return Pattern(source if version == 2 else upgraded(source), terms_of(alternatives))


def upgraded(source):
    """The source of version 2 for one of version 1: braces outside classes are quoted."""
    found = ""
    in_class = quoted = False
    for symbol in source:
        if symbol in "{}" and not in_class and not quoted:
            found += "\\"
        found += symbol
        if not quoted and symbol in "[]":
            in_class = symbol == "["
        quoted = symbol == "\\" and not quoted
    return found


class Reader:
    """Reads the source from the left into its syntax.

    Alternatives are a list of sequences, a sequence a list of units, and a unit a pair: "symbols"
    and a set, "parentheses" and alternatives, one of `*`, `+`, `?` and the unit before it, or
    "count" and a triple of the unit before it and how often it stands, at least and at most.
    """

    def __init__(self, source, version):
        self.source = source
        self.version = version
        self.place = 0

    def read(self):
        open_places = []  # Of each parenthesis that is open, with what stands before it.
        alternatives = [[]]
        while self.place < len(self.source):
            at, symbol = self.place, self.source[self.place]
            self.place += 1
            if symbol == "|":
                alternatives.append([])
            elif symbol in "*+?":
                if not alternatives[-1]:
                    raise refusal(5, "NothingToRepeat", at)
                alternatives[-1].append((symbol, alternatives[-1].pop()))
            elif symbol in "{}" and self.version == 2:
                if symbol == "{" and not alternatives[-1]:
                    raise refusal(5, "NothingToRepeat", at)
                low, high = self.counts(at)
                alternatives[-1].append(("count", (alternatives[-1].pop(), low, high)))
            elif symbol == "(":
                if len(open_places) == MOST_OPEN:
                    raise refusal(8, "TooDeep")
                open_places.append((at, alternatives))
                alternatives = [[]]
            elif symbol == ")":
                if not open_places:
                    raise refusal(4, "Unopened", at)
                unit = ("parentheses", alternatives)
                _, alternatives = open_places.pop()
                alternatives[-1].append(unit)
            else:
                alternatives[-1].append(("symbols", self.set_of_atom(at, symbol)))
        if open_places:
            raise refusal(3, "Unclosed", open_places[-1][0])
        return alternatives

    def counts(self, at):
        """What the brace at this place says, in a right suffix."""
        suffix = COUNT.match(self.source, at)
        if suffix is None:
            raise refusal(11, "BadRepeat", at)
        low, high = int(suffix[1]), int(suffix[2] or suffix[1])
        if not low <= high <= MOST_REPEATS:
            raise refusal(11, "BadRepeat", at)
        self.place = suffix.end()
        return low, high

    def set_of_atom(self, at, symbol):
        if symbol == ".":
            return EVERY_SYMBOL
        if symbol == "[":
            symbols = self.class_symbols()
            if symbols is None:
                raise refusal(6, "BadClass", at)
            return symbols
        if symbol == "\\":
            if self.place == len(self.source):
                raise refusal(7, "BadEscape", at)
            symbol = self.source[self.place]
            self.place += 1
        return frozenset(symbol)

    def class_symbols(self):
        """The symbols of the class whose `[` was read, or None where it is none."""
        negated = self.source[self.place : self.place + 1] == "^"
        if negated:
            self.place += 1
        named = set()
        items = 0
        while self.source[self.place : self.place + 1] != "]":
            first = last = self.class_symbol()
            if first is None:
                return None
            if self.source[self.place : self.place + 1] == "-":
                self.place += 1
                last = self.class_symbol()
                if last is None or last < first:
                    return None
            named.update(chr(code) for code in range(ord(first), ord(last) + 1))
            items += 1
        self.place += 1
        if items == 0:
            return None
        return EVERY_SYMBOL - named if negated else frozenset(named)

    def class_symbol(self):
        """The next end of a range, or None where none stands there."""
        symbol = self.source[self.place : self.place + 1]
        self.place += 1
        if symbol == "\\":
            symbol = self.source[self.place : self.place + 1]
            self.place += 1
            return symbol or None
        return None if symbol in ("", "]", "-") else symbol


def is_one_group(unit):
    """Whether its factors are exactly one group."""
    kind, content = unit
    if kind == "count":
        inner, low, high = content
        if low == 0 or length_of(inner) == 0:
            return high - low == 1
        return low == high == 1 and is_one_group(inner)
    return kind in ("parentheses", "?")


def length_of(unit):
    """How many factors it has side by side."""
    kind, content = unit
    if kind == "count":
        inner, low, high = content
        return low * length_of(inner) + high - low
    return length_of(content) + 1 if kind == "+" else 1


def size_of_sequence(units):
    return sum(size_of(unit) for unit in units)


def size_of(unit):
    kind, content = unit
    if kind == "symbols":
        return 1
    if kind == "parentheses":
        return 1 + sum(size_of_sequence(sequence) for sequence in content)
    if kind == "?":
        return 1 + size_of(content)
    if kind == "count":
        inner, low, high = content
        return high * size_of(inner) + high - low
    size = size_of(content)
    starred = size if is_one_group(content) else 1 + size
    return starred if kind == "*" else size + starred


def terms_of(alternatives):
    return tuple(term_of(sequence) for sequence in alternatives)


def term_of(units):
    return tuple(factor for unit in units for factor in factors_of(unit))


def factors_of(unit):
    kind, content = unit
    if kind == "symbols":
        return ((CLASS, content),)
    if kind == "parentheses":
        return ((GROUP, terms_of(content)),)
    if kind == "count":
        inner, low, high = content
        # What stands 0 times is left out, however large it is.
        factors = factors_of(inner) if high > 0 else ()
        return factors * low + ((GROUP, (factors, ())),) * (high - low)
    factors = factors_of(content)
    if kind == "?":
        return ((GROUP, (factors, ())),)
    terms = factors[0][1] if is_one_group(content) else (factors,)
    star = ((STAR, terms),)
    return star if kind == "*" else factors + star
