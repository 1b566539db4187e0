"""Regular expressions as tac_plus reads them: by the C library, or by Henry Spencer's older ones, as
its build has it. Both become a tree of tuples, so that equal trees find the same."""

SYMBOLS = frozenset(map(chr, range(0x20, 0x7F)))
WORDS = frozenset(it for it in SYMBOLS if it.isalnum() or it == "_")
NAMED = {
    "alpha": str.isalpha, "digit": str.isdigit, "alnum": str.isalnum, "upper": str.isupper,
    "lower": str.islower, "space": str.isspace, "print": lambda it: True,
}
# What the C library knows after a backslash.
CLASSES = {"w": WORDS, "W": SYMBOLS - WORDS, "s": frozenset(" "), "S": SYMBOLS - frozenset(" ")}
EDGES = {
    "b": lambda before, after: before != after,
    "B": lambda before, after: before == after,
    "<": lambda before, after: not before and after,
    ">": lambda before, after: before and not after,
}


class Refused(ValueError):
    """That an expression is none."""


class Reader:
    """What both have: alternatives, parentheses, anchors, and signs that repeat one."""

    SIGNS = {"*": (0, None), "+": (1, None), "?": (0, 1)}

    def __init__(self, text):
        self.text, self.at = text, 0

    def whole(self):
        node = self.alternatives()
        if self.at != len(self.text):
            raise Refused(f"{self.text} has a parenthesis too many")
        return node

    def peek(self, length=1):
        return self.text[self.at:self.at + length]

    def take(self):
        if self.at >= len(self.text):
            raise Refused(f"{self.text} ends too early")
        self.at += 1
        return self.text[self.at - 1]

    def alternatives(self):
        branches = [self.branch()]
        while self.peek() == "|":
            self.take()
            branches.append(self.branch())
        return ("one of", tuple(branches))

    def branch(self):
        parts = []
        while self.peek() and self.peek() not in "|)":
            parts.append(self.part())
        return ("one after another", tuple(parts))

    def atom(self):
        sign = self.take()
        if sign == "(":
            inner = self.alternatives()
            if self.take() != ")":
                raise Refused(f"{self.text} has a parenthesis too few")
            return inner
        if sign in "*+?":
            raise Refused(f"{self.text} repeats nothing")
        if sign == "[":
            return ("symbol", self.members())
        if sign in "^$":
            return ("begin" if sign == "^" else "end",)
        if sign == ".":
            return ("symbol", SYMBOLS)
        if sign == "\\":
            return self.escaped(self.take())
        return ("symbol", frozenset(sign))

    def members(self):
        """A class, in which a backslash is itself, and a bracket that stands first."""
        is_negated = self.peek() == "^"
        if is_negated:
            self.take()
        found, is_first = set(), True
        while is_first or self.peek() != "]":
            self.member(found)
            is_first = False
        self.take()
        return SYMBOLS - found if is_negated else frozenset(found)

    def span(self, first, last):
        if first > last:
            raise Refused(f"{self.text} has a range that ends before it begins")
        return {it for it in SYMBOLS if first <= it <= last}


class Library(Reader):
    """The C library's."""

    def part(self):
        part = self.atom()
        while self.peek() and self.peek() in "*+?{":
            if part[0] in ("begin", "end"):
                raise Refused(f"{self.text} repeats nothing")
            part = ("repeated", part, *self.count())
        return part

    def count(self):
        sign = self.take()
        if sign != "{":
            return self.SIGNS[sign]
        end = self.text.find("}", self.at)
        low, comma, high = self.text[self.at:end].partition(",")
        if end < 0 or not low.isdigit() or not (high or "0").isdigit():
            raise Refused(f"{self.text} has a brace that begins no count")
        self.at = end + 1
        if not comma:
            return int(low), int(low)
        return int(low), int(high) if high else None

    def atom(self):
        if self.peek() == "{":
            raise Refused(f"{self.text} has a brace that begins no count")
        return super().atom()

    def escaped(self, sign):
        if sign in CLASSES:
            return ("symbol", CLASSES[sign])
        if sign in EDGES:
            return ("edge", sign)
        if sign in "`'":
            return ("begin" if sign == "`" else "end",)
        if sign in "123456789":
            return ("back", sign)
        return ("symbol", frozenset(sign))

    def member(self, found):
        if self.peek(2) in ("[:", "[.", "[="):
            found |= self.named(self.peek(2)[1])
            return
        first = self.take()
        if self.peek() != "-" or self.peek(2) == "-]":
            found.add(first)
            return
        self.take()
        found |= self.span(first, self.take())
        if self.peek() == "-" and self.peek(2) != "-]":
            raise Refused(f"{self.text} has a '-' after a range")

    def named(self, sign):
        end = self.text.find(f"{sign}]", self.at + 2)
        if end < 0:
            raise Refused(f"{self.text} has a class that isn't closed")
        name = self.text[self.at + 2:end]
        self.at = end + 2
        if sign != ":":
            return {name}
        return {it for it in SYMBOLS if NAMED[name](it)}


class Older(Reader):
    """Henry Spencer's of 1986: they have neither counts nor classes by name, and a backslash takes
    what follows it as it is."""

    def part(self):
        part = self.atom()
        if not self.peek() or self.peek() not in self.SIGNS:
            return part
        sign = self.take()
        if sign != "?" and not has_width(part):
            raise Refused(f"{self.text} repeats what may be empty")
        if self.peek() and self.peek() in self.SIGNS:
            raise Refused(f"{self.text} repeats what is repeated")
        return ("repeated", part, *self.SIGNS[sign])

    def escaped(self, sign):
        return ("symbol", frozenset(sign))

    def members(self):
        is_negated = self.peek() == "^"
        if is_negated:
            self.take()
        last, found = None, set()
        if self.peek() and self.peek() in "]-":
            last = self.take()
            found.add(last)
        while self.peek() != "]":
            sign = self.take()
            if sign == "-" and self.peek() != "]":
                first, last = last, self.take()
                found |= self.span(first, last)
            else:
                last = sign
                found.add(sign)
        self.take()
        return SYMBOLS - found if is_negated else frozenset(found)


def has_width(node):
    """Whether the older expressions hold that a part is never empty."""
    kind, *rest = node
    if kind == "one of":
        return all(has_width(it) for it in rest[0])
    if kind == "one after another":
        return any(has_width(it) for it in rest[0])
    if kind == "repeated":
        return rest[1] > 0
    return kind == "symbol"


def read(reader, text):
    """The tree of an expression, or none where it is refused."""
    try:
        return reader(text).whole()
    except Refused:
        return None


class Expression:
    """An expression that is searched for, as the C library has it, by sets of places, so that none
    takes long."""

    def __init__(self, text):
        self.text = text
        self.node = read(Library, text)

    def is_taken(self):
        return self.node is not None

    def differs(self):
        """Whether the older expressions don't read it so: otherwise, or not at all."""
        return read(Older, self.text) != self.node

    def is_taken_by_older(self):
        return read(Older, self.text) is not None

    def search(self, text):
        if self.node is None:
            return False
        return bool(self.ends(self.node, text, set(range(len(text) + 1))))

    def ends(self, node, text, starts):
        """Where a node may end that begins at one of these places."""
        kind, *rest = node
        if kind == "symbol":
            return {at + 1 for at in starts if at < len(text) and text[at] in rest[0]}
        if kind == "begin":
            return starts & {0}
        if kind == "end":
            return starts & {len(text)}
        if kind == "edge":
            return {at for at in starts if EDGES[rest[0]](
                text[at - 1:at] in WORDS if at else False, text[at:at + 1] in WORDS)}
        if kind == "back":
            # No policy says one, so nothing is compared with this.
            return starts
        if kind == "one of":
            return set().union(*(self.ends(it, text, starts) for it in rest[0]))
        if kind == "one after another":
            for part in rest[0]:
                starts = self.ends(part, text, starts)
            return starts
        return self.repeated(text, starts, *rest)

    def repeated(self, text, starts, part, low, high):
        for _ in range(low):
            starts = self.ends(part, text, starts)
        found = new = starts
        for _ in range(len(text) + 1 if high is None else high - low):
            new = self.ends(part, text, new) - found
            found = found | new
        return found
