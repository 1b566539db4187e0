"""Patterns of all operators, texts that they hold, and patterns that are none or at a limit."""

from reference.patterns import CLASS, STAR

LITERALS = "aaabbbsh  "
SPECIAL = "|*+?.[()\\{}"
ODD_LITERALS = "^-]{}~\"#%0Z"
COMMANDS = ["show ", "sh", "a", "", ""]
SEARCHED = "b s h a v n ab ba bb sh hs ss sa bab vlan vn [ab]h (sh|nb) (h|b)s n{2}".split()
COUNTS = ["{2}", "{0}", "{1}", "{0,1}", "{1,3}", "{02}", "{0,0}", "{3,2}", "{33}", "{,2}"]


def pattern(choices, wrong=0.02):
    """Mostly small ones that are right: an operator here and there over few symbols."""
    if choices.chance(wrong):
        kind = choices.choice(["spoiled", "invalid"])
    else:
        kind = choices.kind({"drawn": 60, "words": 25, "all": 5, "empty": 3, "search": 2})
    match kind:
        case "drawn":
            return alternatives(choices, choices.count(1, 7), 3)
        case "words":
            return words(choices)
        case "all":
            return choices.choice([".*", ".+", "a.*", ".*b", "[^a]*", "()", "(()*)*", "s.*"])
        case "empty":
            return choices.choice(["", "()", "|", "[^ -~]", "[^ -~]*", "a|", "()*"])
        case "search":
            return search(choices, choices.choice(COMMANDS), choices.choice(SEARCHED))
        case "spoiled":
            return choices.spoiled(alternatives(choices, choices.count(1, 7), 3))
    return invalid(choices)


def words(choices):
    command = choices.choice(["show", "sh", "a", "b", "ab", "set"])
    behind = choices.choice(
        ["", " .*", "( .*)?", " version", " (a|b)", " [a-m]+", " a*", "( a)*", " b?a", "(a|b)+"]
    )
    return command + behind


def search(choices, command, word):
    """Looks for the word anywhere behind the command."""
    return f"{command}.*{word}" + choices.choice([".*"] * 15 + ["", ".+"])


def alternatives(choices, units, depth):
    parts = []
    while units > 0:
        size = choices.randint(1, units)
        units -= size
        parts.append(sequence(choices, size, depth))
        if choices.chance(0.4):
            parts.append("|")
        if choices.chance(0.03):
            parts.append("|")
    return "".join(parts)


def sequence(choices, units, depth):
    source = ""
    while units > 0:
        if depth > 0 and choices.chance(0.25):
            inner = choices.randint(0, units)
            source += "(" + alternatives(choices, inner, depth - 1) + ")"
            units -= max(inner, 1)
        else:
            source += atom(choices)
            units -= 1
        if choices.chance(0.35):
            source += choices.choice("***+??")
            if choices.chance(0.1):
                source += choices.choice("*+?")
        if choices.chance(0.12):
            source += choices.choice(COUNTS[:7] if choices.chance(0.9) else COUNTS)
    return source


def atom(choices):
    match choices.kind({"literal": 60, "odd": 5, "dot": 10, "class": 18, "escape": 7}):
        case "literal":
            return choices.choice(LITERALS)
        case "odd":
            return choices.choice(ODD_LITERALS)
        case "dot":
            return "."
        case "class":
            return symbol_class(choices)
    return "\\" + choices.choice(SPECIAL + "ab ")


def symbol_class(choices):
    negated = choices.chance(0.3)
    items = [class_item(choices) for _ in range(choices.count(1, 3))]
    if items[0].startswith("^") and not negated and choices.chance(0.95):
        items.insert(0, choices.choice("ab"))
    return "[" + "^" * negated + "".join(items) + "]"


def class_item(choices):
    first = class_symbol(choices)
    if choices.chance(0.6):
        return first
    last = class_symbol(choices)
    if last[-1] < first[-1] and choices.chance(0.98):
        first, last = last, first
    return f"{first}-{last}"


def class_symbol(choices):
    symbol = choices.choice("aabbsm z" + "^.*[(~0{}")
    if choices.chance(0.1):
        return "\\" + choices.choice("]\\-^a")
    return symbol


def invalid(choices):
    """One of each refusal, or what comes just before it."""
    opened = choices.choice([31, 32, 33, 34])
    repeats = choices.choice([6, 7, 8, 199])
    length = choices.choice([199, 200, 201, 399, 400, 401])
    return choices.choice(
        [
            "a)",
            "(a",
            "((a)",
            "(a))",
            "*a",
            "a|*b",
            "(+a)",
            "a(?b)",
            "[]",
            "[^]",
            "[^^]",
            "[z-a]",
            "[a-]",
            "[-a]",
            "[a-b-c]",
            "[a",
            "a[\\",
            "[\\]",
            "a\\",
            "\\",
            "(\\",
            "([a",
            "[)",
            "(" * opened + "a" + ")" * opened,
            "(" * opened,
            "(" * opened + "]*[",
            "a" + "+" * repeats,
            "(a" + "+" * repeats + ")",
            "(" + "a+" * 66 + ")+" + "a" * choices.choice([1, 2, 3]),  # 399 to 401 factors.
            "(a|(b)(" + "(" * choices.count(0, 3) + "a)",
            "{2}",
            "a|{2}",
            "({x",
            "a}",
            "}",
            "a{",
            "a{2",
            "a{}",
            "a{2}}",
            "a{032}",
            "\\{2}",
            "[{",
            "[{}]{2}",
            ".{32}{32}",
            ".{32}{12}" + "a" * choices.choice([15, 16, 17]),  # 399 to 401 factors.
            ".{32}{32}{0}",
            "a{0}{1,2}*",
            "(a|b){1}*",
            "a{32}" + "{32}" * 98 + "{0}",
            "{" * length,
            "a" * length,
            "(" + "a" * length,
            "a" * (length - 1) + "\\",
            "".join(choices.choice(SPECIAL + "ab-^]") for _ in range(choices.randint(1, 8))),
        ]
    )


def text_held(choices, pattern):
    """A text of the pattern's set, or None where none is found."""
    return text_of_term(choices, choices.choice(pattern.terms)) if pattern.terms else None


def text_of_term(choices, term):
    text = ""
    for kind, content in term:
        if kind == CLASS:
            symbols = sorted(content)
            if not symbols:
                return None
            wanted = [symbol for symbol in "abs h" if symbol in content] or symbols
            text += choices.choice(wanted if choices.chance(0.8) else symbols)
            continue
        for _ in range(choices.count(0, 3) if kind == STAR else 1):
            inner = text_of_term(choices, choices.choice(content))
            if inner is None and kind != STAR:
                return None
            text += inner or ""
    return text


def line(choices, patterns):
    """A command line, mostly one that a pattern holds or nearly holds."""
    if patterns and choices.chance(0.75):
        text = text_held(choices, choices.choice(patterns))
        if text is not None:
            return choices.spoiled(text, "ab s~\xe9") if choices.chance(0.15) else text
    return choices.choice(["", "show", "show version", "a", "b", "ab", "sh", " "]) + "".join(
        choices.choice("ab s") for _ in range(choices.count(0, 3))
    )
