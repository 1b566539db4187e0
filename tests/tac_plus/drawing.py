"""Draws configurations of tac_plus, and command lines that their users give."""

import random

COMMANDS = ["show", "clear", "debug", "reload", "configure"]
WORDS = ["run", "vlan", "ip", "arp", "start", "all", "1", "23", "a.b", "eth0/1", "<cr>", "rune"]
PURPOSES = ["login", "enable", "global", "pap", "chap", "ms-chap", "mschap", "arap", "opap"]
SERVICES = [
    "exec", "exec", "exec", "ppp protocol = ip", "ppp protocol = ip", "ppp protocol = lcp", "slip",
    "junos-exec", "shell", '"a b"', 'ppp protocol = ""',
]
# How many subjects a chain has at most.
MOST_SUBJECTS = 8


class Draw:
    def __init__(self, name):
        self.random = random.Random(name)

    def chance(self, part):
        return self.random.random() < part

    def of(self, choices):
        return self.random.choice(choices)

    def many(self, most, make):
        return [make() for _ in range(self.random.randint(0, most))]

    def atom(self, depth):
        kind = self.random.randrange(12)
        if kind < 5:
            return self.of(["run", "vlan", "ip", "arp", "a", "r", "1", "all", "e", "st", "<cr>"])
        if kind < 6:
            return "."
        if kind < 8:
            return self.of(["[0-9]", "[^a-r]", "[]a]", "[a-]", "[.]", "[r-v1]", "[\\a]", "[^0-9 ]"])
        if kind < 9:
            return self.of([r"\.", r"\/", r"\*", " ", " ", r"\$", "/"])
        if depth > 2:
            return "x"
        return f"({self.expression(depth + 1)})"

    def part(self, depth):
        atom = self.atom(depth)
        repeat = self.of([""] * 8 + ["*", "+", "?", "{2}", "{1,3}", "{2,}", "{0,2}"])
        if len(atom) > 1 and not atom.startswith(("[", "(", "\\")):
            return atom + (repeat if repeat in ("*", "?", "+") else "")
        return atom + repeat

    def branch(self, depth):
        parts = [self.part(depth) for _ in range(self.of([1, 1, 1, 2, 2, 3]))]
        if self.chance(0.04):
            parts = []
        begin = "^" if self.chance(0.25 if depth == 0 else 0.08) else ""
        end = "$" if self.chance(0.25 if depth == 0 else 0.08) else ""
        return begin + "".join(parts) + end

    def expression(self, depth=0):
        return "|".join(self.branch(depth) for _ in range(self.of([1, 1, 1, 1, 2, 3])))

    def odd(self):
        """An expression of which one part is read otherwise by older builds, or looks like that."""
        odd = self.of([
            "{", "a{", "}", r"\{", r"\{2}", "[{]", "[^{]", "[]{]", "[a-c-]", "[a-c-e]", "[--a]",
            "[+--e]", "[[:alpha:]]", "[^[:digit:]x]", "[[=a=]]", "[[.-.]]", "[[.].]]", "[:a]", "[a:.]",
            r"\[:a", r"\w", r"\W", r"\s", r"\S+", r"\b", r"\B", r"\<", r"\>", r"\`", r"\'", r"[\w]",
            r"\\w", r"(a|r)\1", r"\d", r"\.", "a**", "a{2}?", "(a*)*", "(a+){2}", "^{", "({2})",
            "^*", "a$b", "a^b", "^a*$", "a||r", "^.?$", "(a$|r)p", "^()$",
        ])
        return self.of(["", self.part(1)]) + odd + self.of(["", self.part(1)])

    def quoted(self, text):
        bare = text and not set(text) & set(' ="\t') and text[0] not in '{}=#"'
        if bare and self.chance(0.6):
            return text
        return '"' + text.replace('"', '\\"') + '"'

    def equals(self):
        """A '=', with blanks where tac_plus needs none."""
        return self.of([" = "] * 4 + ["=", "\t=\t", "= ", " ="])

    def end(self):
        return self.of(["\n"] * 6 + [" # a comment\n", "\t#comment\n", "\n\n"])

    def rule(self):
        verdict = self.of(["permit", "deny"])
        text = ".*" if self.chance(0.2) else self.expression()
        if self.chance(0.06):
            text = self.odd()
        return f"    {verdict} {self.quoted(text)}{self.end()}"

    def command(self, name):
        rules = "".join(self.rule() for _ in range(self.of([0, 1, 1, 2, 2, 3, 4, 6])))
        return f"  cmd{self.equals()}{name} {{\n{rules}  }}\n"

    def many_commands(self):
        """Blocks about many commands, with up to 256 rules and a few more, which take few states."""
        left, blocks = self.of([100, 200, 250, 253, 254, 255, 256, 257, 270]), []
        while left > 0:
            count = min(left, self.of([1, 1, 2, 3, 7]))
            verdicts = self.of([("permit", "deny"), ("deny", "permit")])
            rules = "".join(f"    {verdicts[at % 2]} ^w{at}\n" for at in range(count))
            blocks.append(f"  cmd = cmd{len(blocks)} {{\n{rules}  }}\n")
            left -= count
        return blocks

    def hash(self):
        """A hash that begins with `$6$`, which may be none that is taken."""
        of = self.of
        rounds = of(["", "", "5000", "1000", "999", "999999", "1000000", "9999999999", "05000"])
        digest = "".join(of("./0189AZaz") for _ in range(of([86, 86, 86, 85, 87, 0])))
        salt = of(["s", "saltsalt", "./saltsaltsalt09", "", "17saltsaltsaltsal", "sa-lt"])
        return "$6$" + (f"rounds={rounds}$" if rounds else "") + f"{salt}${digest}"

    def secret(self):
        """How a password is kept. Some are the same, and some are none."""
        kind = self.random.randrange(20)
        if kind < 1:
            return f"cleartext {self.quoted(self.of(['', 'x' * 129, chr(7)]))}"
        if kind < 12:
            text = self.of(["one", "one", "two", "three", "with blanks", 'a "b"', "#x", "a=b", "x" * 128])
            return f"cleartext {self.quoted(text)}"
        if kind < 18:
            good = "$6$saltsalt$" + "." * 86
            return f"des {self.quoted(self.of([good, good, self.hash(), 'mEX027bHtzTlQ', '$5$a$b']))}"
        return self.of(["skey", "nopassword", "PAM", "pam", "file /etc/passwd"])

    def password(self):
        return f"  {self.of(PURPOSES)}{self.equals()}{self.secret()}{self.end()}"

    def attribute(self):
        name, value = self.of([
            ("addr", "192.0.2.1"), ("addr", "192.0.2.1"), ("addr", "192.0.2.2"), ("idletime", "5"),
            ("route#1", "3.0.0.0 255.0.0.0"), ("roles", 'a="b" *'), ("empty", ""), ("two words", "x"),
            ("", "x"), ("long", "x" * 250), ("long", "x" * 251), ("bell", "\a"),
        ])
        optional = "optional " if self.chance(0.3) else ""
        return f"    {optional}{self.quoted(name)}{self.equals()}{self.quoted(value)}{self.end()}"

    def level(self):
        optional = "optional " if self.chance(0.2) else ""
        number = self.of(["0", "1", "7", "15", "15", "16", "-1", "high", "99999"])
        return f"    {optional}priv-lvl{self.equals()}{number}{self.end()}"

    def service(self):
        name = self.of(SERVICES)
        lines = self.many(3, self.attribute)
        if name == "exec" or self.chance(0.1):
            lines += self.many(2, self.level)
        self.random.shuffle(lines)
        if self.chance(0.6):
            verdict = self.of(["permit", "permit", "permit", "deny"])
            lines.insert(self.random.randint(0, len(lines)), f"    default attribute = {verdict}\n")
        return f"  service = {name} {{\n{''.join(lines)}  }}\n"

    def subject(self, kind, name, parents, prefix):
        lines = []
        if parents and self.chance(0.8):
            lines.append(f"  member{self.equals()}{self.of([parents[-1], self.of(parents)])}\n")
        elif self.chance(0.1):
            lines.append(f"  member = {prefix}none\n")
        if self.chance(0.3):
            lines.append(f"  default service = {self.of(['permit', 'permit', 'deny'])}\n")
        lines += self.many(4 if kind == "user" else 2, self.password)
        lines += [self.service() for _ in range(self.of([0, 0, 1, 1, 2, 4]))]
        lines += [self.command(self.of(COMMANDS)) for _ in range(self.of([0, 1, 2, 3, 5]))]
        if self.chance(0.03):
            lines += self.many_commands()
        self.random.shuffle(lines)
        return f"{kind} = {name} {{\n{''.join(lines)}}}\n"


def configuration(name, prefix):
    """A configuration of this name, whose users and groups begin with a prefix."""
    draw = Draw(f"configuration {name}")
    groups, out = [], []
    for number in range(draw.of([0, 1, 2, 3, 4, MOST_SUBJECTS - 1])):
        group = f"{prefix}g{number}"
        out.append(draw.subject("group", group, groups, prefix))
        groups.append(group)
    for number in range(draw.of([1, 2, 3])):
        out.append(draw.subject("user", f"{prefix}u{number}", groups, prefix))
    draw.random.shuffle(out)
    return "".join(out)


def lines(name, meaning, count):
    """Users of a configuration, each with a line: the empty one too."""
    draw = Draw(f"lines {name}")
    users = sorted(meaning.users)
    listed = sorted({it for subject in meaning.subjects() for it in subject.commands if it[:3] == "cmd"})
    asked = []
    for _ in range(count):
        if listed and draw.chance(0.3):
            words = [draw.of(listed), *draw.of([(), ("w0",), ("w1", "x"), ("w2",), ("w",)])]
        else:
            words = [draw.of([*COMMANDS, "ping"])]
            words += [draw.of(WORDS) for _ in range(draw.of([0, 0, 1, 1, 2, 3]))]
        if draw.chance(0.3):
            words.append("<cr>")
        line = "" if draw.chance(0.03) else " ".join(words)
        asked.append((draw.of(users), line))
    return asked
