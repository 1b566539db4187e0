"""Policy texts, as lists of lines; those that are right, and those with something wrong."""

from reference.hashes import made_of
from reference.texts import bytes_of

from .patterns import COMMANDS, SEARCHED, pattern, search

GROUPS = ["g", "ops", "staff", "base", "bare", "core", "x-y.z_1@a"]
USERS = ["u", "bob", "eve", "g", "ann", "B", "n" * 32]
SECRETS = ["secret", "b", " b ", "login", "s" * 128, "p@ss word"]
# What a user types whose secret is this hash.
PASSWORDS = {
    str(made_of(rounds, salt, bytes_of(password))): password
    for rounds, salt, password in [
        (1000, "./09AZaz", "secret"),
        (1001, "0123456789abcdef", "b"),
        (1000, "x", " b "),
        (1234, "q.r", "p\xe4ssw\xf6rd"),
        (1000, "x", "s" * 128),
        (None, "saltsalt", "login"),
    ]
}
HASHES = list(PASSWORDS)
NO_HASHES = [
    "",
    "x",
    HASHES[0] + " ",
    HASHES[0][:-1],
    HASHES[0] + ".",
    HASHES[0].replace("1000", "999"),
    HASHES[0].replace("1000", "01000"),
    HASHES[0].replace("1000", "1000000"),
    HASHES[0].replace("$6$", "$5$"),
    HASHES[1].replace("0123", "01234"),
    HASHES[2].replace("$x$", "$$"),
]
# The first of these are what an operator mostly types.
SERVICES = ["shell", "junos-exec", "PaloAlto/firewall", "ppp/ip", "ppp", "ciscowlc/common"]
SERVICES += ["PaloAlto/panorama", "exec", "x", "x/y", "x/z", "n" * 32 + "/" + "p" * 32]
NO_SERVICES = ["", "shell/x", "x/", "/x", "x/y/z", "x:y", "n" * 33, "\xe9"]
ATTRIBUTES = ["a=", "a*", "a=b", 'a=b c = "*"', "a= ", "b*c=d", "priv-lvl=15", "a=" + "v" * 253]
ATTRIBUTES += ['shell:roles*"network-admin"', "local-user-name=ops", "allow-commands=show .*"]
NO_ATTRIBUTES = ["", " ", "a", "=b", "*", " a=b", "a b=c", "a =b", "a=" + "v" * 254]
NO_NAMES = ["", "n" * 33, "a/b", "a:b", "\xe9", "a\tb", "é"]


def policy(choices):
    """Lines of a policy that is right, but for a pattern now and then."""
    subjects = subject_lines(choices)
    version = choices.kind({"": 35, "policy 2": 20, "policy 3": 45})
    searched = choices.choice(COMMANDS) if choices.chance(0.06) else None
    lines = []
    for first in subjects:
        lines.append(first)
        lines.extend(settings(choices, first, version == "policy 3"))
        if searched is not None:
            lines.extend(searches(choices, searched))
    if choices.chance(0.2):
        lines = [dressed(choices, line) for line in lines]
    if version:
        lines.insert(0, version)
    return [part for line in lines for part in line.split("\n")]


def subject_lines(choices):
    groups = choices.sample(GROUPS, choices.count(0, 4))
    users = choices.sample(USERS, 0 if choices.chance(0.05) else choices.count(1, 4))
    lines = []
    for place, name in enumerate(groups):
        above = choices.choice(groups[:place]) if place and choices.chance(0.7) else None
        lines.append(f"group {name}" + (f" in {above}" if above else ""))
    for name in users:
        above = choices.choice(groups) if groups and choices.chance(0.75) else None
        lines.append(f"user {name}" + (f" in {above}" if above else ""))
    if choices.chance(0.3):
        choices.shuffle(lines)
    if choices.chance(0.1):
        lines += choices.choice([chain(4), chain(7), chain(8), chain(9)[:-1]])
    return lines


def chain(length):
    """A user behind a chain of groups, so many subjects in all."""
    groups = [f"group c{n}" + (f" in c{n - 1}" if n > 1 else "") for n in range(1, length)]
    return groups + [f"user deep in c{length - 1}"]


def settings(choices, first, is_third):
    lines = []
    if first.startswith("user"):
        for word in ("login", "enable"):
            if choices.chance(0.5):
                lines.append(secret_line(choices, word, 0.5 if is_third else 0))
    if choices.chance(0.35):
        lines.append(f"priv {choices.choice(['0', '1', '15', '7', '0015', '015'])}")
    if is_third and choices.chance(0.6):
        lines.extend(service_lines(choices))
    for _ in range(choices.choice([0, 0, 1, 1, 1, 2, 2, 3, 4])):
        lines.append(f"{choices.choice(['permit', 'permit', 'deny'])} {pattern(choices)}")
    if choices.chance(0.1):
        choices.shuffle(lines)
    if choices.chance(0.3 if is_third else 0.1):
        lines.append("permit ()")
    return lines


def secret_line(choices, word, hashed):
    """In the clear, or as a hash at this probability."""
    if choices.chance(hashed):
        return f"{word}-hash {choices.choice(HASHES)}"
    return f"{word} {choices.choice(SECRETS)}"


def service_lines(choices):
    """Lines about some services, none of which clash."""
    lines = []
    for service in choices.sample(SERVICES, choices.count(1, 4)):
        if service != "shell" and choices.chance(0.2):
            lines.append(f"refuse {service}")
        elif choices.chance(0.2):
            lines.append(f"service {service}")
        else:
            for attribute in choices.sample(ATTRIBUTES, choices.count(1, 4)):
                if (service, attribute) != ("shell", "priv-lvl=15"):
                    lines.append(f"service {service} {attribute}")
    if choices.chance(0.5):
        choices.shuffle(lines)
    return lines


def searches(choices, command):
    """Rules that each look for another word behind the same command."""
    return [
        f"{choices.choice(['permit', 'permit', 'deny'])} {search(choices, command, word)}"
        for word in choices.sample(SEARCHED, choices.count(0, 10))
    ]


def dressed(choices, line):
    """The line with leading blanks, or behind what is passed over."""
    match choices.randrange(5):
        case 0:
            return "  " + line
        case 1:
            return "\n" + line
        case 2:
            return " # group x\n" + line
        case 3:
            return "#run\n   \n" + line
    return line


def refused(choices):
    """Lines with something wrong, mostly one thing, sometimes several."""
    lines = policy(choices)
    for _ in range(choices.count(1, 3)):
        at = 0 if choices.chance(0.1) else choices.randrange(len(lines) + 1)
        match choices.kind({"line": 50, "spoiled": 25, "chains": 15, "repeated": 10}):
            case "line":
                lines.insert(at, wrong_line(choices))
            case "spoiled" if lines:
                at = choices.randrange(len(lines))
                lines[at] = choices.spoiled(lines[at], " \t\r\xe9#01aZ")
            case "chains":
                lines[at:at] = wrong_chains(choices)
            case _ if lines:
                lines.insert(at, choices.choice(lines))
    return lines


def wrong_line(choices):
    name = choices.choice(GROUPS + USERS)
    other = choices.choice(GROUPS + NO_NAMES)
    none = choices.choice(NO_NAMES)
    kind = choices.choice(["group", "user"])
    return choices.choice(
        [
            f"{kind} {none}",
            f"{kind} {name} in {none}",
            f"{kind} {none} in {other}",
            f"{kind} {name} in",
            f"{kind} {name} ",
            f"{kind} {name} of {other}",
            f"{kind}  {name}",
            f"{kind} {name} in {other} ",
            f"{kind} {name} in absent",
            f"{kind}",
            f"{kind} ",
            f"{kind.title()} {name}",
            "login",
            "login ",
            "enable ",
            "login " + "s" * choices.choice([127, 128, 129]),
            "login x",
            "enable x",
            "login-hash",
            f"login-hash {choices.choice(HASHES)}",
            f"enable-hash {choices.choice(HASHES)}",
            f"login-hash {choices.choice(NO_HASHES)}",
            f"enable-hash {choices.choice(NO_HASHES)}",
            "service",
            "refuse",
            f"{choices.choice(['service', 'refuse'])} {choices.choice(SERVICES)}",
            f"{choices.choice(['service', 'refuse'])} {choices.choice(NO_SERVICES)}",
            f"service {choices.choice(SERVICES)} {choices.choice(ATTRIBUTES)}",
            f"service {choices.choice(SERVICES)} {choices.choice(NO_ATTRIBUTES)}",
            f"service {choices.choice(NO_SERVICES)} {choices.choice(NO_ATTRIBUTES)}",
            f"refuse {choices.choice(SERVICES)} {choices.choice(ATTRIBUTES)}",
            "priv",
            "priv ",
            "priv 16",
            "priv 15 ",
            "priv 00015",
            "priv 0015",
            "priv -1",
            "priv 1a",
            "priv \xb2",
            "priv  1",
            "priv 5",
            "permit",
            "deny",
            "permit ",
            f"permit {pattern(choices)}",
            "permit *",
            "deny [",
            "deny a\xe9",
            "allow a",
            "run ",
            " run",
            "Run",
            "policy 1",
            "policy 2",
            " policy 2",
            "policy 2 ",
            "policy 3",
            "policy 4",
            "#\xe9",
            "   \x7f",
            "\r",
            "a" + "\x00",
        ]
    )


def wrong_chains(choices):
    return choices.choice(
        [
            ["group k1 in k2", "group k2 in k1"],
            ["group k1 in k1"],
            ["user k0 in k1", "group k1 in k2", "group k2 in k3", "group k3 in k1"],
            ["group k1 in nowhere"],
            ["user k1 in k2", "user k2"],
            chain(9),
            chain(10),
            chain(9) + ["group k1 in k1"],
            chain(9) + ["group k1 in nowhere"],
            ["group k1 in k1", "user k0 in nowhere"],
        ]
    )
