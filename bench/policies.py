"""Policies as a network team writes them, made from a seed, for bench/analysis and bench/edits.

A unit is 10 groups of 25 rules, nested to depth 3, and 18 users without rules of their own: 28
subjects, with 1,475 entries along all chains.
"""
import random
import re

PARENTS = [None, None, None, 0, 0, 1, 2, 3, 4, 5]
HOMES = [0, 1, 2] + [3, 4, 5, 6] * 2 + [3] + [7, 8, 9] * 2
RULES = 25

VERBS = [
    "show", "clear", "debug", "undebug", "configure", "copy", "ping", "traceroute", "reload",
    "write", "set", "monitor", "test", "archive", "crypto", "interface", "router", "snmp-server",
]
NOUNS = [
    "version", "running-config", "startup-config", "interfaces", "ip route", "ip bgp", "ip ospf",
    "vlan", "access-lists", "mac address-table", "spanning-tree", "logging", "users", "clock",
    "inventory", "ntp associations", "cdp neighbors", "lldp neighbors", "processes cpu", "memory",
    "policy-map", "port-security", "arp-cache", "counters", "ip dhcp binding", "crypto isakmp sa",
]

SEARCHED = [
    "vlan", "arp", "version", "interface", "clock", "inventory", "ntp", "bgp", "ospf", "route",
    "logging", "users", "memory", "processes", "cdp", "lldp", "mac", "spanning", "access", "policy",
    "qos", "ipv6", "snmp", "aaa", "dhcp", "hsrp",
]


def searches(choose, command, count):
    """So many rules that each look for another word anywhere behind the command."""
    return [("permit", f"{command} .*{word}.*") for word in choose.sample(SEARCHED, count)]


def pattern(choose):
    """One pattern, of a form that operators use."""
    verb, noun = choose.choice(VERBS), choose.choice(NOUNS)
    some = "|".join(choose.sample(NOUNS, choose.randint(2, 4)))
    verbs = "|".join(choose.sample(VERBS, 2))
    return choose.choice([
        f"{verb} {noun}",
        f"{verb} {noun} .*",
        f"{verb} {noun}( .*)?",
        f"{verb} ({some})( .*)?",
        f"({verbs}) {noun}( .*)?",
        f"(no )?{verb} {noun} .*",
        f"{verb} {noun} [0-9]+",
        f"{verb} {noun} (Gigabit|TenGigabit)Ethernet[0-9]+/[0-9]+(/[0-9]+)?",
        f"{verb} {noun} [0-9]+\\.[0-9]+\\.[0-9]+\\.[0-9]+",
        f"{verb} {noun} [A-Za-z0-9_\\-]+( detail| brief| summary)?",
    ])


def rules(choose):
    return [(choose.choice(["permit", "permit", "deny"]), pattern(choose)) for _ in range(RULES)]


def searching(seed, groups, rules_of_each, users):
    """The text of a policy whose groups have such rules alone, and whose users have none."""
    choose = random.Random(seed)
    lines = []
    for number in range(groups):
        own = searches(choose, "show", rules_of_each)
        lines += [f"group search{number}"] + [f"{verdict} {source}" for verdict, source in own]
    lines += [f"user user{number} in search{number % groups}" for number in range(users)]
    return "".join(line + "\n" for line in lines)


def searching_commands(seed, count, commands):
    """The text of a policy of one user, with so many such rules behind so many commands."""
    choose = random.Random(seed)
    left, lines = count, ["user single"]
    for number in range(commands):
        share = left // (commands - number)
        left -= share
        lines += [f"permit {source}" for _, source in searches(choose, f"verb{number}", share)]
    return "".join(line + "\n" for line in lines)


class Policy:
    """Groups as (name, parent, rules) and users as (name, group), of so many units."""

    def __init__(self, seed, units):
        choose = random.Random(seed)
        self.groups, self.users = [], []
        for unit in range(units):
            first = len(self.groups)
            for number, parent in enumerate(PARENTS):
                above = None if parent is None else first + parent
                self.groups.append((f"group{unit}-{number}", above, rules(choose)))
            for number, home in enumerate(HOMES):
                self.users.append((f"user{unit}-{number}", first + home))

    def text(self):
        lines = []
        for name, parent, own in self.groups:
            above = "" if parent is None else f" in {self.groups[parent][0]}"
            lines += [f"group {name}{above}"] + [f"{verdict} {source}" for verdict, source in own]
        lines += [f"user {name} in {self.groups[home][0]}" for name, home in self.users]
        return "".join(line + "\n" for line in lines)

    def patterns_along(self, group):
        """The patterns along a group's chain, its own first."""
        found = []
        while group is not None:
            _, parent, own = self.groups[group]
            found += [source for _, source in own]
            group = parent
        return found

    def chains(self):
        """The patterns along the chain of each subject, in the policy's order."""
        ends = list(range(len(self.groups))) + [home for _, home in self.users]
        return [self.patterns_along(group) for group in ends]


def lines(seed, count):
    """Command lines as they are typed, half of them with an argument or two."""
    choose = random.Random(seed)
    endings = ["", "", "", " 17", " 10.0.3.1", " detail", " GigabitEthernet0/1", " vlan-17 brief"]
    return [
        f"{choose.choice(VERBS)} {choose.choice(NOUNS)}{choose.choice(endings)}"
        for _ in range(count)
    ]


def decided_lines(seed, count, patterns):
    """Of such lines those that a pattern fits."""
    expressions = [re.compile(pattern) for pattern in patterns]
    seen = sorted(set(lines(seed, 100_000)))
    decided = [line for line in seen if any(one.fullmatch(line) for one in expressions)]
    choose = random.Random(seed)
    return [choose.choice(decided) for _ in range(count)]
