"""Reviews that go by what the program itself printed before: the edits that `tacd diff --edits` prints
make the new policy of the old one, and `tacd diff` tells of a policy and of what an edit makes of it
what the console answers to the edit, and what became of secrets, and of two policies what it answers to
`reload`. Each case is a function that raises Wrong where something goes otherwise."""

import pathlib

from lib.cases import Wrong
from lib.consoles import types
from lib.reviewing import ran, reviewed
from lib.servers import Server, starts

POLICY = """group ops
permit a.*
group net in ops
deny ab
permit b
user bob in ops
user eve in net
user ann in ops
permit .*
"""

# Edits, of which each is as likely as any other. Each word in capitals stands for one of its choices.
EDITS = """add user USER in GROUP
add user USER in GROUP
add user USER
add group GROUP in GROUP
remove SUBJECT
move SUBJECT PARENT
move SUBJECT PARENT
login USER SECRET
enable USER SECRET
clear CREDENTIAL USER
priv SUBJECT LEVEL
clear priv SUBJECT
insert SUBJECT PLACE VERDICT PATTERN
insert SUBJECT PLACE VERDICT PATTERN
insert SUBJECT PLACE VERDICT PATTERN
insert SUBJECT PLACE VERDICT PATTERN
drop SUBJECT PLACE
shift SUBJECT PLACE PLACE
shift SUBJECT PLACE PLACE""".splitlines()
CHOICES = {
    "USER": ["bob", "eve", "ann", "zed"],
    "GROUP": ["ops", "net", "lab"],
    "SUBJECT": [
        *("group ops", "group net", "group lab"),
        *("user bob", "user eve", "user ann", "user zed"),
    ],
    "PARENT": ["in ops", "in net", "in lab", "out"],
    "SECRET": ["x", "y"],
    "CREDENTIAL": ["login", "enable"],
    "LEVEL": ["0", "7", "15"],
    "PLACE": ["1", "1", "2", "3"],
    "VERDICT": ["permit", "deny"],
    "PATTERN": ["a", "a.*", "[^a]*", "ab", "b+", "a|b", "(ab)*"],
}

CHAINS = """group a
group b in a
group c in b
group d in c
group e in d
group p
group q in p
group r in q
group s in r
group t in s
group k
group l in k
group m in l
group n in m
"""
LONGER = """group k in e
group l in t
group m in l
group n in m
group a
group b in a
group c in b
group d in c
group e in d
group p
group q in p
group r in q
group s in r
group t in s
"""


def edits_by_chance(seed, count):
    """So many edits, by a generator of numbers that seem to be by chance (D. E. Knuth and H. W.
    Lewis)."""
    state = seed

    def one_of(items):
        nonlocal state
        state = (state * 1_664_525 + 1_013_904_223) % 2**32
        # The low bits come round too soon.
        return items[(state >> 16) % len(items)]

    for _ in range(count):
        words = one_of(EDITS).split()
        yield " ".join(one_of(CHOICES[word]) if word in CHOICES else word for word in words)


def replayed(program, policy, lines):
    """What a console answers to each of the lines, in lists of lines. After each the policy is
    printed, which no answer has a line of."""
    script = f"key k\n{policy}run\n"
    script += "".join(f"console {line}\nconsole policy\n" for line in lines)
    answers, policies = [[]], []
    is_policy = False
    for line in ran(program, ["replay"], script).splitlines():
        if line in ("policy 2", "policy 3"):
            is_policy = True
            policies.append("")
        elif is_policy and (line == "ok" or line.startswith(("refused ", "kept "))):
            is_policy = False
            answers.append([])
        if is_policy:
            policies[-1] += f"{line}\n"
        else:
            answers[-1].append(line)
    if len(answers) != len(lines) or len(policies) != len(lines):
        raise Wrong(f"{len(lines)} lines have {len(answers)} answers")
    return list(zip(answers, policies))


def secrets_of(policy):
    """Of each user the lines that set secrets, by their first word, but for `-hash`."""
    users = {}
    for line in policy.splitlines():
        word, _, rest = line.partition(" ")
        if word == "user":
            secrets = users.setdefault(rest.split()[0], {})
        elif word in ("login", "enable", "login-hash", "enable-hash"):
            secrets[word.removesuffix("-hash")] = line
    return users


def secrets_told(old, new):
    """What became of secrets."""
    before, after = secrets_of(old), secrets_of(new)
    for user in [*after, *(it for it in before if it not in after)]:
        for word in ("login", "enable"):
            was, is_now = before.get(user, {}).get(word), after.get(user, {}).get(word)
            if was != is_now:
                became = "set" if was is None else "cleared" if is_now is None else "changed"
                yield f"user {user} {word} {became}"


def edits_are_told_as_the_console_tells_them(program):
    """But for secrets, of which the console tells nothing. Not nearly all edits are refused, or change
    nothing. None is refused for want of memory."""
    lines = list(edits_by_chance(8907, 300))
    # As it is printed, after a line that asks nothing.
    old = replayed(program, POLICY, [""])[0][1]
    taken = changing = 0
    became = set()
    for line, (answer, new) in zip(lines, replayed(program, old, lines)):
        if answer[0] == "ok":
            secrets = list(secrets_told(old, new))
            became |= {it.partition(" login ")[2] for it in secrets}
            told = "".join(f"{it}\n" for it in [*answer[1:], *secrets]) or "same\n"
            found = reviewed(program, ["diff"], old, new)
            if found != told:
                raise Wrong(f"{line} of\n{old}is told as\n{found}and is answered\n{told}")
            taken += 1
            changing += len(answer) > 1
        elif old != new or answer[0] == "refused 12 Memory":
            raise Wrong(f"{line} is answered by {answer}, and then the policy is\n{new}")
        old = new
    if taken <= 100 or changing <= 50:
        raise Wrong(f"{taken} edits are taken, and {changing} change something")
    if not became >= {"set", "changed", "cleared"}:
        raise Wrong(f"of secrets of a login is told: {became}")


def users_of(policy):
    return {line.split()[1] for line in policy.splitlines() if line.startswith("user ")}


def told_of_users(old, new):
    """What a reload says last, where fewer than half of the users are there still."""
    had, gone = users_of(old), users_of(old) - users_of(new)
    return [f"{len(gone)} of {len(had)} users are gone"] if 2 * len(gone) > len(had) else []


def reloads_are_told_as_the_console_tells_them(program):
    """A server loads one policy after another, and prints each. Nearly all change something, and many a
    secret. What is said of users who are gone comes last, and is on standard error too."""
    policies = [
        replayed(program, POLICY, list(edits_by_chance(seed, 20)))[-1][1] for seed in range(1, 60)
    ]
    changing = secrets = 0
    complained = ""
    with Server(program, policy=policies[0]) as server:
        starts(server)
        for old, new in zip(policies, policies[1:]):
            found = reviewed(program, ["diff"], old, new)
            told = [] if found == "same\n" else found.splitlines()
            gone = told_of_users(old, new)
            pathlib.Path(server.folder.name, "policy").write_text(new, "utf-8")
            types(server, "reload", "ok", *told, *gone)
            types(server, "policy", *new.splitlines())
            changing += len(told) > 0
            secrets += any(secrets_told(old, new))
            complained += "".join(f"tacd: policy: {line}\n" for line in gone)
        server.ends("quit\n", complained=complained, is_listening=False)
    if changing <= 40:
        raise Wrong(f"{changing} policies change something")
    if secrets <= 20:
        raise Wrong(f"{secrets} policies change a secret")


def loads(program, old, new):
    """The edits that are printed make a policy of which none are left to the new one."""
    lines = reviewed(program, ["diff", "--edits"], old, new).splitlines()
    made = old
    kept = 0
    for line, (answer, policy) in zip(lines, replayed(program, old, lines) if lines else ()):
        kept = kept + 1 if line not in ("begin", "commit") else 0
        if answer[0] != (f"kept {kept}" if kept else "ok"):
            raise Wrong(f"{line} is answered by {answer}, of\n{old}and\n{new}")
        made = policy
    left = reviewed(program, ["diff", "--edits"], made, new)
    if left:
        raise Wrong(f"of\n{old}and\n{new}these edits are left:\n{left}")


def pairs_by_chance(program):
    """Policies that edits by chance make of an empty one; refused edits are passed over."""
    policies = [
        replayed(program, "", list(edits_by_chance(seed, 60)))[-1][1] for seed in range(1, 60)
    ]
    for old, new in zip(policies, policies[1:]):
        loads(program, old, new)


def deep_chains(program):
    loads(program, LONGER, CHAINS)


def a_full_policy(program):
    """There is no room for the new group before the old one goes, which all users have to leave."""
    old, new = (
        f"group {group}\n" + "".join(f"user u{user} in {group}\n" for user in range(1, 1024))
        for group in ("old", "new")
    )
    loads(program, old, new)


def all_rules_of_a_group(program):
    old, new = (
        "group g\n" + "".join(f"permit {word} {rule}\n" for rule in range(256))
        for word in ("show", "ping")
    )
    loads(program, old, new)
