"""Policies and events at the limits of sizes and numbers: dear ones, which are drawn rarely."""

from reference.wire import AUTHORISATION, Header


def policy(choices):
    states_or_searches = [states, states, searches, searches]
    others = [subjects, rules, services, chain, lines]
    return choices.choice(states_or_searches + others)(choices)


def states(choices):
    """Subjects of 16,384 states and fewer, or of twice as many."""
    dots = choices.choice([11, 12, 13, 13, 14])
    other = choices.choice(["", "permit b*", "deny .*b.", "permit show", f"deny .*a{'.' * dots}"])
    found = ["group g", f"deny .*a{'.' * dots}"]
    found += ["user u in g"] + [other] * (other != "")
    return found + choices.choice([[], ["user v in g"], ["group h in g", "permit x.*"]])


def searches(choices):
    """Rules that search beside a row of dots: 16,384 states, or some more or fewer."""
    dots, words = choices.choice(
        [(12, "b"), (11, "sb ss"), (11, "bs h"), (10, "bs bb sb ss"), (10, "b s h c d e f")]
    )
    words = words.split()
    match choices.randrange(6):
        case 0:
            words.remove(choices.choice(words))
        case 1:
            words.insert(choices.randrange(len(words) + 1), "m")
    found = ["group g"] + ["permit .*m.*"] * choices.chance(0.2) + [f"deny .*a{'.' * dots}"]
    found += [f"{choices.choice(['permit', 'deny'])} .*{word}.*" for word in words]
    return found + ["user u in g"]


def subjects(choices):
    return ["group g", "permit a.*"] + [
        f"user u{number} in g" for number in range(choices.choice([1022, 1023, 1024]))
    ]


def rules(choices):
    number = choices.choice([255, 256, 257])
    return ["group g"] + [f"permit a{n % 10}" for n in range(number)] + ["user u in g"]


def services(choices):
    """As many lines as a subject may have, whose attributes may be as long as one may be."""
    number, name = choices.choice([64, 65]), choices.choice(["shell", "x", "x/y"])
    value = choices.choice(["", "v" * 100, "v" * 251])
    found = ["policy 3", "group g", "priv 15"]
    found += [f"service {name} a{n:02}={value}" for n in range(number)]
    return found + ["permit ()", "user u in g"]


def chain(choices):
    groups = [f"group c{n}" + (f" in c{n - 1}" if n > 1 else "") for n in range(1, 8)]
    return groups + ["permit a.*", "user u in c7", "group d", "group e in d", "user v in e"]


def lines(choices):
    return ["group g", "permit a[0-9]*[02468]", "deny a.*", "user u in g", "deny a..5"]


def events(choices):
    found = []
    for _ in range(choices.count(2, 8)):
        kinds = [state_edits, size_edits, chain_edits, many_lines, full_batch, batch_of_few]
        kinds += [many_services, many_services]
        found += choices.choice(kinds)(choices)
    return found


def full_batch(choices):
    """About as many edits as a batch keeps."""
    found = ["console begin"]
    for number in range(choices.choice([63, 64, 65, 66])):
        found.append(f"console login u s{number}")
    return found + [f"console {choices.choice(['commit', 'abandon'])}", "console policy"]


def batch_of_few(choices):
    """Edits of the other kinds in one batch, with the questions that come with them."""
    found = ["console begin"]
    for _ in range(choices.count(1, 4)):
        found += choices.choice([state_edits, size_edits, chain_edits])(choices)
    return found + ["console commit", "console policy"]


def state_edits(choices):
    dots = "." * choices.choice([10, 11, 12, 13, 14])
    edit = choices.choice(
        [
            f"insert group g 1 deny .*a{dots}",
            f"insert user u 1 permit .*a{dots}",
            f"insert user u 1 permit .*[ab]{dots}",
            "insert group g 2 permit .*m.*",
            "drop group g 1",
            "move user u out",
            "move user u in g",
            "shift group g 1 2",
        ]
    )
    return [f"console {edit}", "console policy", f"console why u xa{dots}"]


def size_edits(choices):
    edit = choices.choice(
        [
            "add user new in g",
            "add group new",
            "insert group g 1 permit b",
            "insert group g 257 permit b",
            "insert group g 258 permit b",
            "drop group g 256",
            "remove user u1",
            "shift group g 256 1",
            "service group g x b=",
            "service group g shell b=",
            "clear service group g x a00=",
            "clear service group g shell a00=",
        ]
    )
    return [f"console {edit}", f"console {edit}", "console why u1 ab", "console reach user u"]


def chain_edits(choices):
    edit = choices.choice(
        [
            "add user w in c7",
            "add group c8 in c7",
            "add group c9 in c8",
            "add user x in c8",
            "move group d in c6",
            "move group d in c5",
            "move group c1 in d",
            "move group c1 in c7",
            "move group c1 in c1",
            "move group c2 out",
            "move user u in c3",
        ]
    )
    return [f"console {edit}", "console shadow", "console reach user u", "console tally group c1"]


def many_lines(choices):
    """More different lines of a user than a server may remember, and the first ones again."""
    found = ["open 5"]
    numbers = list(range(choices.choice([250, 257, 300])))
    again = choices.sample(numbers, 20)
    for at, number in enumerate(numbers + again, start=1):
        if at % 100 == 0:
            edit = choices.choice(["drop user u 1", "insert user u 1 permit a..7"])
            found.append(f"console {edit}")
        found.append(f"packet 5 {asked(at, [b'service=shell', b'cmd=a%d' % number])}")
    return found + ["lost 5"]


def many_services(choices):
    """Up to sixteen requests of one user at once, some of which have long replies."""
    kinds = [[b"service=shell", b"cmd="], [b"service=x"], [b"service=x", b"protocol=y"]]
    numbers = range(1, choices.choice([1, 4, 16]) + 1)
    words = [asked(number, choices.choice(kinds)) for number in numbers]
    return ["open 6", f"packet 6 {' '.join(words)}", "lost 6"]


def asked(session, arguments):
    """A packet of the user u on a single connection."""
    sizes = [1, 0, 0, len(arguments)] + [len(argument) for argument in arguments]
    body = bytes([6, 1, 1, 1] + sizes) + b"u" + b"".join(arguments)
    header = Header(0xC0, AUTHORISATION, 1, 4, session, len(body))
    return f"{header.to_bytes().hex()}{body.hex()}"
