"""Cases that are too long to be written down, or too many: limits of a policy and of a devices'
file, patterns of each size, the longest packets and replies, thousands of records and connections,
each beginning of a body, and the longest file of a key. Some can't be written in a file of tests: a
byte that isn't UTF-8, and words with ends of lines."""

import functools

from bench.lib.packet import HEADER_SIZE, padded
from lib.cases import Check, File, Outcome, Run, cases, replay_check
from lib.notation import spelled, spelled_out
from lib.scripted import ATTRIBUTES, STORED, asked, given, granted, opened, packet, record, tally_line

OPS = "group ops\npermit show .*\nuser bob in ops\n"
BOB = OPS + "login secret\n"
SHOW_VERSION = (
    "packet 1 c0020100.00000001.00000036.06010101030400030d080f"
    "'bobtty0service=shellcmd=showcmd-arg=version'\n"
)
PERMITTED = "reply 1 c0020200.00000001.00000006.010000000000\nclosed 1\n"
BAD_BODY = "reply 1 c0020200.00000001.0000000e.110000080000'bad body'\nclosed 1\n"
USERNAME = "reply 1 c0010200.00000001.00000010.0400000a0000'Username: '\n"


def scripts(make):
    """Marks what makes cases of scripts: it yields what each is, the script, and what that prints."""

    @cases
    @functools.wraps(make)
    def made():
        for part, script, printed in make():
            yield part, replay_check(*(spelled_out(text).encode() for text in (script, printed)))

    return made


@scripts
def longest_bodies():
    """The longest body is read, and is wrong; one that is a byte longer isn't read."""
    for length, printed in ((131_075, BAD_BODY), (131_076, "closed 1\n")):
        script = opened(OPS) + packet("c0020100.00000001", bytes(length))
        yield f"{length} bytes", script, printed


@scripts
def longest_packets_on_a_line():
    """Two packets that are as long as any may be, in a line of half a megabyte: each has a password
    of 65,535 bytes, which is wrong, and as many bytes of data."""
    # The flags are zero, so that neither the session nor the connection ends.
    body = b"\xff\xff\xff\xff\x00" + b"\xff" * 131_070
    first, second = (packet(f"c0010304.{session:08x}", body) for session in (1, 2))
    script = (
        opened("user bob\nlogin secret\n")
        + "packet 1 c0010104.00000001.0000000b.0101010103000000'bob'\n"
        + "packet 1 c0010104.00000002.0000000b.0101010103000000'bob'\n"
        + first.removesuffix("\n")
        + second.removeprefix("packet 1")
    )
    printed = (
        "reply 1 c0010204.00000001.00000010.0501000a0000'Password: '\n"
        "reply 1 c0010204.00000002.00000010.0501000a0000'Password: '\n"
        "reply 1 c0010404.00000001.0000001b.020000150000'Authentication failed'\n"
        "reply 1 c0010404.00000002.0000001b.020000150000'Authentication failed'\n"
    )
    yield "two of them", script, printed


@scripts
def ten_thousand_records():
    """A script of 6 MB, of records whose tasks are as long as an argument lets them be. Their list
    is an output of 3 MB."""
    tasks = [f"{number:04}" + "x" * 243 for number in range(10_000)]
    packets = (
        f"packet 1 c0030104.00000001.00000110.040601010103040001ff'bobtty0task_id={task}'\n"
        for task in tasks
    )
    records = (
        f"record {number} user bob stop task {task} elapsed 0\n"
        for number, task in enumerate(tasks, start=1)
    )
    script = opened("") + "".join(packets) + "console records\nconsole tally user bob\n"
    printed = (
        "reply 1 c0030204.00000001.00000005.0000000001\n" * len(tasks)
        + "".join(records)
        + "tally user bob starts 0 stops 10000 watchdogs 0 updates 0 open 0 elapsed 0 drift 0\n"
    )
    yield "their list and tally", script, printed


RELOAD = ("elapsed_time=2", "service=shell", "cmd=reload")
SHOW = ("service=shell", "cmd=show")


@scripts
def records_up_to_300():
    """However many there are, one more is stored and counted."""
    script = opened("user bob\n")
    printed = ""
    for count in range(1, 301):
        script += record(2, "bob", "task_id=1") + "console tally user bob\n"
        printed += STORED + tally_line("user bob", count, 0, 0, 0, 1, 0, 0)
    yield "of a task", script, printed


@scripts
def records_of_many_users():
    """Each user is tallied at once, and an edit counts again what it changes."""
    script, printed = opened("user u7\nuser u9\n"), ""
    for user in (f"u{number}" for number in range(5_000)):
        script += record(4, user, "task_id=1", *RELOAD) + f"console tally user {user}\n"
        printed += STORED + tally_line(f"user {user}", 0, 1, 0, 0, 0, 2, 1)
    script += record(4, "u7", "task_id=1", "elapsed_time=3", *SHOW)
    script += "console tally user u7\n"
    script += "console insert user u7 1 permit .*\nconsole insert user u9 1 permit show\n"
    script += "".join(f"console tally user u{number}\n" for number in (7, 8, 9, 4_999))
    printed += STORED + tally_line("user u7", 0, 2, 0, 0, 0, 5, 2)
    printed += "ok\nuser u7 now permits: \nok\nuser u9 now permits: show\n"
    printed += tally_line("user u7", 0, 2, 0, 0, 0, 5, 0)
    for number in (8, 9, 4_999):
        printed += tally_line(f"user u{number}", 0, 1, 0, 0, 0, 2, 1)
    yield "5,000 of them", script, printed


@scripts
def many_records_of_a_user():
    """So is a user of many tasks, alone and for the group."""
    script, printed = opened("group all\nuser bob in all\npermit show\n"), ""
    for task in range(1, 5_001):
        script += record(2, "bob", f"task_id={task}") + "console tally user bob\n"
        printed += STORED + tally_line("user bob", task, 0, 0, 0, task, 0, 0)
    script += record(4, "bob", "task_id=17", "elapsed_time=5", *SHOW) * 2
    script += record(4, "bob", "task_id=none", "elapsed_time=1")
    script += record(2, "eve", "task_id=18") + record(8, "bob", "task_id=19")
    script += "console tally user bob\nconsole drop user bob 1\n"
    script += "console tally user bob\nconsole tally group all\nconsole tally user eve\n"
    counts = (5_000, 3, 1, 0, 4_999, 11)
    printed += STORED * 5 + tally_line("user bob", *counts, 0)
    printed += "ok\nuser bob now denies: show\n"
    printed += tally_line("user bob", *counts, 2) + tally_line("group all", *counts, 2)
    printed += tally_line("user eve", 1, 0, 0, 0, 1, 0, 0)
    yield "5,000 of a user", script, printed


@scripts
def records_and_rules_of_each_size():
    """Up to sixty, each of which is added, listed, decided by and counted."""
    script, printed, records, rules = opened("user bob\n"), "", "", ""
    for size in range(1, 61):
        shown = ("elapsed_time=1", "service=shell", f"cmd=show {size}")
        script += record(4, "bob", f"task_id={size}", *shown)
        script += f"console insert user bob {size} permit ping {size}\nconsole why bob ping {size}\n"
        script += "console tally user bob\nconsole records\nconsole policy\n"
        records += f"record {size} user bob stop task {size} elapsed 1 line show%20{size}\n"
        rules += f"permit ping {size}\n"
        printed += f"{STORED}ok\nuser bob now permits: ping {size}\n"
        printed += f"permitted by user bob rule {size}\n"
        printed += tally_line("user bob", 0, size, 0, 0, 0, size, size)
        printed += f"{records}policy 2\nuser bob\n{rules}"
    yield "up to sixty", script, printed


@scripts
def records_of_any_bytes():
    """A byte that isn't printed as it is stands in percent form, and no bytes are a `%`. A line that
    isn't of symbols isn't kept."""
    script, printed = opened(""), ""
    for number, byte in enumerate(map(chr, range(256)), start=1):
        body = bytes([4, 6, 1, 1, 1, 1, 0, 0, 3, 9, 13, 5]) + byte.encode("latin-1")
        body += f"task_id={byte}service=shellcmd={byte}".encode("latin-1")
        script += packet("c0030104.00000001", body)
        shown = byte if "!" <= byte <= "~" and byte != "%" else f"%{ord(byte):02X}"
        line = f" line {shown}" if " " <= byte <= "~" else ""
        printed += f"record {number} user {shown} stop task {shown} elapsed 0{line}\n"
    script += record(8, "", "task_id=") + "console records\n"
    printed = STORED * 257 + printed + "record 257 user % watchdog task % elapsed 0\n"
    yield "each of them", script, printed


@scripts
def policies_at_the_limits():
    """A policy may have 1,024 subjects, and each of them 256 rules."""
    users = "".join(f"user s{number}\n" for number in range(1024))
    yield "as many users", f"key k\n{users}run\n", ""
    for line, fault in (
        ("group ops", "1026 10 Limit"),
        ("user bob", "1026 10 Limit"),
        # What comes before it on the line.
        ("user s1023", "1026 3 Repeated"),
        ("group ", "1026 2 BadName"),
        ("group", "1026 1 BadLine"),
    ):
        yield f"then {line!r}", f"key k\n{users}{line}\nrun\n", f"fault line {fault}\n"
    rules = "group ops\npermit show version\nuser bob in ops\n" + "deny x\n" * 256
    yield "as many rules", opened(rules) + SHOW_VERSION, PERMITTED
    for lines, fault in (
        ("permit .*", "261 10 Limit"),
        ("deny x\ngroup ,", "261 10 Limit"),
        # What comes before it on the line.
        ("deny *", "261 5 BadPattern 5 NothingToRepeat at 0"),
        ("deny", "261 1 BadLine"),
        # The next subject has rules of its own.
        ("group a\ndeny x\ndeny *", "263 5 BadPattern 5 NothingToRepeat at 0"),
    ):
        yield f"then {lines!r}", f"key k\n{rules}{lines}\nrun\n", f"fault line {fault}\n"


@scripts
def edits_at_the_limits():
    """Where there are 256 rules and 1,024 subjects, one more is taken only after one is gone."""
    users = "".join(f"user u{number}\n" for number in range(1, 1024))
    script = "key k\ngroup g\n" + "permit x\n" * 256 + users + "run\n"
    printed = ""
    for line, answer in (
        ("insert group g 1 deny x", "refused 10 Limit"),
        ("add user bob", "refused 10 Limit"),
        # What comes before a limit.
        ("insert group g 257 deny *", "refused 8 BadPattern 5 NothingToRepeat at 0"),
        ("insert group g 257 deny x", "refused 10 Limit"),
        ("add user u1", "refused 3 Exists"),
        ("why u1 x", "denied by default"),
        ("drop group g 1", "ok"),
        ("insert group g 1 deny x", "ok"),
        ("remove user u7", "ok"),
        ("add user bob", "ok"),
    ):
        script += f"console {line}\n"
        printed += f"{answer}\n"
        yield f"up to {line}", script, printed


# As long as a secret may be.
SECRET = "0123456789abcdef" * 8


@scripts
def printed_policies():
    """Policies of more than 200,000 bytes, of the longest patterns and of the most lines are printed
    as they were read."""
    users = "".join(
        f"user u{number}\nlogin {SECRET}\nenable {SECRET}\npermit show {number}\n"
        for number in range(700)
    )
    attribute = f"user b\nservice x a={'v' * 253}\nservice x a=\n"
    lines = "".join(f"service x{number}\n" for number in range(10, 73))
    services = f"user b\n{lines}refuse y\nuser c\n{lines}service y a=\n"
    for part, version, text in (
        ("many users", 2, users),
        ("many long rules", 2, LONG_RULES),
        ("the longest attribute", 3, attribute),
        ("the most lines about services", 3, services),
    ):
        policy = f"policy {version}\n{text}"
        yield part, f"key k\n{policy}run\nconsole policy\n", policy
    # As many braces as a pattern of version 1 may have are twice as many bytes in version 2.
    braces, quoted = (f"user b\npermit {it * 200}\n" for it in ("{", "\\{"))
    for part, policy in ("braces", braces), ("quoted braces", f"policy 2\n{quoted}"):
        yield part, f"key k\n{policy}run\nconsole policy\n", f"policy 2\n{quoted}"


LONG_RULES = "user bob\n" + f"deny {'x' * 200}\n" * 256


def put_in(patterns):
    """Each pattern becomes a rule of a group, with the least text that it holds, and goes again."""
    script, printed = "key k\npolicy 2\ngroup g\nrun\n", ""
    for pattern, least in patterns:
        script += f"console insert group g 1 permit {pattern}\n"
        script += "console reach group g\nconsole drop group g 1\n"
        printed += f"ok\ngroup g rule 1 first reached by: {least}\nok\n"
    return script, printed


def read_all(patterns):
    """All are patterns: the first line that is wrong is the one after them. No states are counted."""
    lines = []
    for number, pattern in enumerate(patterns):
        if number % 256 == 0:
            lines.append(f"group g{number}")
        lines.append(f"permit {pattern}")
    script = "key k\npolicy 2\n" + "".join(f"{line}\n" for line in lines)
    return f"{script}end\nrun\n", f"fault line {len(lines) + 3} 1 BadLine\n"


@scripts
def patterns_of_each_size():
    """Patterns of each length, of many factors and of each depth."""
    yield "letters", *read_all("a" * length for length in range(401))
    yield "empty alternatives", *read_all("|" * length for length in range(401))
    # Every second factor is a group or a star.
    repeated = "a?" * 50 + "a*" * 50
    yield "repeated letters", *read_all(repeated[:length] for length in range(201))
    # 127 factors, or 255, and then one more with each letter.
    for suffixes, most in (6, 193), (7, 145):
        plus = "a" + "+" * suffixes
        yield f"{suffixes} suffixes", *read_all(plus + "a" * length for length in range(most + 1))
    yield "depths", *read_all("(" * depth + ")" * depth for depth in range(33))
    # Some of them become rules, are copied by edits, and say what they hold.
    sizes = (*range(9), 16, 17, 32, 33, 64, 65, 100)
    yield "rules of letters", *put_in([("a" * size, "a" * size) for size in sizes])
    yield "rules of alternatives", *put_in([("|" * size, "") for size in (*sizes, 256, 399, 400)])
    yield "rules of repeated letters", *put_in(
        [("a?" * (size // 2) + "a*" * (size - size // 2), "") for size in sizes[:13]]
    )
    yield "rules of suffixes", *put_in([("a" + "+" * size, "a") for size in range(8)])
    yield "rules of depths", *put_in([("(" * size + ")" * size, "") for size in range(33)])
    # As many braces in each rule as its number says; in version 2 they are twice as many bytes.
    lengths = (*sizes[1:], 199, 200)
    old, new = (
        "group g\n" + "".join(f"permit {brace * length}\n" for length in lengths)
        for brace in ("{", "\\{")
    )
    yield "braces", f"key k\n{old}run\nconsole policy\n", f"policy 2\n{new}"


@scripts
def faults_at_each_place():
    """The last symbol of a pattern is refused, after as many others as there may be; and patterns of
    each length that is too long, too deep or too large."""
    begin = "key k\npolicy 2\ngroup g\nrun\n"
    for other, last, fault in (
        ("a", "(", "3 Unclosed"),
        ("a", ")", "4 Unopened"),
        ("|", "*", "5 NothingToRepeat"),
        ("|", "{", "5 NothingToRepeat"),
        ("a", "[", "6 BadClass"),
        ("a", "\\", "7 BadEscape"),
        (".", "}", "11 BadRepeat"),
        (".", "{", "11 BadRepeat"),
    ):
        script, printed = begin, ""
        # Where it is the first of all, a `{` has nothing to repeat.
        for place in range(1 if (other, last) == (".", "{") else 0, 400):
            script += f"console insert group g 1 permit {other * place}{last}\n"
            printed += f"refused 8 BadPattern {fault} at {place}\n"
        yield f"{last} after {other}", script, printed
    for fault, patterns in (
        ("1 TooLong", ["a" * length for length in range(401, 501)]),
        ("8 TooDeep", ["(" * length for length in range(33, 201)]),
        ("9 TooLarge", ["a" + "+" * length for length in range(8, 400)]),
    ):
        script = begin + "".join(f"console insert group g 1 permit {it}\n" for it in patterns)
        yield fault, script, f"refused 8 BadPattern {fault}\n" * len(patterns)


@scripts
def longest_edits():
    """Long lines that are edits of a full policy, or no edits: what is told of each is short."""
    begin = f"key k\n{LONG_RULES}run\n"
    for count, refusal in (
        (400, "10 Limit"),
        (401, "8 BadPattern 1 TooLong"),
        (5_000, "8 BadPattern 1 TooLong"),
        (200_000, "8 BadPattern 1 TooLong"),
    ):
        line = f"console insert user bob 1 permit {'x' * count}\n"
        yield f"a pattern of {count} symbols", begin + line, f"refused {refusal}\n"
    for count in 5_000, 200_000:
        for start in "x", "add user bob ", "insert user bob 1 permit", "login":
            script = f"key k\nuser bob\nrun\nconsole {start}{'x' * count}\n"
            yield f"{start!r} and {count} symbols", script, "refused 1 BadEdit\n"


@scripts
def longest_questions():
    """Lines of 5,000 bytes that are a question, or set too long a secret; a short one comes after."""
    for start, answer in (
        ("why bob show ", "permitted by group ops rule 1"),
        ("why bob x", "denied by default"),
        ("login bob ", "refused 9 BadValue"),
    ):
        script = opened(OPS) + f"console {start.ljust(5_000, 'x')}\nconsole why bob ping\n"
        yield f"{start!r}", script, f"{answer}\ndenied by default\n"


# The same request on a connection that stays open.
KEPT = SHOW_VERSION.replace("c0020100", "c0020104")
STILL_OPEN = "reply 1 c0020204.00000001.00000006.010000000000\n"


@scripts
def bytes_cut_at_each_place():
    """Two requests in one piece, in two of each size, and in many."""
    twice = KEPT.removesuffix("\n") + KEPT.removeprefix("packet 1")
    for size in range(1, 133):
        yield f"pieces of {size}", opened(OPS) + f"pieces {size}\n{twice}", STILL_OPEN * 2


@scripts
def as_many_connections():
    """On each of 65,536 connections comes the first part of a request, and then the rest on each."""
    clear = bytes.fromhex(spelled(KEPT.strip()).removeprefix("packet 1 "))
    head, body = clear[:HEADER_SIZE], clear[HEADER_SIZE:]
    request = head + padded(head, body, b"k")
    first, rest = request[:20].hex(), request[20:].hex()
    numbers = range(65_536)
    script = opened(OPS).removesuffix("open 1\n")
    script += "".join(f"open {number}\nbytes {number} {first}\n" for number in numbers)
    script += "".join(f"bytes {number} {rest}\nlost {number}\n" for number in numbers)
    printed = "".join(STILL_OPEN.replace("1", str(number), 1) for number in numbers)
    # Once they are lost, none is there.
    printed += f"fault line {script.count(chr(10)) + 1} NoConnection\n"
    yield "open at once", script + f"bytes 0 {first}\n", printed


@scripts
def a_group_of_many_users():
    """Users of a group who have no rules of their own, but for the last."""
    names = [*(f"u{user}" for user in range(1000)), "last"]
    users = "".join(f"user {name} in g\n" for name in names)
    script = f"key k\ngroup g\npermit show .*\n{users}permit show\nrun\n"
    script += "console insert group g 1 deny show.*\nconsole shadow\n"
    printed = "ok\n" + "".join(f"user {name} now denies: show \n" for name in names)
    for subject in ["group g", *(f"user {name}" for name in names)]:
        printed += f"shadowed in {subject}: group g rule 2\n"
    yield "what an edit changes, and what is shadowed", script, printed


@scripts
def a_chain_of_many_rules():
    """A user in the last of seven groups, each in the one before, each with as many rules as there
    may be. A rule holds one word, which no other does."""
    owners = [*(f"group g{level}" for level in range(7)), "user u"]
    words = [[f"{level}{rule:02x}" for rule in range(256)] for level in range(8)]
    script = "key k\n"
    for level, owner in enumerate(owners):
        script += owner + (f" in g{level - 1}" if level else "") + "\n"
        script += "".join(f"{'permit' if level else 'deny'} {word}\n" for word in words[level])
    script += "run\nconsole why u 0ff\nconsole insert group g0 257 permit x\n"
    script += "console shadow\nconsole reach user u\n"
    printed = "denied by group g0 rule 256\nrefused 10 Limit\nnone\n"
    for level in reversed(range(8)):
        for rule, word in enumerate(words[level], start=1):
            printed += f"{owners[level]} rule {rule} first reached by: {word}\n"
    yield "which line reaches each", script, printed


@scripts
def words_that_differ_at_their_ends():
    """A hundred rules of the longest words, which differ in their last two symbols."""
    words = [f"{'a' * 198}{word:02}" for word in range(100)]
    rules = "".join(f"permit {word}\n" for word in words)
    script = f"key k\nuser u\n{rules}run\nconsole shadow\nconsole reach user u\n"
    printed = "none\n" + "".join(
        f"user u rule {rule} first reached by: {word}\n" for rule, word in enumerate(words, start=1)
    )
    yield "which line reaches each", script, printed


@scripts
def longest_replies():
    """The longest has a level and 64 attributes of 255 bytes: 16,414 bytes with its header."""
    for service, arguments, reply in (
        ("x", ["service=x"], ATTRIBUTES),
        ("x/y", ["service=x", "protocol=y"], ATTRIBUTES),
        ("shell", ["service=shell", "cmd="], ["priv-lvl=15", *ATTRIBUTES]),
    ):
        begin = opened(given(service) + "user bob in ops\n")
        printed = f"reply 1 {granted(reply)}\nclosed 1\n"
        yield f"of {service}", f"{begin}packet 1 {asked(arguments)}\n", printed
        gone = [f"user bob service {service} no longer gives: {it}\n" for it in ATTRIBUTES]
        left = granted(reply[: len(reply) - len(ATTRIBUTES)])
        yield (
            f"of {service}, which bob's own line takes away",
            f"{begin}console service user bob {service}\npacket 1 {asked(arguments)}\n",
            f"ok\n{''.join(gone)}reply 1 {left}\nclosed 1\n",
        )
        # Each of sixteen logins waits, and the connection has no place for one more.
        logins = [f"{session:08x}" for session in range(1, 17)]
        starts = [f"packet 1 c0010104.{it}.0000000b.0101010103000000'bob'\n" for it in logins]
        prompts = [f"reply 1 c0010204.{it}.00000010.0501000a0000'Password: '\n" for it in logins]
        requests = [asked(arguments, "04", session) for session in range(17, 33)]
        replies = [f"reply 1 {granted(reply, '04', session)}\n" for session in range(17, 33)]
        yield (
            f"of {service}, sixteen of them beside sixteen logins",
            f"{begin}{''.join(starts)}packet 1 {' '.join(requests)}\n",
            "".join(prompts + replies),
        )


TYPED_AT_THE_LIMIT = (
    ("console service group ops x b=", "refused 10 Limit"),
    ("console service group ops y", "refused 10 Limit"),
    ("console refuse group ops y", "refused 10 Limit"),
    (f"console service group ops x {ATTRIBUTES[0]}", "refused 3 Exists"),
    ("console service group ops x b", "refused 9 BadValue"),
    ("console service group ops y b", "refused 9 BadValue"),
    (
        f"console clear service group ops x {ATTRIBUTES[0]}",
        f"ok\nuser bob service x no longer gives: {ATTRIBUTES[0]}",
    ),
    ("console service group ops x b=", "ok\nuser bob service x now gives: b="),
    (
        f"packet 1 {asked(['service=x'])}",
        f"reply 1 {granted([*ATTRIBUTES[1:], 'b='])}\nclosed 1",
    ),
)


@scripts
def lines_about_services_at_the_limit():
    """Where there are 64 one more is refused, and taken once one is gone."""
    for lines, fault in (
        ("service x b=", "70 10 Limit"),
        ("service y", "70 10 Limit"),
        ("refuse y", "70 10 Limit"),
        # What comes before it on the line.
        (f"service x {ATTRIBUTES[0]}", "70 3 Repeated"),
        ("refuse x", "70 3 Repeated"),
        ("service x b", "70 6 BadValue"),
        ("service y a", "70 6 BadValue"),
        ("service y/ b=", "70 2 BadName"),
        # The next subject has lines of its own.
        ("user bob in ops\nservice x b=\nrefuse x", "72 3 Repeated"),
    ):
        script = f"key k\n{given('x')}{lines}\nrun\n"
        yield f"then {lines[:40]!r}", script, f"fault line {fault}\n"
    script, printed = opened(given("x") + "user bob in ops\n"), ""
    for line, answer in TYPED_AT_THE_LIMIT:
        script += f"{line}\n"
        printed += f"{answer}\n"
        yield f"up to {line[:40]}", script, printed


def each_beginning(before, header, body, answered, refused):
    """The packet with each beginning of its body is refused, and with all of it answered. Lines may
    come before it, which print something."""
    lines, printed = before
    for length in range(len(body) + 1):
        script = opened(BOB) + lines + packet(header, body[:length])
        answer = answered if length == len(body) else refused
        yield f"{length} of {len(body)} bytes", script, printed + answer


@scripts
def cut_requests():
    return each_beginning(
        ("", ""),
        "c0020100.00000001",
        b"\x06\x01\x01\x01\x03\x04\x00\x03\x0d\x08\x0fbobtty0service=shellcmd=showcmd-arg=version",
        PERMITTED,
        BAD_BODY,
    )


@scripts
def cut_starts():
    return each_beginning(
        ("", ""),
        "c0010100.00000001",
        b"\x01\x01\x01\x01\x00\x04\x00\x00tty0",
        USERNAME,
        "reply 1 c0010200.00000001.0000000e.070000080000'bad body'\nclosed 1\n",
    )


@scripts
def cut_continuations():
    return each_beginning(
        ("packet 1 c0010100.00000001.0000000c.0101010100040000'tty0'\n", USERNAME),
        "c0010300.00000001",
        b"\x00\x03\x00\x00\x00bob",
        "reply 1 c0010400.00000001.00000010.0501000a0000'Password: '\n",
        "reply 1 c0010400.00000001.0000000e.070000080000'bad body'\nclosed 1\n",
    )


@scripts
def cut_records():
    return each_beginning(
        ("", ""),
        "c0030100.00000001",
        b"\x04\x06\x01\x01\x01\x03\x04\x00\x05\x09\x0f\x0d\x08\x0f"
        b"bobtty0task_id=7elapsed_time=12service=shellcmd=showcmd-arg=version",
        "reply 1 c0030200.00000001.00000005.0000000001\nclosed 1\n",
        "reply 1 c0030200.00000001.0000000d.0008000002'bad body'\nclosed 1\n",
    )


@cases
def longest_line_of_a_log():
    """A line of the log has all that is given, in the order in which the device gets it."""
    script = opened(given("x") + "user bob in ops\n") + f"packet 1 {asked(['service=x'])}\n"
    listed = ",".join(f'"{it}"' for it in ATTRIBUTES)
    logged = (
        '{"time":null,"device":"connection 1","session":"00000001","type":"command","user":"bob",'
        '"port":"tty0","from":"","privilege":1,"service":1,"arguments":["service=x"],"line":null,'
        f'"status":"PASS_ADD","text":"","given":[{listed}]}}\n'
    )
    printed = f"reply 1 {granted(ATTRIBUTES)}\nclosed 1\n"
    script, printed = (spelled_out(text).encode() for text in (script, printed))
    yield "all that is given", replay_check(script, printed, logged=logged.encode())


@cases
def keys_files():
    """A server whose key's file is so long, and whose policy's file isn't there."""
    for length, complained in (
        (65_536, b"tacd: nobody: No such file or directory (os error 2)\n"),
        (65_537, b"tacd: key: it is over 65536 bytes long\n"),
    ):
        key = File("key", b"tundra\n".ljust(length, b"x"), 0o600)
        run = Run(("serve", "--port", "1", "--key-file", "key", "nobody"), b"", (key,))
        yield f"{length} bytes", Check(run, Outcome(b"", complained, 4), "the start of a server")


@cases
def reviews():
    """What no file of tests can write down: a byte that isn't UTF-8, and words of several lines."""
    policy = File("policy", b"user b\xf6b\nlogin x\n", 0o600)
    told = b"line 1 column 7: a byte that isn't UTF-8: a policy is printable ASCII\n"
    run = Run(("lint", "policy"), b"", (policy,))
    yield "a byte that isn't UTF-8", Check(run, Outcome(told, b"", 1), "lint")
    policy = File("policy", OPS.encode(), 0o600)
    for line in "show\n", "show\nbob show":
        run = Run(("why", "policy", "bob", line), b"", (policy,))
        yield f"why bob {line!r}", Check(run, Outcome(b"fault BadQuestion\n", b"", 1), "why")
    yield "edits that are too large on their way", too_large_on_the_way()


def device(number, prefixes):
    """A device of that number, with so many addresses, in four lines or more."""
    places = "".join(f"at 10.{number >> 8}.{number & 0xff}.{place}\n" for place in range(prefixes))
    return f"device d{number}\n{places}key the key of d{number:04}\n"


def listed(text, words, printed, status):
    """What `tacd devices` prints of this file."""
    run = Run(("devices", "devices", *words), b"", (File("devices", text.encode("latin-1"), 0o600),))
    complained = b"tacd: 'tacd devices --lint devices' says more\n" if status == 1 else b""
    return Check(run, Outcome(printed.encode(), complained, status), "devices")


@cases
def devices():
    """A file of 4,096 devices, and an address that is asked about."""
    many = "".join(device(number, 1) for number in range(4096))
    yield "as many", listed(many, (), "devices ok: 4096 devices, 4096 prefixes\n", 0)
    found = "10.15.255.0 d4095 10.15.255.0/32 line 12287\n"
    yield "as many, asked about", listed(many, ("10.15.255.0",), found, 0)
    for line, fault in (
        ("device x", "7 Limit"),
        # What comes before it on the line.
        ("device d0", "6 Repeated"),
        ("device d4095", "6 Repeated"),
        ("device ,", "2 BadName"),
        ("device", "1 BadLine"),
    ):
        told = f"devices fault line 12289 {fault}\n"
        yield f"as many, then {line!r}", listed(many + line, (), told, 1)


@cases
def prefixes():
    """The same of 16,384 prefixes."""
    full = "".join(device(number, 16) for number in range(1024))
    yield "full", listed(full, (), "devices ok: 1024 devices, 16384 prefixes\n", 0)
    asked = ("10.3.255.15", "10.3.255.16", "10.0.0.0")
    found = (
        "10.3.255.15 d1023 10.3.255.15/32 line 18431\n"
        "10.3.255.16 may not call\n"
        "10.0.0.0 d0 10.0.0.0/32 line 2\n"
    )
    yield "full, asked about", listed(full, asked, found, 5)
    for line, fault in (
        ("at ::1", "7 Limit"),
        ("at 10.0.0.0/31", "7 Limit"),
        ("at 10.0.0.0", "6 Repeated"),
        ("at 10.3.255.15/32", "6 Repeated"),
        ("at 10.0.0.0/33", "4 BadPrefix"),
        ("at 10.0.0.0 ", "1 BadLine"),
    ):
        told = f"devices fault line 18433 {fault}\n"
        yield f"full, then {line!r}", listed(full + line, (), told, 1)
    # The last device has no address, since there is no room for one.
    told = "devices fault line 18433 9 NoAddress\n"
    yield "full, then one without an address", listed(full + "device x\nkey k\n", (), told, 1)


@cases
def bytes_of_devices():
    """Those that aren't UTF-8, and a control character."""
    for byte in "\x7f", "\x80", "\xff", "\0":
        told = "devices fault line 2 1 BadLine\n"
        yield f"the byte {byte!r}", listed(f"device a\nkey k{byte}\nat ::1\n", (), told, 1)


def linted(text, told):
    """What a lint tells of the lines of a devices' file."""
    run = Run(("devices", "devices", "--lint"), b"", (File("devices", text.encode("latin-1"), 0o600),))
    printed = "".join(f"line {line}\n" for line in told)
    return Check(run, Outcome(printed.encode(), b"", 1), "the lint")


@cases
def lints():
    """Devices' files that are refused, and what is told of their lines: each byte, the limits, as many
    faults as are told, and lines of 16 MB."""
    odd = {"\r": "a carriage return: lines end in LF alone", "\t": "a tab: is a space meant?"}
    for code in (*range(0x0A), *range(0x0B, 0x20), *range(0x7F, 0x100)):
        byte = chr(code)
        told = odd.get(byte, "a byte that isn't printable ASCII")
        text = f"device a\nat ::1\nkey wintry{byte}tundra-ridge\n"
        yield f"the byte {byte!r} in a key", linted(text, [f"3 column 11: {told}"])
    many = "".join(device(number, 1) for number in range(4096))
    yield "a device too many", linted(f"{many}device x", ["12289 column 1: more than 4096 devices"])
    again = ["12290 column 2: a device of this name begins at line 1 already"]
    yield "one again", linted(f"{many}\n device d0", again)
    full = "".join(device(number, 16) for number in range(1024))
    yield "a prefix too many", linted(f"{full}at ::1", ["18433 column 1: more than 16384 lines 'at'"])
    again = ["18433 column 1: line 2 has these addresses already"]
    yield "a prefix again", linted(f"{full}at 10.0.0.0/32", again)
    unknown = "no line of a devices' file begins with this word"
    told = [f"{number} column 1: {unknown}" for number in range(1, 1001)]
    yield "1,000 wrong lines", linted("x\n" * 1000, told)
    enough = "1001 column 1: this line and those after it aren't looked at: mend the others first"
    yield "one more", linted("x\n" * 1001, [*told, enough])
    yield "as many as there are", linted("x\n" * 8_388_608, [*told, enough])
    yield "a line of 16 MB", linted("x" * 16_777_216, [f"1 column 1: {unknown}"])
    spaces = "device a\nat ::1\nkey k\n".ljust(16_777_215) + "x"
    yield "16 MB of spaces", linted(spaces, [f"4 column {16_777_216 - 22}: {unknown}"])
    zeros = "\0" * 16_777_216
    yield "16 MB of zeros", linted(zeros, ["1 column 1: a byte that isn't printable ASCII"])
    lacks = "this device has no line 'at'"
    lines = "".join(f"device d{number}\nkey k\n" for number in range(1001))
    told = [f"{2 * number + 1} column 1: {lacks}" for number in range(1000)]
    enough = "2000 column 1: this line and those after it aren't looked at: mend the others first"
    yield "1,001 devices that lack something", linted(lines, [*told, enough])


@cases
def long_devices():
    """A file of a byte too many, of which nothing is told."""
    file = File("devices", b"# no device\n".ljust(16_777_217, b"\n"), 0o600)
    complained = b"tacd: devices: it is over 16777216 bytes long\n"
    for words in (
        ("devices", "devices"),
        ("devices", "--lint", "devices"),
        ("serve", "--port", "1", "--devices", "devices", "nobody"),
    ):
        check = Check(Run(words, b"", (file,)), Outcome(b"", complained, 4), words[0])
        yield " ".join(words[:2]), check


def too_large_on_the_way():
    """After the first batch `s` is in `q`, and `t` is still in `s`: so `t` has the rule of `q` beside
    its own, which neither policy puts together."""
    groups = "group q\ndeny .*b........\ngroup o\ngroup x\ngroup y in x\ngroup z in y\n"
    texts = [
        f"{groups}group s in {above}\nuser t in {parent}\ndeny .*a........\n"
        + "".join(f"user u{user} in {others}\n" for user in range(80))
        for above, parent, others in (("o", "s", "o"), ("q", "z", "y"))
    ]
    files = [File(name, text.encode(), 0o600) for name, text in zip(("old", "new"), texts)]
    told = b"batch 1: refused 11 TooManyStates user t\n"
    run = Run(("diff", "--edits", "old", "new"), b"", tuple(files))
    return Check(run, Outcome(told, b"", 1), "diff --edits")
