"""Consoles of servers, at standard input and at a socket: what lines are answered and what of them is
logged, what operators are told who share a console, edits that outlive their server, and how it is."""

import contextlib
import errno
import os
import pathlib
import signal
import socket
import tempfile
import time

from lib.cases import LONGEST_WAIT, SOON, comes_to, require
from lib.consoles import Operator, asks_all, attended, stops, told, typed, types
from lib.devices import ASK, DENIED, KEPT, RECORD, STORED, account, answer, connect, is_answered, packet
from lib.judged import FDATASYNC, OPENAT, Supervised
from lib.keeping import FIRST, NO_ROOM, Keeping, isnt_begun, leads, writes
from lib.servers import BLANK, POLICY, Server, events, ready, replace, starts

ONE = "device one\nat 192.0.2.1\nkey wintry-tundra-ridge-41\n"


def exchanges(talk):
    """The lines of a conversation after `> `, each with the lines that answer it, and those after `< `
    and `<< `, which have no answer. Lines with blanks at their ends stand between bars."""
    told = []
    for line in filter(None, map(str.strip, talk.splitlines())):
        if len(line) > 1 and line.startswith("|") and line.endswith("|"):
            line = line[1:-1]
        if line.startswith((">", "<")):
            told.append((line, []))
        else:
            told[-1][1].append(line)
    return told


def converses(program, talk, *options, complained="", **more):
    """A conversation at standard input, whose lines after `> ` are typed one after another, each once
    the one before is answered. Those after `< ` are FILE's from then on, and those after `<< ` the
    devices' file's. The log has each line with its whole answer, and standard error the complaints. If
    no file changes, the same comes where all lines are typed at once."""
    told = exchanges(talk)
    with Server(program, "--log", "log", *options, **more) as server:
        starts(server)
        for line, answers in told:
            mark, _, text = line.partition(" ")
            if mark == ">":
                types(server, text, *answers)
            else:
                replace(server, {"<": "policy", "<<": "devices"}[mark], text)
        server.ends("quit\n", complained=complained, is_listening=False)
        lines = [(line[2:], answers) for line, answers in told if line.startswith(">")]
        logged = [(event["console"], event["answer"]) for event in events(server)]
        require(logged == [*lines, ("quit", [])], f"the log has {logged}")
    if len(lines) == len(told):
        typed = "".join(f"{line}\n" for line, _ in lines)
        answered = "".join(f"{line}\n" for _, answers in lines for line in answers)
        with Server(program, *options, **more) as server:
            server.ends(typed + "quit\n", answered)


CONVERSATIONS = (
    (
        (),
        """
        > why bob show version
        permitted by group ops rule 1
        > insert group ops 1 deny show .*
        ok
        |user bob now denies: show |
        > why bob show version
        denied by group ops rule 1
        > move user eve out
        refused 2 NoSuch
        > reach group net
        refused 2 NoSuch
        > records
        none
        > rotate
        rotated 0 entries 6
        """,
    ),
    # What is no line of a console is no call.
    (
        (),
        """
        |> |
        refused 1 BadEdit
        > Quit
        refused 1 BadEdit
        >  quit
        refused 1 BadEdit
        |> quit |
        refused 1 BadEdit
        > Rotate
        refused 1 BadEdit
        >  rotate
        refused 1 BadEdit
        |> rotate |
        refused 1 BadEdit
        > Reload
        refused 1 BadEdit
        >  reload
        refused 1 BadEdit
        |> reload |
        refused 1 BadEdit
        > reload policy
        refused 1 BadEdit
        > Reload devices
        refused 1 BadEdit
        > reload  devices
        refused 1 BadEdit
        |> reload devices |
        refused 1 BadEdit
        > reload devices campus.devices
        refused 1 BadEdit
        > devices
        refused 1 BadEdit
        > why b,b
        refused 1 BadEdit
        > rotate
        rotated 0 entries 0
        """,
    ),
    (
        (),
        """
        > rotate
        rotated 0 entries 0
        > shadow
        none
        > drop group ops 7
        refused 7 BadIndex
        > begin
        ok
        > add group net
        kept 1
        > rotate
        rotated 1 entries 2
        > add group a,b
        refused 1 BadEdit
        > commit
        ok
        > rotate
        rotated 2 entries 1
        > why bob show x
        permitted by group ops rule 1
        > reach group net
        none
        > rotate
        rotated 3 entries 2
        """,
    ),
    # The next segment begins before the third call of one.
    (
        ("--rotate-at", "3"),
        """
        > shadow
        none
        > drop group ops 7
        refused 7 BadIndex
        > shadow
        none
        > rotate
        rotated 1 entries 1
        > rotate
        rotated 2 entries 0
        > begin
        ok
        > add group net
        kept 1
        > why bob show x
        permitted by group ops rule 1
        > commit
        ok
        > rotate
        rotated 3 entries 2
        > shadow
        none
        > shadow
        none
        > shadow
        none
        > shadow
        none
        > rotate
        rotated 5 entries 2
        """,
    ),
    (
        (),
        """
        > begin
        ok
        > commit
        ok
        > begin
        ok
        > insert group ops 1 deny show .*
        kept 1
        > drop group ops 1
        kept 2
        > commit
        ok
        > begin
        ok
        > add group net
        kept 1
        > drop group ops 2
        kept 2
        > commit
        refused at edit 2: 7 BadIndex
        > begin
        ok
        > insert group ops 1 deny .*a..............
        kept 1
        > drop group ops 1
        kept 2
        > commit
        ok
        > policy
        policy 2
        group ops
        permit show .*
        user bob in ops
        > begin
        ok
        > add group net
        kept 1
        > insert group net 1 permit ping
        kept 2
        > move user bob in net
        kept 3
        > commit
        ok
        user bob now permits: ping
        |user bob now denies: show |
        > rotate
        rotated 0 entries 6
        """,
    ),
    (
        (),
        """
        > commit
        refused 1 BadEdit
        > begin
        ok
        > begin
        refused 1 BadEdit
        > nonsense
        refused 1 BadEdit
        > add group net
        kept 1
        > reach group net
        refused 2 NoSuch
        > remove user eve
        kept 2
        > commit
        refused at edit 2: 2 NoSuch
        > abandon
        refused 1 BadEdit
        > policy
        policy 2
        group ops
        permit show .*
        user bob in ops
        > begin
        ok
        > drop group ops 2
        kept 1
        > commit
        refused at edit 1: 7 BadIndex
        > drop group ops 2
        refused 7 BadIndex
        > begin
        ok
        > insert group ops 1 deny .*a..............
        kept 1
        > add group z
        kept 2
        > commit
        refused 11 TooManyStates group ops
        > begin
        ok
        > insert group ops 1 deny show .*
        kept 1
        > abandon
        ok
        > why bob show x
        permitted by group ops rule 1
        > rotate
        rotated 0 entries 7
        """,
    ),
)


def what_lines_are_answered(program):
    for options, talk in CONVERSATIONS:
        converses(program, talk, *options)


def many_lines(program):
    """A batch of 64 edits takes no other, and three hundred lines are as many calls."""
    edits = "".join(f"> add group a{number}\nkept {number}\n" for number in range(1, 65))
    converses(
        program,
        f"""
        > begin
        ok
        {edits}
        > add group b
        refused 10 Limit
        > add group a,b
        refused 1 BadEdit
        > why bob show x
        permitted by group ops rule 1
        > commit
        ok
        > add group a64
        refused 3 Exists
        > add group b
        ok
        > rotate
        rotated 0 entries 4
        """,
    )
    converses(program, "> why bob\ndenied by default\n" * 300 + "> rotate\nrotated 0 entries 300\n")


def how_an_input_ends(program):
    """By `quit`, after which nothing is looked at, also in a batch; or with the last line, which need
    have no end."""
    for typed, answers in (
        ("why bob ping\nbegin\nadd group net\nquit\ncommit\nshadow\nquit\n", "denied by default\nok\nkept 1\n"),
        ("shadow", "none\n"),
        ("\nshadow\n", "refused 1 BadEdit\nnone\n"),
        ("begin\nadd group net", "ok\nkept 1\n"),
        ("shadow\nquitshadow", "none\nrefused 1 BadEdit\n"),
    ):
        with Server(program) as server:
            server.ends(typed, answers)


GONE = "tacd: policy: {} of {} users are gone\n"
# Other policies are loaded, and what standard error says of it.
RELOADS = (
    (
        """
        < group ops; permit ping; user bob in ops
        > reload
        ok
        user bob now permits: ping
        |user bob now denies: show |
        > why bob ping
        permitted by group ops rule 1
        > reload
        ok
        < group net; permit ping .*; user eve in net; user amy; user bob
        > reload
        ok
        |user eve now permits: ping |
        user bob now denies: ping
        > why bob ping
        denied by default
        > policy
        policy 2
        group net
        permit ping .*
        user eve in net
        user amy
        user bob
        > rotate
        rotated 0 entries 9
        """,
        "",
    ),
    (
        """
        < group ops; permit show .*; deny (; user bob in ops
        > reload
        fault line 3 5 BadPattern 3 Unclosed at 0
        < permit show .*
        > reload
        fault line 1 4 NoSubject
        |< |
        > reload
        unread policy: No such file or directory (os error 2)
        > rotate
        rotated 0 entries 0
        < group ops; deny .*a..............; user eve in ops
        > reload
        fault TooManyStates group ops
        > why bob show version
        permitted by group ops rule 1
        > policy
        policy 2
        group ops
        permit show .*
        user bob in ops
        > rotate
        rotated 1 entries 4
        """,
        "",
    ),
    (
        """
        > begin
        ok
        > insert group ops 1 deny show .*
        kept 1
        < group net; permit ping .*; user eve in net
        > reload
        ok
        |user eve now permits: ping |
        |user bob now denies: show |
        1 of 1 users are gone
        > commit
        refused at edit 1: 2 NoSuch
        > begin
        ok
        > insert group ops 1 deny show .*
        kept 1
        < group ops; deny (
        > reload
        fault line 2 5 BadPattern 3 Unclosed at 0
        < group ops; permit show .*
        > reload
        fault NoUser
        < group ops; permit show .*; user bob in ops
        > reload
        ok
        |user bob now permits: show |
        |user eve now denies: ping |
        1 of 1 users are gone
        > commit
        ok
        |user bob now denies: show |
        > rotate
        rotated 0 entries 7
        """,
        GONE.format(1, 1) * 2,
    ),
)


def other_policies(program):
    """What differs is told for each user, those of the new policy in its order, and those who are gone
    last. Where none may stand nothing changes, and only one that is too large is a call, after the
    question for the present one. An open batch stays, and is judged on the policy that there is at its
    `commit`."""
    for talk, complained in RELOADS:
        converses(program, talk, complained=complained)


FEWER_AND_FEWER = """
    < user a; user b; user c; user d; user bob
    > reload
    ok
    |user bob now denies: show |
    < user a; user b; user e; user g; user h
    > reload
    ok
    3 of 5 users are gone
    < user a; user b; user e; user i; user j; user k; user l
    > reload
    ok
    < user a; user b; user e; user m; group i; group j; group k; group l
    > reload
    ok
    4 of 7 users are gone
    < user b; user m; group a; group e; permit x; user n in e
    > reload
    ok
    user n now permits: x
    < user o; deny .*a..............
    > reload
    fault TooManyStates user o
    < user n; user x; permit x
    > reload
    ok
    user n now denies: x
    user x now permits: x
    2 of 3 users are gone
    """


def users_who_are_gone(program):
    """Where fewer than half of the users are there still, by name, a reload says so last, and standard
    error too: not at half. A group of a user's name is no user, and new users don't count."""
    complained = GONE.format(3, 5) + GONE.format(4, 7) + GONE.format(2, 3)
    converses(program, FEWER_AND_FEWER, complained=complained)


# A password has another hash by another salt.
HASH, OTHER = (
    "$6$saltsalt$temoAzB1LMUGfs39YsEHhlSSY8ud5tjHcrE1ZINzi8TsesBqqjufdtA7fVhnojTHlBhKZVF0Q9wxWAcE707Cb0",
    "$6$rounds=1000$a.b/c$DTK7hHK5OlG9lAtBisZZCIY54BYeEOnsDdkgHm/Wcq/9YSzDqMBrwZrornT.TWCVBpL3I8Y8Cl1mhQ3EWAHpl.",
)
OTHER_SECRETS = f"""
    < user bob; login lake; user eve; enable high; user ann
    > reload
    ok
    |user bob now denies: show |
    user bob login set
    user eve enable set
    > reload
    ok
    > clear enable eve
    ok
    > begin
    ok
    > clear login bob
    kept 1
    > commit
    ok
    > reload
    ok
    user bob login set
    user eve enable set
    < policy 3; user ann; permit x; user bob; login-hash {HASH}; service s; user eve; login high; enable high
    > reload
    ok
    user ann now permits: x
    user bob service s now granted
    user bob login changed
    user eve login set
    < policy 3; user bob; login-hash {OTHER}; enable-hash {OTHER}; user new; login n
    > reload
    ok
    user ann now denies: x
    user bob service s now refused
    user bob login changed
    user bob enable set
    user new login set
    user eve login cleared
    user eve enable cleared
    2 of 3 users are gone
    < policy 3; user bob; login-hash {OTHER}; enable-hash {HASH}; login x
    > reload
    fault line 5 3 Repeated
    < policy 3; user new; login {HASH}; user bob; enable-hash {OTHER}; login {OTHER}
    > reload
    ok
    user new login changed
    user bob login changed
    < policy 3; user new; login n; user bob; deny .*a..............
    > reload
    fault TooManyStates user bob
    """


def secrets_that_a_reload_changes(program):
    """It tells whose they are, which, and what became of each, after all that changes of lines and
    services, and before how many users are gone. Edits are answered without that, alone and in batches,
    and a reload compares with what they made. What is refused tells nothing."""
    converses(program, OTHER_SECRETS, complained=GONE.format(2, 3))
    with Server(program, policy="user bob\nlogin lake\nuser eve\n") as server:
        starts(server)
        types(server, "login bob boat", "ok")
        types(server, "begin", "ok")
        types(server, "enable bob high", "kept 1")
        types(server, "login eve sea", "kept 2")
        types(server, "commit", "ok")
        told = ("user bob login changed", "user bob enable cleared", "user eve login cleared")
        types(server, "reload", "ok", *told)
        types(server, "reload", "ok")
        server.ends("quit\n", is_listening=False)


NOBODY_AFTER_BOB = """
    < # nobody
    > reload
    fault NoUser
    < policy 2
    > reload
    fault NoUser
    < group bob; permit show .*; group ops in bob
    > reload
    fault NoUser
    > why bob show x
    permitted by group ops rule 1
    > rotate
    rotated 0 entries 4
    > remove user bob
    ok
    |user bob now denies: show |
    > reload
    ok
    < user bob
    > reload
    ok
    < group bob
    > reload
    fault NoUser
    > rotate
    rotated 1 entries 6
    """
NOBODY_AT_FIRST = """
    > reload
    ok
    < group ops
    > reload
    ok
    < user bob
    > reload
    ok
    < group ops
    > reload
    fault NoUser
    """


def a_policy_of_nobody(program):
    """It isn't taken where the present policy has a user: everyone would be denied, and no device would
    go on to its own users. Where that has none either it is, as at the start, which standard error
    tells."""
    converses(program, NOBODY_AFTER_BOB)
    nobody = "tacd: policy: the policy has no user: nobody can log in\n"
    for policy in ("", "# nobody\n", "group bob\npermit show .*\n"):
        converses(program, NOBODY_AT_FIRST, complained=nobody, policy=policy)


def files_of_any_name(program):
    """An answer names them in one line: a control character is shown as a question mark, and all else
    as it is."""
    names = {"file": "new\nok\x1b[2J\r\x7f \t~é", "key": ("--devices", "devices")}
    shown = "new?ok?[2J?? ?~é"
    with Server(program, devices=ONE, **names) as server:
        starts(server)
        pathlib.Path(server.folder.name, names["file"]).unlink()
        gone = "No such file or directory (os error 2)"
        types(server, "reload", f"unread {shown}: {gone}")
        types(server, "why bob ping", "denied by default")
        server.ends("quit\n", is_listening=False)
    named = ("--devices", "of\nok\x1f\x7f~é")
    rename = lambda: os.rename("devices", named[1])
    with Server(program, key=named, devices=ONE, before=rename) as server:
        starts(server)
        pathlib.Path(server.folder.name, named[1]).unlink()
        types(server, "reload devices", f"devices unread of?ok??~é: {gone}")
        types(server, "why bob ping", "denied by default")
        server.ends("quit\n", is_listening=False)


OTHER_DEVICES = """
    > begin
    ok
    > insert group ops 1 deny show .*
    kept 1
    << device core-1; at 192.0.2.1; at 2001:db8::1; key wintry-tundra-ridge-41; device access; at 192.0.2.128/25; key short
    > reload devices
    devices ok: 2 devices, 3 prefixes
    << device one; key fjord; ; at 192.0.2.1/24
    > reload devices
    devices fault line 4 4 BadPrefix
    << device one; at ::1
    > reload devices
    devices fault line 1 8 NoKey
    |<< |
    > reload devices
    devices unread devices: No such file or directory (os error 2)
    > insert group ops 1 permit ping
    kept 2
    > commit
    ok
    user bob now permits: ping
    |user bob now denies: show |
    > rotate
    rotated 0 entries 1
    """


def other_devices(program):
    """Whatever comes of the file, it is no call, and a batch stays open. Standard error says why it is
    refused."""
    bits = "line 4 column 4: bits are set after the first 24: is '192.0.2.0/24' meant, or '192.0.2.1'?"
    lacks = "line 1 column 1: this device has neither 'key' nor 'tls', or an 'old-key' and no 'key'"
    complained = "".join(f"tacd: devices: {told}\n" for told in (bits, lacks))
    named = {"key": ("--devices", "devices"), "devices": ONE}
    converses(program, OTHER_DEVICES, complained=complained, **named)


def no_memory_for_devices(program):
    errors = []
    supervised = Supervised(lambda call: errors.pop() if call == OPENAT and errors else None)
    more = {"key": ("--devices", "devices"), "devices": ONE}
    with Server(program, before=supervised.begin, **more) as server, supervised:
        starts(server)
        errors.append(errno.ENOMEM)
        types(server, "reload devices", "refused 12 Memory")
        require(not errors, "the file wasn't opened")
        types(server, "reload devices", "devices ok: 1 devices, 1 prefixes")
        server.ends("quit\n", is_listening=False)


def an_input_that_fails(program):
    """The server says so and ends at once, also after a line, which is answered."""
    unread = "tacd: the console could not be read\n"
    folder = lambda: os.dup2(os.open("/", os.O_RDONLY), 0)  # as a read of it fails
    with Server(program, "--workers", "3", before=folder) as server:
        server.ends(complained=unread, status=4)
    ours, theirs = socket.socketpair()
    with ours, theirs:
        # A read fails after the line, as it doesn't wait.
        theirs.setblocking(False)
        ours.sendall(b"shadow\n")
        one_line = lambda: os.dup2(theirs.fileno(), 0)
        with Server(program, "--workers", "3", before=one_line) as server:
            server.ends(answers="none\n", complained=unread, status=4)


def an_output_that_fails(program):
    """So it does where an answer can't be written, though its workers have a silent device and wait for
    others."""
    unwritten = "tacd: the output could not be written\n"
    unsignalled = lambda: signal.signal(signal.SIGPIPE, signal.SIG_IGN)  # so that a write fails
    ours, theirs = socket.socketpair()
    more = {"output": theirs, "before": unsignalled}
    with ours, theirs, Server(program, "--workers", "3", **more) as server, connect(server):
        came = ours.makefile().readline()
        require([came] == server.listening, f"it says {came!r}")
        # Whoever else has it by now, as a process that another case begins.
        ours.shutdown(socket.SHUT_RDWR)
        began = time.monotonic()
        server.ends("shadow\n", complained=unwritten, status=4, is_listening=False)
        require(time.monotonic() - began < SOON, "it took too long")


def logged_before_it_is_answered(program):
    """When a line's log is put on the disk nothing of its answer is printed."""
    early = []

    def judge(call):
        if call == FDATASYNC:
            early.append(bool(ready([server.process.stdout], 0.05)))

    supervised = Supervised(judge)
    options = ("--log", "log", "--sync")
    with Server(program, *options, before=supervised.begin) as server, supervised:
        starts(server)
        for line, answer in (("shadow", "none"), ("hello", "refused 1 BadEdit"), ("begin", "ok")):
            count = len(early)
            types(server, line, answer)
            require(len(early) > count, f"{line} is answered before its log is put on the disk")
        require(not any(early), "an answer is printed before its line is logged")
        server.ends("quit\n", is_listening=False)


def answered_where_the_log_fails(program):
    """A line is answered also where the disk doesn't keep its line of the log, `quit` too."""
    supervised = Supervised(lambda call: errno.EIO if call == FDATASYNC else None)
    options = ("--log", "log", "--sync")
    with Server(program, *options, before=supervised.begin) as server, supervised:
        starts(server)
        types(server, "shadow", "none")
        types(server, "begin", "ok")
        why = "Input/output error (os error 5); requests aren't answered until it takes lines"
        server.ends("quit\n", complained=f"tacd: log: {why}\n", is_listening=False)


# Who typed each line of those who share a console, as the log has it.
TYPED_BY = [
    (None, "why bob ping"),
    ("anna", "begin"),
    ("anna", "insert group ops 1 deny ping"),
    ("ben", "why bob show"),
    ("ben", "reload devices"),
    ("ben", "reload"),
    ("ben", "rotate"),
    ("ben", "nonsense"),
    ("anna", "commit"),
    ("ben", "drop group ops 1"),
    (None, "begin"),
    (None, "insert group ops 1 deny show .*"),
    (None, "abandon"),
    ("ben", "begin"),
    ("ben", "abandon"),
    ("ben", "why bob show x"),
    ("anna", "quit"),
]


def operators_who_share_a_console(program):
    """While one has a batch open others' edits are `busy`, and all else is answered. Who goes loses it.
    The log has the name of who typed a line."""
    with attended(program, "--log", "log") as server:
        with Operator(server) as anna, Operator(server) as ben:
            require((anna.first, ben.first) == ("ready", "ready"), "they aren't let in")
            told(anna, ("why bob ping", "denied by default"), ("operator anna", "ok"), ("begin", "ok"))
            told(anna, ("insert group ops 1 deny ping", "kept 1"), ("operator a,b", "refused 1 BadEdit"))
            busy = ("begin", "drop group ops 1", "commit", "abandon")
            told(ben, *((line, "busy anna") for line in busy))
            told(ben, ("operator ben", "ok"), ("why bob show", "denied by default"))
            told(ben, ("reload devices", "no devices"), ("reload", "ok"), ("rotate", "rotated 0 entries 4"))
            told(ben, ("nonsense", "refused 1 BadEdit"))
            told(anna, ("commit", "ok"))
            told(ben, ("drop group ops 1", "ok"))
            with Operator(server) as another:
                told(another, ("begin", "ok"), ("insert group ops 1 deny show .*", "kept 1"))
                told(ben, ("begin", "busy another"))
                another.stream.sendall(b"drop group ops 1")  # without its end it is no line
            comes_to(lambda: ben.ask("begin"), "ok")
            told(ben, ("abandon", "ok"), ("why bob show x", "permitted by group ops rule 1"))
            stops(server, anna)
        logged = [(event["operator"], event["console"]) for event in events(server)]
    require(logged == TYPED_BY, f"the log has {logged}")


REFUSING = "policy 3\n" + POLICY + "user carla\nrefuse junos-exec\n"


def a_service_that_is_refused(program):
    """That is what `given` tells, and no refusal of the line: alone, in a file and in a batch. A refusal
    ends the file, and with it the batch."""
    with attended(program, policy=REFUSING) as server, Operator(server) as operator:
        refused = "refused by user carla\n"
        given = "given carla junos-exec"
        require((came := typed(program, server, given)) == refused, f"it is told {came!r}")
        for lines, answers in (
            (f"{given}\nwhy bob ping\n", f"{refused}denied by default\n"),
            (f"begin\nadd user eve\n{given}\ncommit\n", f"ok\nkept 1\n{refused}ok\n"),
        ):
            came = asks_all(program, server, lines)
            require(came == (answers, "", 0), f"{lines!r} ends by {came}")
        told(operator, ("why eve ping", "denied by default"))
        help_named = "tacd: type help\n"
        for lines, answers, last, more in (
            ("begin\nadd user ann\nnonsense\ncommit\n", "ok\nkept 1\n", "refused 1 BadEdit", help_named),
            ("begin\nadd user eve\ncommit\nshadow\n", "ok\nkept 1\n", "refused at edit 1: 3 Exists", ""),
        ):
            comes_to(lambda: operator.ask("begin"), "ok")  # once the batch before is dropped
            told(operator, ("abandon", "ok"))
            came = asks_all(program, server, lines)
            said = f"tacd: line 3: {last}; later lines weren't sent\n{more}"
            require(came == (f"{answers}{last}\n", said, 1), f"{lines!r} ends by {came}")
        told(operator, ("why ann ping", "unknown user"))
        stops(server, operator)


def a_place_that_is_taken(program):
    """A socket is made at its path with `.new` after it. What is there in its way is told so."""
    for make in (lambda: os.makedirs("console.new/x"), lambda: os.close(os.open("console.new", os.O_CREAT))):
        with Server(program, "--console", "console", before=make) as server:
            told = "tacd: console: something else is at this path with '.new' after it\n"
            server.ends(complained=told, status=4, is_listening=False)
    folder = lambda: os.makedirs("console/x")
    with Server(program, "--console", "console", before=folder) as server:
        server.ends(complained="tacd: console: it is no socket\n", status=4, is_listening=False)


def eight_operators(program):
    """A ninth is sent away, until one has left."""
    with attended(program) as server, contextlib.ExitStack() as stack:
        operators = [stack.enter_context(Operator(server)) for _ in range(8)]
        require([it.first for it in operators] == ["ready"] * 8, "one of eight isn't let in")
        with Operator(server) as ninth:
            came = (ninth.first, ninth.heard())
            require(came == ("busy", None), f"a ninth is told {came}")
        told(operators[0], ("shadow", "none"))
        require(operators[0].numbers()["tacd_operators"] == 8, "there aren't eight")
        operators[7].__exit__()
        comes_to(lambda: operators[0].numbers()["tacd_operators"], 7)
        require(stack.enter_context(Operator(server)).first == "ready", "another isn't let in")
        stops(server, operators[0])


def a_busy_console(program):
    """While it waits for FILE, an operator is told how the server is, and gets help, and devices are
    answered. His line waits for the other's."""
    with attended(program) as server:
        policy = pathlib.Path(server.folder.name, "policy")
        policy.unlink()
        os.mkfifo(policy, 0o600)
        with Operator(server) as first, Operator(server) as second:
            first.type("reload")
            with policy.open("w") as file:  # as soon as the server reads it
                require(second.numbers()["tacd_operators"] == 2, "there aren't two")
                require("rotate" in second.ask("help"), "there is no help")
                second.type("why bob ping")
                waits = not ready([first.stream, second.stream], 0.2)
                require(waits, "it isn't busy")
                file.write("group ops\npermit ping\nuser bob in ops\n")
            wanted = "ok\nuser bob now permits: ping\nuser bob now denies: show "
            require((came := first.heard()) == wanted, f"`reload` is answered by {came!r}")
            require(second.heard() == "permitted by group ops rule 1", "the other isn't answered")
            stops(server, second)


def how_a_server_is(program):
    """What `status` tells of its options, of itself and of its operators."""
    options = ("--log", "log", "--workers", "3", "--connections-at-once", "77", "--keep-edits", "kept")
    with attended(program, *options, key=("--devices", "devices")) as server:
        with Operator(server) as operator:
            before = resident(server)
            numbers = operator.numbers()
            after = resident(server)
            memory = numbers.pop("tacd_memory_bytes")
            slack = 2_000_000
            around = f"{before} to {after}"
            require(before - slack <= memory <= after + slack, f"it has {memory}, and not {around}")
            require(numbers.pop("tacd_uptime_seconds") <= LONGEST_WAIT, "it serves too long")
            (info,) = (name for name in numbers if name.startswith("tacd_info"))
            require(info.startswith('tacd_info{version="') and numbers[info] == 1, f"it is {info}")
            wanted = {
                "tacd_workers": 3,
                "tacd_connections_limit": 77,
                "tacd_devices": 2,
                "tacd_records_limit": 1_000_000,
                "tacd_log": 1,
                "tacd_operators": 1,
                "tacd_keeps_edits": 1,
                "tacd_edits_kept": 1,
                "tacd_serves_edits": 0,
            }
            came = {name: numbers[name] for name in wanted}
            require(came == wanted, f"it tells {came}")
            stops(server, operator, BLANK)


def resident(server):
    """How many bytes of memory the process has."""
    status = pathlib.Path(f"/proc/{server.process.pid}/status").read_text()
    (kilobytes,) = (line.split()[1] for line in status.splitlines() if line.startswith("VmRSS:"))
    return int(kilobytes) * 1024


COUNTED = ("subjects", "rules", "records", "edits_total", "reloads_total")
# What is typed, or how many records a device sends, or none where it asks for a line, and what is
# counted then.
DONE = (
    ("why bob a", "2 3 0 0 0"),
    ("add user eve in ops", "3 3 0 1 0"),
    ("add user eve in ops", "3 3 0 1 0"),
    ("insert user eve 1 permit z", "3 4 0 2 0"),
    ("drop group ops 9", "3 4 0 2 0"),
    ("drop group ops 1", "3 3 0 3 0"),
    ("remove user eve", "2 2 0 4 0"),
    ("begin", "2 2 0 4 0"),
    ("add group a", "2 2 0 4 0"),
    ("insert group a 1 deny c", "2 2 0 4 0"),
    ("add group b", "2 2 0 4 0"),
    ("commit", "4 3 0 7 0"),
    ("begin", "4 3 0 7 0"),
    ("add group c", "4 3 0 7 0"),
    ("add group c", "4 3 0 7 0"),
    ("commit", "4 3 0 7 0"),
    (1, "4 3 1 7 0"),
    (1, "4 3 2 7 0"),
    (None, "4 3 2 7 0"),
    ("drop user bob 1", "4 2 2 8 0"),
    ("reload", "2 3 2 8 1"),
    ("reload", "2 3 2 8 2"),
    ("policy", "2 3 2 8 2"),
)


def counts(operator):
    numbers = operator.numbers()
    return " ".join(str(numbers[f"tacd_{name}"]) for name in COUNTED)


def what_is_counted(program):
    """Of the policy, the records, edits that were made, each of a batch, and policies that were
    reloaded."""
    policy = "group ops\npermit a\npermit b\nuser bob in ops\ndeny c\n"
    with attended(program, policy=policy) as server, connect(server) as device:
        with Operator(server) as operator:
            for done, wanted in DONE:
                if done is None:
                    require(is_answered(device, ASK, DENIED, flag=KEPT), "bob isn't denied")
                elif isinstance(done, int):
                    account(device, 10, "bob", "task_id=7", times=done)
                else:
                    operator.ask(done)
                came = counts(operator)
                require(came == wanted, f"after {done} there are {came}, not {wanted}")
            stops(server, operator)


def records_are_counted(program):
    """As many as are kept, also where the older half went."""
    for options, many in (
        ((), ((1001, 1001),)),
        (("--keep-records", "1000"), ((999, 999), (1, 1000), (1, 501), (499, 1000), (1, 501))),
        (("--keep-records", "1001"), ((1001, 1001), (1, 501), (500, 1001), (1, 501))),
    ):
        with attended(program, *options) as server, connect(server) as device:
            with Operator(server) as operator:
                for more, wanted in many:
                    account(device, 10, "bob", "task_id=7", times=more)
                    came = operator.numbers()["tacd_records"]
                    require(came == wanted, f"{options}: {came} are counted, not {wanted}")
                    kept = operator.ask("records").count("\n") + 1
                    require(kept == wanted, f"{options}: {kept} are kept, not {wanted}")
                stops(server, operator)


NEARLY_FULL = (
    "tacd: 900000 of at most 1000000 records are stored; once all are, accounting is answered 'records "
    "full'. --keep-records N keeps the latest instead\n"
)
FULL = (
    "tacd: all 1000000 records are stored: accounting is answered 'records full' until a restart. "
    "--keep-records N keeps the latest instead\n"
)
NOT_STORED = "c0030204.00000001.00000011.000c000002'records full'"


def no_room_for_records(program):
    """After a million none is stored, and none is counted. Of nine tenths, and of all, standard error is
    told once."""
    sent, stored = packet(RECORD) * 1000, packet(STORED) * 1000
    with attended(program) as server, connect(server) as device, Operator(server) as operator:
        for _ in range(1000):
            require(answer(device, sent, len(stored)) == stored, "a record isn't stored")
        for _ in range(2):
            require(is_answered(device, RECORD, NOT_STORED), "one more is answered otherwise")
        came = operator.numbers()["tacd_records"]
        require(came == 1_000_000, f"{came} are counted")
        counted = "starts 0 stops 0 watchdogs 0 updates 1000000 open 0 elapsed 0 drift 0"
        told(operator, ("tally user bob", f"tally user bob {counted}"))
        stops(server, operator, NEARLY_FULL + FULL)


def edits_are_kept(program):
    """The file has the printed policy after each accepted edit or batch, before its answer comes, and
    is gone after an accepted `reload`. A question, a kept edit and what is refused leave it."""
    eve = FIRST + "user eve"
    net = eve + "; group net; permit ping"
    with Keeping(program) as keeping:
        for line, wanted, lines in (
            ("why bob show run", "permitted by group ops rule 1", None),
            ("add user eve", "ok", eve),
            ("drop group ops 9", "refused 7 BadIndex", eve),
            ("begin", "ok", eve),
            ("add group net", "kept 1", eve),
            ("insert group net 1 permit ping", "kept 2", eve),
            ("commit", "ok", net),
            ("begin", "ok", net),
            ("add group far", "kept 1", net),
            ("abandon", "ok", net),
            ("begin", "ok", net),
            ("drop group net 2", "kept 1", net),
            ("commit", "refused at edit 1: 7 BadIndex", net),
        ):
            keeping.asks(line, wanted, lines)
        mode = keeping.kept.stat().st_mode & 0o777
        require(mode == 0o600, f"the file has mode {mode:o}")
        keeping.tells(edits_kept=1, serves_edits=1)
        replace(keeping.server, "policy", "group ops; permit (")
        refused = "fault line 2 5 BadPattern 3 Unclosed at 0"
        keeping.asks("reload", refused, net)
        replace(keeping.server, "policy", "group ops; permit ping; user bob in ops")
        loaded = "ok\nuser bob now permits: ping\nuser bob now denies: show "
        keeping.asks("reload", loaded, None)
        keeping.tells(edits_kept=1, serves_edits=0)
        keeping.asks("add group far", "ok", "policy 2; group ops; permit ping; user bob in ops; group far")
        stops(keeping.server, keeping.operator)


NOT_KEPT = f"not kept: {NO_ROOM}\n"
BEGINS = f"tacd: kept: {NO_ROOM}; edits aren't kept\n"
IS_OVER = "tacd: kept: edits are kept again\n"


def is_not_removed(keeping):
    """A reload can't remove the file, and later it can."""
    keeping.kept.unlink()
    keeping.kept.mkdir()
    replace(keeping.server, "policy", "group ops; user bob in ops")
    loaded = "ok\nuser bob now denies: show \n2 of 3 users are gone"
    keeping.asks("reload", f"{NOT_KEPT}{loaded}", None)
    keeping.asks("why bob show run", "denied by default", None)
    keeping.tells(edits_kept=0, serves_edits=0)
    keeping.kept.rmdir()
    keeping.asks("why bob show run", "denied by default", None)
    keeping.tells(edits_kept=1, serves_edits=0)


def a_store_that_is_full(program):
    """Where the file isn't taken, a note comes once, before the answer to the line whose edit isn't
    kept, and the file is as it was. It is tried again before each later answer, and at the end."""
    eve = FIRST + "user eve"
    ann = eve + "; user ann"
    permitted = "permitted by group ops rule 1"
    with Keeping(program) as keeping:
        keeping.draft.mkdir()
        keeping.asks("add user eve", f"{NOT_KEPT}ok", None)
        keeping.tells(edits_kept=0, serves_edits=1)
        keeping.asks("why bob show run", permitted, None)
        keeping.asks("drop group ops 9", "refused 7 BadIndex", None)
        keeping.asks("add user ann", f"{NOT_KEPT}ok", None)
        keeping.draft.rmdir()
        keeping.asks("why bob show run", permitted, ann)
        keeping.tells(edits_kept=1, serves_edits=1)
        is_not_removed(keeping)
        keeping.draft.mkdir()
        keeping.asks("add user eve", f"{NOT_KEPT}ok", None)
        keeping.draft.rmdir()
        gone = "tacd: policy: 2 of 3 users are gone\n"
        complained = f"{BEGINS}{IS_OVER}{gone}{BEGINS}{IS_OVER}{BEGINS}"
        stops(keeping.server, keeping.operator, complained)
        came = keeping.kept.read_text()
        require(came == "policy 2\ngroup ops\nuser bob in ops\nuser eve\n", f"it has {came!r}")


def nothing(_):
    """All is as it is."""


def links(old, new):
    """A file has another name too."""
    return lambda folder: os.link(folder / old, folder / new)


IS_POLICY = "it is the policy's own file"
IS_KEY = "it is the key's file"
IS_DEVICES = "it is the devices' file"
IS_LOG = "it is the log's file"
IS_CONSOLE = "it is the console's socket"
NOT_LEFT = "no server left this here"
DRAFT, LOCK = "./.kept.tacd-draft", "./.kept.tacd-lock"


LOGS = ("--log", "log")
NAMED = {"key": ("--devices", "devices"), "devices": ONE}
# Places that are none for edits, why, what lies there, and options of the server.
OTHER_USES = (
    ("policy", IS_POLICY, nothing, (), {}),
    ("./policy", IS_POLICY, nothing, (), {}),
    ("kept", IS_POLICY, links("policy", "kept"), (), {}),
    ("kept", NO_ROOM, leads("kept", "policy"), (), {}),
    ("kept", NO_ROOM, lambda folder: (folder / "kept").mkdir(), (), {}),
    ("key", IS_KEY, nothing, (), {}),
    ("kept", IS_KEY, links("key", "kept"), (), {}),
    ("devices", IS_DEVICES, nothing, (), NAMED),
    ("log", IS_LOG, nothing, LOGS, {}),
    ("./log", IS_LOG, writes("log", 0o600), LOGS, {}),
    ("here/log", IS_LOG, leads("here", "."), LOGS, {}),
    ("console", IS_CONSOLE, nothing, (), {}),
)
# What lies where a server makes its own files, and why it isn't one.
IN_THE_WAY = (
    (links("policy", DRAFT), f"{DRAFT}: {IS_POLICY}"),
    (links("key", LOCK), f"{LOCK}: {IS_KEY}"),
    (writes(DRAFT, 0o640), f"{DRAFT}: {NOT_LEFT}"),
    (writes(LOCK, 0o640), f"{LOCK}: {NOT_LEFT}"),
    (leads(DRAFT, "policy"), f"{DRAFT}: {NO_ROOM}"),
    (leads(LOCK, "kept"), f"{LOCK}: {NO_ROOM}"),
    (lambda folder: (folder / DRAFT).mkdir(), f"{DRAFT}: {NO_ROOM}"),
    (lambda folder: os.mkfifo(folder / LOCK), f"{LOCK}: {NO_ROOM}"),
)


def what_is_no_place_for_edits(program):
    """A file of another use, by any name, is none, also where it isn't there yet; nor is what isn't a
    regular file. What lies where a server makes its own files has to be what a server left."""
    for path, why, lay, options, more in OTHER_USES:
        isnt_begun(program, path, f"{path}: {why}", lay, *options, **more)
    for lay, why in IN_THE_WAY:
        isnt_begun(program, "kept", why, lay)
    for path in (DRAFT, LOCK):
        isnt_begun(program, "kept", f"{path}: {IS_LOG}", nothing, "--log", path)
    twice = lambda folder: (writes(DRAFT, 0o600)(folder), links(DRAFT, "mine")(folder))
    isnt_begun(program, "kept", f"{DRAFT}: {NOT_LEFT}", twice)


def what_becomes_no_place_for_edits(program):
    """While a server runs, too, nothing takes the place of FILE, and nothing removes it."""
    eve = FIRST + "user eve"
    policy = "group ops; permit show .*; user bob in ops"
    with Keeping(program) as keeping:
        was = keeping.policy.read_text()
        os.link(keeping.policy, keeping.kept)
        came = keeping.operator.ask("add user eve")
        require(came == f"not kept: {IS_POLICY}\nok", f"an edit is answered by {came!r}")
        require(keeping.kept.samefile(keeping.policy), "FILE's second name is taken")
        require(keeping.policy.read_text() == was, "FILE is written")
        keeping.kept.unlink()
        keeping.asks("why bob show run", "permitted by group ops rule 1", eve)
        # FILE leads to the kept file from now on.
        keeping.policy.unlink()
        os.symlink("kept", keeping.policy)
        keeping.asks("reload", f"not kept: {IS_POLICY}\nok", eve)
        keeping.policy.unlink()
        replace(keeping.server, "policy", policy)
        keeping.asks("why bob show run", "permitted by group ops rule 1", None)
        said = f"tacd: kept: {IS_POLICY}; edits aren't kept\n" + IS_OVER
        stops(keeping.server, keeping.operator, said * 2)


def what_lies_beside(program):
    """Edits leave a file whose name is that of the kept one and `.new`, be it a draft of an operator's
    or FILE. What a killed server left goes with the next edit. One that got there otherwise stays."""
    eve = FIRST + "user eve"
    ann = eve + "; user ann"
    with Keeping(program) as keeping:
        folder = pathlib.Path(keeping.server.folder.name)
        links("policy", "kept.new")(folder)
        writes(DRAFT, 0o600)(folder)
        keeping.asks("add user eve", "ok", eve)
        require((folder / "kept.new").samefile(keeping.policy), "FILE is gone")
        require(not keeping.draft.exists(), "the draft is still there")
        (folder / "kept.new").unlink()
        writes("kept.new", 0o600)(folder)
        links("policy", DRAFT)(folder)
        keeping.asks("add user ann", f"not kept: {IS_POLICY}\nok", eve)
        require(keeping.draft.samefile(keeping.policy), "FILE's second name is taken")
        keeping.draft.unlink()
        writes(DRAFT, 0o640)(folder)
        keeping.asks("drop group ops 9", "refused 7 BadIndex", eve)
        require(keeping.draft.read_text() == "a draft\n", "a draft is taken that no server left")
        keeping.draft.unlink()
        keeping.asks("why bob show run", "permitted by group ops rule 1", ann)
        require((folder / "kept.new").read_text() == "a draft\n", "an operator's draft is taken")
        said = f"tacd: kept: {IS_POLICY}; edits aren't kept\n" + IS_OVER
        stops(keeping.server, keeping.operator, said)
    # A server begins where one was killed before its draft was whole.
    with tempfile.TemporaryDirectory() as folder:
        writes(".kept.tacd-draft", 0o600, "group o")(pathlib.Path(folder))
        with attended(program, "--keep-edits", f"{folder}/kept") as server, Operator(server) as operator:
            told(operator, ("why bob show run", "permitted by group ops rule 1"), ("add user eve", "ok"))
            stops(server, operator)
        require(sorted(os.listdir(folder)) == [".kept.tacd-lock", "kept"], os.listdir(folder))


def one_server_to_a_file(program):
    """A second one ends with 4 as long as the first is there, whatever became of the file; after that
    it begins. Another file in the same folder is another server's."""
    with tempfile.TemporaryDirectory() as folder:
        kept = f"{folder}/kept"

        def is_refused():
            words = ("--console", "console", "--keep-edits", kept)
            why = f"tacd: {folder}/.kept.tacd-lock: another server holds this lock\n"
            with Server(program, *words) as second:
                second.ends(complained=why, status=4, is_listening=False)

        with attended(program, "--keep-edits", kept) as first, Operator(first) as operator:
            is_refused()
            for line in ("add group far", "add group net", "reload", "add group far"):
                require(operator.ask(line) == "ok", f"{line} isn't made")
                is_refused()
            with attended(program, "--keep-edits", f"{folder}/other") as second:
                with Operator(second) as other:
                    stops(second, other)
            is_refused()
            first.process.kill()
            first.process.wait()
        with attended(program, "--keep-edits", kept) as second, Operator(second) as operator:
            told(operator, ("add group far", "refused 3 Exists"))
            said = (
                f"tacd: {kept}: served in place of policy, since it has edits of the console; "
                "'reload' takes that again\n"
            )
            stops(second, operator, said)
