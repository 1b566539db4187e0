"""What `serve --log` writes of a console and of several devices, and what of a device it answers while
the log takes no line. Clocks and failures are those of lib/judged.py."""

import errno
import json
import os
import pathlib
import stat
import threading

from lib.cases import LONGEST_WAIT, require
from lib.consoles import stops, told
from lib.counting import FAILS, FULL, counting, is_of_log
from lib.devices import (
    ASK,
    KEPT,
    LOGIN,
    NAME_WANTED,
    PERMITTED,
    RECORD,
    STORED,
    connect,
    exchanged,
    is_answered,
    is_closed,
    packet,
)
from lib.judged import REAL_TIME, WRITE, Clock, Judged
from lib.servers import Server, device_events, starts

# So many bytes of an answer are told, after its secrets are hidden.
MOST_TOLD = 4096
# Lines that have a secret, and how the log shows them.
SECRETS = (
    ("login bob secret", "login bob *"),
    ("enable bob two small boats", "enable bob *"),
    ("login bob  secret", "login bob *"),
    ("login bob ", "login bob *"),
    ("LOGIN bob secret", "LOGIN bob *"),
    ("  Enable   bob secret", "  Enable   bob *"),
    ("\tlogin\tbob\tsecret", "\tlogin\tbob\t*"),
    ("login bob secret\r", "login bob *"),
    ("login user bob", "login user *"),
    ("login-hash bob $6$salt$symbols", "login-hash bob *"),
    ("enable-hash bob $6$salt$symbols", "enable-hash bob *"),
    ("LOGIN-HASH  bob  $6$salt$symbols", "LOGIN-HASH  bob *"),
    (" Enable-Hash\tbob $6$salt$symbols", " Enable-Hash\tbob *"),
)
# Lines that have none.
PLAIN = (
    "",
    "  ",
    "login",
    "login ",
    "login bob",
    "logins bob blue",
    "clear login bob",
    "clear enable bob out",
    "login-hash bob",
    "login-hashes bob $6$salt$symbols",
    "why bob login ann blue",
    "insert group ops 1 permit enable .*",
    'why bob "\x1b\x7f',
)
HASH = "$6$rounds=1000$one$hqJyrpV8VNbVbEd9aL68I4mDrkiBvwdUGcUaMWUg.1qTkxX7AgAHehNkiN6RvZvZLeNETdb0oU5uXWjjTQ62b1"
# A policy, and how the log shows it.
POLICY = f"""policy 3
group login
permit login .*
permit enable [a-z]*
user bob in login
login small boat
enable x
user login in login
login-hash {HASH}
enable-hash {HASH}
"""
SHOWN = POLICY.replace("small boat", "*").replace("enable x", "enable *").replace(HASH, "*")
# A login, a command and a record on a connection that is kept, each with its reply, and what of each the
# log has.
REQUESTS = (
    (
        "c1010104.00000001.00000014.0101020103000009'bobblue-lake'",
        "c1010204.00000001.00000006.010000000000",
        ("login", "PASS"),
    ),
    (ASK.format(flag=KEPT), PERMITTED.format(flag=KEPT), ("command", "PASS_ADD")),
    (RECORD, STORED, ("account", "SUCCESS")),
)
NAME = "c0010300.00000001.00000008.0003000000'bob'"
PASSWORD_WANTED = "c0010400.00000001.00000010.0501000a0000'Password: '"
PASSWORD = "c0010500.00000001.0000000e.0009000000'blue-lake'"
PASSED = "c0010600.00000001.00000006.010000000000"
DEVICES, TIMES = 8, 25


def events(server):
    """The lines of the log."""
    text = pathlib.Path(server.folder.name, "log").read_text("utf-8")
    require(text.endswith("\n"), "its last line has no end")
    return [json.loads(line) for line in text.splitlines()]


def typed(program, lines, policy=POLICY):
    """What a log has of each of these lines and of its answer, and the answers."""
    with Server(program, "--log", "log", policy=policy) as server:
        starts(server)
        text = "".join(f"{line}\n" for line in [*lines, "quit"])
        printed, said = server.process.communicate(text.encode(), LONGEST_WAIT)
        require((said, server.process.returncode) == (b"", 0), f"it ended by {said}")
        came = events(server)
    require(all("operator" not in event for event in came), f"the log has {came}")
    last = came.pop()
    require((last["console"], last["answer"]) == ("quit", []), f"the last line is {last}")
    return came, printed.decode()


def secrets_are_hidden(program):
    """A line that sets a secret is shown without it, however it is spelled, and any other as it is. A line
    of the log has exactly what the console answered."""
    lines = [line for line, _ in SECRETS] + list(PLAIN)
    wanted = [shown for _, shown in SECRETS] + list(PLAIN)
    came, printed = typed(program, lines)
    require([event["console"] for event in came] == wanted, f"the log has {came}")
    answers = [line for event in came for line in event["answer"]]
    require("\n".join([*answers, ""]) == printed, f"it printed {printed!r}")


def secrets_of_a_policy_are_hidden(program):
    """Those that the answer to `policy` has, and nothing that only begins as such a line."""
    ((event,), printed) = typed(program, ["policy"])
    require(printed == POLICY, f"it printed {printed!r}")
    require("\n".join([*event["answer"], ""]) == SHOWN, f"the log has {event}")
    require("answer_bytes" not in event, "an answer that is told whole is told to be cut")


def answers_are_cut(program):
    """A longer answer is told up to its 4,096th byte, as it is shown, with how many bytes it has. It is
    printed whole."""
    users = [f"user u{number:09}\n" for number in range(400)]
    for begin, count, end, is_whole in (
        ("", 255, "user X\n", True),
        ("", 255, "user XY\n", False),
        ("", 256, "", False),
        ("user bob\nlogin a secret that is longer than a line\n", 254, "", True),
        ("user bob\nlogin a secret that is longer than a line\n", 300, "", False),
        ("user bob\nlogin x\n", 300, "", False),
    ):
        policy = f"policy 2\n{begin}{''.join(users[:count])}{end}"
        shown = "\n".join("login *" if it.startswith("login ") else it for it in policy.split("\n"))
        ((event,), printed) = typed(program, ["policy"], policy)
        require(printed == policy, "the policy isn't printed whole")
        wanted = {"answer": shown[:MOST_TOLD].splitlines()}
        if not is_whole:
            wanted["answer_bytes"] = len(shown)
        require((len(shown) <= MOST_TOLD) == is_whole, f"an answer has {len(shown)} bytes")
        found = {name: it for name, it in event.items() if name.startswith("answer")}
        require(found == wanted, f"of {begin!r} and {count} users the log has {found}")


def each_line_by_one_write(program):
    """Each line of a device or of the console is whole in one write, a long one too."""
    written = []

    def judge(call):
        if is_of_log(call):
            written.append(call.bytes(1, call.arguments[2]))

    judged = Judged(judge, WRITE, clock=Clock())
    with counting(program, "--log", "log", judged=judged) as (server, operator, _):
        with connect(server) as device:
            for sent, wanted, _ in REQUESTS:
                require(is_answered(device, sent, wanted), f"{sent} isn't answered so")
            told(operator, ("shadow", "none"))
        operator.ask("policy")
        stops(server, operator)
        lines = pathlib.Path(server.folder.name, "log").read_bytes().splitlines(keepends=True)
    require(len(lines) == 6 and written == lines, f"the log was written by {written}")


def lines_of_several_workers(program):
    """However many write at once, each line is whole, and each request has its own."""
    for options in ((), ("--sync",)):
        with counting(program, "--log", "log", *options, workers="4") as (server, operator, _):
            failed = []

            def asks():
                with connect(server) as device:
                    if not all(is_answered(device, ASK, PERMITTED, flag=KEPT) for _ in range(TIMES)):
                        failed.append(device)

            threads = [threading.Thread(target=asks) for _ in range(DEVICES)]
            for thread in threads:
                thread.start()
            for thread in threads:
                thread.join()
            require(not failed, "a request isn't answered so")
            counts = {}
            for event in device_events(server):
                require(event["line"] == "show version", f"the log has {event}")
                counts[event["device"]] = counts.get(event["device"], 0) + 1
            require(list(counts.values()) == [TIMES] * DEVICES, f"the log has so many lines: {counts}")
            stops(server, operator)


def a_log_that_fills_up(program):
    """The requests whose lines it took are answered, and no other one, nor any after it."""
    for room in range(len(REQUESTS) + 1):
        left = [room]

        def judge(call):
            if not is_of_log(call):
                return None
            left[0] -= 1
            return None if left[0] >= 0 else -errno.ENOSPC

        judged = Judged(judge, WRITE, clock=Clock())
        with counting(program, "--log", "log", judged=judged) as (server, operator, _):
            with connect(server) as device:
                for sent, wanted, _ in REQUESTS[:room]:
                    require(is_answered(device, sent, wanted), f"{sent} isn't answered so")
                for sent, _, _ in REQUESTS[room:]:
                    require(not exchanged(device, sent), f"{sent} is answered without a line")
            came = [(event["type"], event["status"]) for event in device_events(server)]
            require(came == [it for _, _, it in REQUESTS[:room]], f"the log has {came}")
            stops(server, operator, FAILS.format(FULL))


def asked_twice(device):
    """Whether a login is asked for its name and its password."""
    return is_answered(device, LOGIN, NAME_WANTED) and is_answered(device, NAME, PASSWORD_WANTED)


def questions_need_no_log(program):
    """A question has no line, so it is asked though the log takes none. The login isn't decided then."""
    judged = Judged(lambda call: -errno.ENOSPC if is_of_log(call) else None, WRITE, clock=Clock())
    with counting(program, "--log", "log", judged=judged) as (server, operator, _):
        with connect(server) as device:
            require(asked_twice(device), "it isn't asked")
            device.sendall(packet(PASSWORD))
            require(is_closed(device, LONGEST_WAIT), "it is answered")
        stops(server, operator, FAILS.format(FULL))


class Unreadable(Clock):
    """A clock that may have lost the time of day."""

    is_lost = False

    def told(self, call):
        if self.is_lost and call.arguments[0] == REAL_TIME:
            return -errno.EINVAL
        return super().told(call)


def questions_need_no_clock(program):
    """Nor is the time needed for a question. A request whose line would have none isn't answered."""
    clock = Unreadable()
    with counting(program, "--log", "log", judged=Judged(clock=clock)) as (server, operator, _):
        with connect(server) as device:
            clock.is_lost = True
            require(asked_twice(device), "it isn't asked")
            device.sendall(packet(PASSWORD))
            require(is_closed(device, LONGEST_WAIT), "it is answered")
        require(device_events(server) == [], f"the log has {device_events(server)}")
        clock.is_lost = False
        with connect(server) as device:
            require(asked_twice(device), "it isn't asked again")
            require(is_answered(device, PASSWORD, PASSED), "the login isn't passed")
        stops(server, operator)


def the_last_moment_of_a_leap_day(program):
    clock = Clock()
    with counting(program, "--log", "log", judged=Judged(clock=clock)) as (server, operator, _):
        with connect(server) as device:
            for milliseconds in (1_709_251_199_999, 1_709_251_200_000):
                clock.since_1970 = milliseconds * 1_000_000
                require(is_answered(device, ASK, PERMITTED, flag=KEPT), "bob isn't permitted")
        came = [event["time"] for event in device_events(server)]
        require(came == ["2024-02-29T23:59:59.999Z", "2024-03-01T00:00:00.000Z"], f"it was {came}")
        stops(server, operator)


def a_folder_is_no_log(program):
    """Nor is it changed."""
    with Server(program, "--log", "log", before=lambda: pathlib.Path("log").mkdir()) as server:
        said = "tacd: log: Is a directory (os error 21)\n"
        server.ends(complained=said, status=4, is_listening=False)
        require(stat.S_ISDIR(pathlib.Path(server.folder.name, "log").stat().st_mode), "it is gone")


def made(mode):
    """A log with these rights, if any, by who makes files for everyone."""
    os.umask(0)
    if mode is not None:
        pathlib.Path("log").touch(mode)


def a_log_that_others_read(program):
    """The start says so, since what was typed at devices is in it. A group may read it, and one that the
    server makes is its own."""
    readable = "tacd: log: it has secrets, and any user of this machine can read it\n"
    for mode, said in ((0o644, readable), (0o604, readable), (0o640, ""), (0o660, ""), (None, "")):
        with Server(program, "--log", "log", before=lambda mode=mode: made(mode)) as server:
            server.ends("quit\n", complained=said)
