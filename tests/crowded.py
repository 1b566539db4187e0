"""Servers and devices beside others: silent ones, logins that take long, packets that come at once or
too many, and replies that the log doesn't take."""

import contextlib
import errno
import socket
import time

from lib.cases import SOON, require
from lib.consoles import types
from lib.devices import (
    ASK,
    CLOSING,
    KEPT,
    PERMITTED,
    answer,
    connect,
    is_answered,
    is_closed,
    is_one_closed,
    is_permitted,
    is_told,
    packet,
)
from lib.judged import FDATASYNC, Supervised
from lib.logins import FAILED, HASHED, LET_IN, LOGINS
from lib.servers import Server, starts

OTHER_HASH = (
    "login-hash ann $6$rounds=100000$tlas$epo6ZHcV0Eo.J74AIkbACWZwbjOsNHbWK5kLCn9rJ5i9D/so0GL9xcTx"
    "embAecEGTjUClyB9A.w9nDpPxgJQX."
)
# Sessions of all kinds on one connection, each packet with its answer: a login with another password,
# one by questions, a line that is denied, and a record.
VISIT = (
    ("c1010104.00000001.00000011.0101020103000006'bobSecret'", FAILED),
    (
        "c0010104.00000002.0000000c.0101010100040000'tty0'",
        "c0010204.00000002.00000010.0400000a0000'Username: '",
    ),
    (
        "c0010304.00000002.00000008.0003000000'bob'",
        "c0010404.00000002.00000010.0501000a0000'Password: '",
    ),
    (
        "c0010504.00000002.0000000b.0006000000'secret'",
        "c0010604.00000002.00000006.010000000000",
    ),
    (
        "c0020104.00000003.00000028.06010101030400020d0a'bobtty0service=shellcmd=reload'",
        "c0020204.00000003.00000017.100000110000'denied by default'",
    ),
    (
        "c0030104.00000004.0000001a.04060101010304000109'bobtty0task_id=7'",
        "c0030204.00000004.00000005.0000000001",
    ),
)


def visits(server):
    """All packets of a visit on one connection, each once the one before is answered. Once the device
    says that nothing more comes nothing is sent, and the connection is closed."""
    with connect(server) as device:
        for sent, wanted in VISIT:
            require(is_answered(device, sent, wanted), f"{sent} isn't answered so")
        device.shutdown(socket.SHUT_WR)
        require(is_closed(device, SOON), "the connection is kept")


def silent_devices_hold_up_nobody(program):
    """Two hundred of them are there, also as the server ends. One visit has four calls, and the lines
    of two devices one each."""
    for workers in ("1", "3"):
        options = ("--workers", workers, "--per-address", "0")
        with Server(program, *options, policy=HASHED) as server, contextlib.ExitStack() as stack:
            for _ in range(200):
                stack.enter_context(connect(server))
            began = time.monotonic()
            require(is_permitted(server), "bob isn't permitted")
            visits(server)
            require(is_permitted(server), "bob isn't permitted after the visit")
            answers = "rotated 0 entries 6\nrecord 1 user bob stop task 7 elapsed 0\n"
            server.ends("rotate\nrecords\nquit\n", answers)
            require(time.monotonic() - began < SOON, "it took too long")


def silent_devices_are_given_up(program):
    """Those that never said anything, after ten seconds or as many as `--idle` says. No others are."""
    with Server(program, "--workers", "1", "--idle", "1") as server, contextlib.ExitStack() as stack:
        devices = [stack.enter_context(connect(server)) for _ in range(3)]
        require(is_permitted(server), "bob isn't permitted")
        for device in devices:
            require(is_closed(device, SOON), "a silent one is kept")
        require(is_permitted(server), "bob isn't permitted after that")
        server.quits()


def devices_that_are_gone_count_no_more(program):
    """Neither silent ones that are given up, nor those that are answered, leave less room for others."""
    sent, wanted = packet(ASK, flag=CLOSING), packet(PERMITTED, flag=CLOSING)
    for limit in (("--per-address", "2"), ("--connections-at-once", "2", "--per-address", "0")):
        options = ("--workers", "2", "--idle", "2", *limit)
        with Server(program, *options) as server, contextlib.ExitStack() as stack:
            devices = [stack.enter_context(connect(server)) for _ in range(2)]
            with connect(server) as one_more:
                with contextlib.suppress(ConnectionError):
                    one_more.sendall(sent)
                require(is_closed(one_more, SOON), f"{limit}: one more is served")
            for device in devices:
                require(is_closed(device, SOON), f"{limit}: a silent one is kept")
            for _ in range(5):
                with connect(server) as device:
                    # Up to the end of the connection, so one more byte is awaited.
                    came = answer(device, sent, len(wanted) + 1)
                    require(came == wanted, f"{limit}: {came} is sent")
            server.quits()


def slow_logins_hold_up_nobody(program):
    """While ann logs in again and again, the one worker serves a visit, and refuses a login without a
    password, also once her hash is another one. All her logins are answered rightly."""
    with Server(program, "--workers", "1", "--per-address", "0", policy=HASHED) as server:
        connect(server).close()
        starts(server)
        for password, other in (("secret", "other"), ("other", "secret")):
            with contextlib.ExitStack() as stack:
                devices = [stack.enter_context(connect(server)) for _ in range(24)]
                wanted = [FAILED if number == 7 else LET_IN for number in range(24)]
                for device, reply in zip(devices, wanted):
                    device.sendall(packet(LOGINS[password if reply == LET_IN else other]))
                visits(server)
                with connect(server) as device:
                    require(is_answered(device, LOGINS[""], FAILED), "ann needs no password")
                require(not any(is_told(device) for device in devices[-4:]), "the visit had to wait")
                for device, reply in zip(devices, map(packet, wanted)):
                    came = answer(device, b"", len(reply))
                    require(came == reply, f"{password} is answered by {came}")
            types(server, OTHER_HASH, "ok")
        server.ends("quit\n", is_listening=False)


def many_packets_at_once(program):
    """What came in one piece is served to its end, though nothing more is heard of it."""
    sent, wanted = packet(ASK, flag=KEPT) * 1000, packet(PERMITTED, flag=KEPT) * 1000
    with Server(program, "--workers", "1") as server, connect(server) as device:
        for _ in range(2):
            require(answer(device, sent, len(wanted)) == wanted, "not all is answered")
            require(is_permitted(server), "another isn't permitted")
        server.quits()


def waits_alone(server, sent):
    """Whether the server waits for more on a connection that sent this, and answers another."""
    with connect(server) as device:
        with contextlib.suppress(ConnectionError):
            device.sendall(sent)
        if is_closed(device, 0.5):
            return False
        require(is_permitted(server), "bob isn't permitted")
        return True


def packets_that_are_too_much_leave_nothing(program):
    """Once they are gone, others have their memory again."""
    most_of_it = bytes.fromhex("c00201040000000100020003") + bytes(125_000)
    with Server(program, "--workers", "1", "--packet-memory", "1") as server:
        for _ in range(3):
            with contextlib.ExitStack() as stack:
                devices = [stack.enter_context(connect(server)) for _ in range(10)]
                for device in devices:
                    with contextlib.suppress(ConnectionError):
                        device.sendall(most_of_it)
                require(is_one_closed(devices, SOON), "none is closed")
        # the server may see only now that the last ones are gone
        until = time.monotonic() + SOON
        while not waits_alone(server, most_of_it):
            require(time.monotonic() < until, "one alone is closed")
        server.quits()


def a_log_that_fails_once(program):
    """The reply whose line the disk doesn't keep isn't sent, and the one worker serves the next."""
    fails = [None, errno.EIO]
    supervised = Supervised(lambda call: fails.pop(0) if call == FDATASYNC and fails else None)
    options = ("--workers", "1", "--log", "log", "--sync")
    with Server(program, *options, before=supervised.begin) as server, supervised:
        wanted = packet(PERMITTED, flag=CLOSING)
        for sent in (wanted, b"", wanted):
            with connect(server) as device:
                came = answer(device, packet(ASK, flag=CLOSING), len(wanted))
                require(came == sent, f"{came} is sent")
        told = (
            "tacd: log: Input/output error (os error 5); requests aren't answered until it takes lines\n"
            "tacd: log: it takes lines again\n"
        )
        server.ends("shadow\nquit\n", "none\n", told)


def all_who_call_share_a_segment(program):
    """The calls of devices and of the console count together."""
    with Server(program, "--workers", "3", "--rotate-at", "3") as server:
        for _ in range(5):
            require(is_permitted(server), "bob isn't permitted")
        server.ends("shadow\nshadow\nrotate\nquit\n", "none\nnone\nrotated 3 entries 1\n")
