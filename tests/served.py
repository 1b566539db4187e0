"""Servers that listen on this machine, and devices that call them: what an option of `tacd serve` means
there."""

import contextlib
import ctypes
import errno
import json
import os
import pathlib
import resource
import socket
import stat
import subprocess
import tempfile
import time

from bench.lib.server import free_port
from lib.cases import LONGEST_WAIT, SOON, require
from lib.consoles import typed, types
from lib.devices import (
    ASK,
    BAD_BODY,
    CLOSING,
    DENIED,
    KEPT,
    LOGIN,
    NAME_WANTED,
    PERMITTED,
    RECORD,
    STORED,
    TIME,
    account,
    answer,
    connect,
    is_answered,
    is_closed,
    is_one_closed,
    is_permitted,
    packet,
    visit,
)
from lib.judged import FDATASYNC, OPENAT, Supervised
from lib.notation import spelled
from lib.scripted import ATTRIBUTES, asked, given, granted
from lib.servers import (
    BLANK,
    KEY,
    KEY_OF_ONE,
    KEY_OF_TWO,
    POLICY,
    STRANGER,
    UNKNOWN,
    Server,
    limit_files,
    starts,
)


def limit_memory(size, process=0):
    """This process, or the one of this number, gets no memory beyond so many bytes."""
    limit = resource.RLIMIT_AS
    resource.prlimit(process, limit, (size, resource.prlimit(process, limit)[1]))


@contextlib.contextmanager
def prompted(server, count):
    """So many connections at once, each of which is asked for a name."""
    with contextlib.ExitStack() as devices:
        for number in range(count):
            device = devices.enter_context(connect(server))
            require(is_answered(device, LOGIN, NAME_WANTED), f"connection {number} has no prompt")
        yield


def so_many_are_served_at_once(program):
    for options, count in (
        (("--workers", "1"), 64),
        (("--workers", "63"), 63),
        (("--workers", "2", "--per-address", "0"), 200),
    ):
        with Server(program, *options) as server:
            with prompted(server, count):
                pass
            server.quits()


def so_many_and_no_more(program):
    """One more is closed without a byte. Once the others are gone bob is served."""
    for options, count in (
        (("--workers", "2"), 64),
        (("--per-address", "5"), 5),
        (("--connections-at-once", "7", "--per-address", "0"), 7),
    ):
        with Server(program, *options) as server:
            with prompted(server, count), connect(server) as one_more:
                require(is_closed(one_more, SOON), f"{options}: one more is served")
            until = time.monotonic() + LONGEST_WAIT
            while not is_permitted(server):
                require(time.monotonic() < until, f"{options}: nobody is served any more")
            server.quits()


def a_login_is_given_up(program):
    """One that waits for its name has a time of its own. The one worker then serves another."""
    with Server(program, "--workers", "1", "--idle", "0", "--login-idle", "1") as server:
        with connect(server) as device:
            require(is_answered(device, LOGIN, NAME_WANTED), "there is no prompt")
            require(is_closed(device, SOON), "it is kept")
        require(is_permitted(server), "bob isn't permitted")
        server.quits()


def packets_that_are_not_whole(program):
    """Ten connections have more than one megabyte of packets that aren't whole."""
    most_of_it = bytes.fromhex("c0020104.00000001.00020003".replace(".", "")) + bytes(125_000)
    for megabytes, is_too_much in (("1", True), ("2", False)):
        with Server(program, "--packet-memory", megabytes) as server:
            with contextlib.ExitStack() as stack:
                devices = [stack.enter_context(connect(server)) for _ in range(10)]
                for device in devices:
                    with contextlib.suppress(ConnectionError):
                        device.sendall(most_of_it)
                closed = is_one_closed(devices, SOON if is_too_much else 1)
                require(closed == is_too_much, f"{megabytes} MB: closed is {closed}")
            server.quits()


def asks_ten_times(server):
    with connect(server) as device:
        for _ in range(10):
            require(is_answered(device, ASK, PERMITTED, flag=KEPT), "bob isn't permitted")


def at_each_address(program):
    with Server(program, "--workers", "1", host="127.0.0.2") as server:
        asks_ten_times(server)
        server.quits()


def at_an_address(program):
    """The first line names it. The port may be another's at each other address."""
    port = free_port()
    with socket.create_server(("127.0.0.1", port)):
        options = ("--address", "127.0.0.2", "--workers", "1")
        with Server(program, *options, host="127.0.0.2", port=port) as server:
            asks_ten_times(server)
            server.quits()


def at_an_address_of_ipv6(program):
    with Server(program, "--address", "::1", "--workers", "1", host="::1") as server:
        asks_ten_times(server)
        server.quits()


# Of Linux (unshare(2)).
NEW_USERS, NEW_NETWORK = 0x10000000, 0x40000000


def begin_with_ipv6_alone():
    """In a network of its own, where `::` is every IPv6 address alone."""
    flags = NEW_NETWORK | (NEW_USERS if os.geteuid() else 0)
    libc = ctypes.CDLL(None, use_errno=True)
    if libc.unshare(flags) != 0:
        raise OSError(ctypes.get_errno(), "unshare")
    pathlib.Path("/proc/sys/net/ipv6/bindv6only").write_text("1")


def where_ipv6_is_alone(program):
    """Standard error says so of `::`, and of no other address."""
    alone = (
        "tacd: '::' takes calls by IPv6 alone, since net.ipv6.bindv6only is 1 on this machine: devices "
        "that call by IPv4 aren't served\n"
    )
    for address, complained in (("::", alone), ("0.0.0.0", "")):
        options = ("--address", address, "--workers", "1")
        with Server(program, *options, before=begin_with_ipv6_alone) as server:
            server.ends("quit\n", complained=complained)


def segments_that_begin_by_themselves(program):
    """Each has two of the ten calls, so the operator ends the fifth, which has two."""
    with Server(program, "--workers", "1", "--rotate-at", "3") as server:
        asks_ten_times(server)
        server.ends("rotate\nquit\n", "rotated 4 entries 2\n")


def the_latest_records(program):
    """Where one more comes than may be kept, the older half goes. Without the option none goes."""
    for options, count, first in (
        (("--keep-records", "1000"), 1000, 1),
        (("--keep-records", "1000"), 1001, 501),
        (("--keep-records", "1000"), 1500, 501),
        (("--keep-records", "1000"), 1501, 1001),
        # Half of an odd number is rounded up.
        (("--keep-records", "1001"), 1001, 1),
        (("--keep-records", "1001"), 1002, 502),
        (("--keep-records", "1001"), 1502, 502),
        (("--keep-records", "1001"), 1503, 1003),
        (("--keep-records", "10000000"), 1001, 1),
        ((), 1001, 1),
    ):
        with Server(program, "--workers", "1", *options) as server:
            with connect(server) as device:
                for _ in range(count):
                    require(is_answered(device, RECORD, STORED), f"{options}: not stored")
            kept = range(first, count + 1)
            answers = "".join(f"record {it} user bob update task 7 elapsed 0\n" for it in kept)
            server.ends(
                "records\ntally user bob\nquit\n",
                f"{answers}tally user bob starts 0 stops 0 watchdogs 0 updates {len(kept)} "
                "open 0 elapsed 0 drift 0\n",
            )


FORGETTING = "group ops\nuser bob in ops\npermit show\nuser eve in ops\n"
RELOAD = ("service=shell", "cmd=reload")


def tallied(server, subject, *counts):
    names = ("starts", "stops", "watchdogs", "updates", "open", "elapsed", "drift")
    counted = " ".join(f"{name} {count}" for name, count in zip(names, counts))
    types(server, f"tally {subject}", f"tally {subject} {counted}")


def a_thousand_records(server, device):
    """As many as are kept, of which the first 500 go with the next one."""
    account(device, 2, "bob", "task_id=1")
    account(device, 2, "bob", "task_id=2")
    account(device, 8, "bob", "task_id=1", "elapsed_time=50")
    account(device, 4, "bob", "task_id=4", "elapsed_time=2", *RELOAD)
    account(device, 4, "bob", "task_id=8", "elapsed_time=3")
    account(device, 10, "zed", "task_id=0", times=495)
    account(device, 2, "bob", "task_id=3")
    account(device, 2, "bob", "task_id=8")
    tallied(server, "user bob", 4, 2, 1, 0, 4, 5, 1)
    account(device, 4, "bob", "task_id=1", "elapsed_time=5")
    account(device, 4, "bob", "task_id=5", "elapsed_time=2", *RELOAD)
    account(device, 10, "zed", "task_id=0", times=496)
    tallied(server, "user bob", 4, 4, 1, 0, 3, 12, 2)


def what_is_forgotten_counts_nowhere(program):
    """A task whose start was forgotten is open no more, and its stop is a stop and ends nothing. A
    task whose stop was forgotten, and not the start after it, is open. Stops that are denied count
    while they are kept, and an edit counts them anew."""
    options = ("--workers", "1", "--keep-records", "1000")
    with Server(program, *options, policy=FORGETTING) as server, connect(server) as device:
        starts(server)
        a_thousand_records(server, device)
        # The first 500 go.
        account(device, 10, "eve", "task_id=9")
        tallied(server, "user bob", 2, 2, 0, 0, 2, 7, 1)
        tallied(server, "user eve", 0, 0, 0, 1, 0, 0, 0)
        tallied(server, "user zed", 0, 0, 0, 496, 0, 0, 0)
        tallied(server, "group ops", 2, 2, 0, 1, 2, 7, 1)
        account(device, 4, "bob", "task_id=2", "elapsed_time=7")
        tallied(server, "user bob", 2, 3, 0, 0, 2, 14, 1)
        types(server, "insert user bob 1 permit .*", "ok", "user bob now permits: ")
        tallied(server, "user bob", 2, 3, 0, 0, 2, 14, 0)
        types(server, "drop user bob 1", "ok", "user bob now denies: ")
        tallied(server, "user bob", 2, 3, 0, 0, 2, 14, 1)
        account(device, 10, "zed", "task_id=0", times=498)
        tallied(server, "user bob", 2, 3, 0, 0, 2, 14, 1)
        # And the next 500.
        account(device, 10, "zed", "task_id=0")
        tallied(server, "user bob", 0, 1, 0, 0, 0, 7, 0)
        tallied(server, "group ops", 0, 1, 0, 1, 0, 7, 0)
        server.ends("quit\n", is_listening=False)


def each_device_by_its_own_key(program):
    """The longest prefix says which device it is. Under the other's key there is an error, which its
    own key alone makes readable. An IPv4 address that comes as IPv6 is the same."""
    for options in ((), ("--address", "::")):
        with Server(program, *options, key=("--devices", "devices")) as server:
            for source, key, other in (
                ("127.0.0.1", KEY_OF_ONE, KEY_OF_TWO),
                ("127.0.0.2", KEY_OF_TWO, KEY_OF_ONE),
                ("127.0.0.8", KEY_OF_ONE, KEY_OF_TWO),
                ("127.0.0.9", KEY_OF_TWO, KEY_OF_ONE),
            ):
                with connect(server, source) as device:
                    asked = is_answered(device, ASK, PERMITTED, key=key, flag=CLOSING)
                    require(asked, f"{options}: {source} isn't answered")
                with connect(server, source) as device:
                    refusal = packet(BAD_BODY, key)
                    came = answer(device, packet(ASK, other, flag=CLOSING), len(refusal))
                    require(came == refusal, f"{options}: {source} is sent {came}")
            with connect(server, STRANGER) as stranger:
                require(is_closed(stranger, SOON), f"{options}: a stranger is served")
            misfits = (("1", "one"), ("2", "two"), ("8", "one"), ("9", "two"))
            told = "".join(
                f"tacd: 127.0.0.{place}: device {name}, its packets don't fit the key\n"
                for place, name in misfits
            )
            server.ends("quit", complained=f"{BLANK}{told}{UNKNOWN}")


def strangers_are_closed(program):
    """A stranger is closed at once, whatever he sends, also where no more connections may be there,
    and is counted for no limit. Standard error has the first of them alone, and no key is told."""
    options = ("--console", "console", "--log", "log", "--connections-at-once", "2")
    with Server(program, *options, key=("--devices", "devices")) as server:
        with connect(server, "127.0.0.1") as one, connect(server, "127.0.0.2") as two:
            devices = ((one, KEY_OF_ONE), (two, KEY_OF_TWO))
            for device, key in devices:
                require(is_answered(device, ASK, PERMITTED, key=key, flag=KEPT), "it isn't answered")
            for sent in (b"", packet(ASK, KEY_OF_ONE, flag=KEPT), packet(ASK, KEY_OF_TWO, flag=KEPT)):
                with connect(server, STRANGER) as stranger:
                    with contextlib.suppress(ConnectionError):
                        stranger.sendall(sent)
                    require(is_closed(stranger, SOON), "a stranger is served")
            told = typed(program, server, "status")
            for number, name in (
                (2, "tacd_connections"),
                (2, "tacd_connections_accepted_total"),
                (3, 'tacd_connections_refused_total{why="unknown_device"}'),
                (0, 'tacd_connections_refused_total{why="at_once"}'),
            ):
                require(f"\n{name} {number}\n" in told, f"{name} isn't {number}: {told}")
            for device, key in devices:
                require(is_answered(device, ASK, PERMITTED, key=key, flag=KEPT), "it is given up")
        told += "".join(typed(program, server, line) for line in ("help", "policy", "quit"))
        server.ends(complained=BLANK + UNKNOWN)
        told += pathlib.Path(server.folder.name, "log").read_text("utf-8")
        for key in (KEY_OF_ONE, KEY_OF_TWO):
            require(key.decode().strip() not in told, f"a key is told: {told}")


def a_silent_device_is_given_up(program):
    """A second after its reply. The one worker serves another meanwhile."""
    with Server(program, "--idle", "1", "--workers", "1") as server:
        with connect(server) as silent:
            require(is_answered(silent, ASK, PERMITTED, flag=KEPT), "bob isn't permitted")
            since = time.monotonic()
            require(is_permitted(server), "another isn't permitted")
            require(time.monotonic() < since + SOON, "another has to wait")
            require(is_closed(silent, SOON), "it is kept")
        server.quits()


def an_idle_device_is_kept(program):
    with Server(program, "--idle", "0") as server:
        with connect(server) as device:
            require(is_answered(device, ASK, PERMITTED, flag=KEPT), "bob isn't permitted")
            time.sleep(1.5)
            require(is_answered(device, ASK, PERMITTED, flag=KEPT), "it is given up")
        server.quits()


def so_many_connections_each(program):
    """Of eight two are cut off in a packet, two are reset, and bob asks on the others. A ninth isn't
    served."""
    with Server(program, "--workers", "1", "--connections", "8") as server:
        for _ in range(2):
            with connect(server) as device:
                device.sendall(packet(ASK, flag=CLOSING)[:5])
            require(is_permitted(server), "bob isn't permitted after a packet that is cut off")
            with connect(server) as device:
                require(len(answer(device, packet(ASK, flag=KEPT), 1)) == 1, "there is no reply")
            require(is_permitted(server), "bob isn't permitted after a reset")
        with connect(server) as ninth:
            ninth.settimeout(0.5)
            require(not is_answered(ninth, ASK, PERMITTED, flag=CLOSING), "a ninth is served")
        server.quits()


def long_replies(program):
    """A device asks two hundred times before it reads, and is sent 3 MB: more than a socket takes.
    The one worker serves another meanwhile."""
    policy = given("shell") + "permit show .*\nuser bob in ops\n"
    arguments, reply = ["service=shell", "cmd="], ["priv-lvl=15", *ATTRIBUTES]
    sessions = range(1, 201)
    sent = b"".join(packet(asked(arguments, KEPT, session)) for session in sessions)
    wanted = b"".join(packet(granted(reply, KEPT, session)) for session in sessions)
    with Server(program, "--workers", "1", policy=policy) as server:
        with connect(server) as device:
            device.sendall(sent)
            require(is_permitted(server), "another isn't permitted")
            require(answer(device, b"", len(wanted)) == wanted, "the replies are others")
        server.quits()


def what_is_given_is_logged(program):
    """The log has a reply's arguments as the device gets them, and no member where it has none."""
    policy = (
        'policy 3\ngroup ops\npriv 0\nservice shell r*"a\\b"\nservice x a=1\nservice y\n'
        "permit ()\npermit show .*\nuser bob in ops\n"
    )
    shell = ["priv-lvl=0", 'r*"a\\b"']
    with Server(program, "--log", "log", policy=policy) as server:
        for arguments, reply in (
            (["service=shell", "cmd="], shell),
            (["service=x"], ["a=1"]),
            (["service=y"], []),
            (["service=shell", "cmd=show", "cmd-arg=x"], []),
        ):
            with connect(server) as device:
                require(is_answered(device, asked(arguments), granted(reply)), f"of {arguments}")
        server.quits()
        lines = pathlib.Path(server.folder.name, "log").read_text().splitlines()
    told = [event.get("given") for event in map(json.loads, lines) if "device" in event]
    require(told == [shell, ["a=1"], None, None], f"the log says {told}")


def a_reload_tells_of_services(program):
    begins = "group ops\npriv 1\nservice x a=1\npermit ()\nuser bob in ops\nuser eve in ops\n"
    then = "user new\ngroup ops\npriv 2\nservice y\npermit ()\nuser bob in ops\n"
    answers = (
        "ok\nuser eve now denies: \n"
        "user bob service shell now gives: priv-lvl=2\n"
        "user bob service shell no longer gives: priv-lvl=1\n"
        "user bob service y now granted\n"
        "user bob service x now refused\n"
        "user eve service shell no longer gives: priv-lvl=1\n"
        "user eve service x now refused\n"
        "granted by group ops\nunsupported service\nunknown user\nok\n"
    )
    with Server(program, policy="policy 3\n" + begins) as server:
        connect(server).close()
        pathlib.Path(server.folder.name, "policy").write_text("policy 3\n" + then)
        server.ends("reload\ngiven bob y\ngiven bob x\ngiven eve y\nreload\nquit\n", answers)


ASKED = (
    '"type":"command","user":"bob","port":"tty0","from":"","privilege":1,"service":1,'
    '"arguments":["service=shell","cmd=show","cmd-arg=version"],"line":"show version",'
    '"status":"PASS_ADD","text":""}'
)


def a_log_after_a_run(program):
    """The file of a log has the lines of devices and of the console, its owner alone reads it, and it
    is put on the disk for each of them, or never."""
    for options, least in ((("--sync",), 6), ((), 0)):
        syncs = []
        supervised = Supervised(lambda call: syncs.append(call) if call == FDATASYNC else None)
        options = ("--workers", "1", "--log", "log", *options)
        with Server(program, *options, before=supervised.begin) as server, supervised:
            ports = [visit(server), visit_of_another_version(server)]
            server.ends("enable bob high-lake\nquit\n", "ok\n")
            log = pathlib.Path(server.folder.name, "log")
            require(stat.S_IMODE(log.stat().st_mode) == 0o600, "others may read the log")
            came = [TIME.sub("", line, 1) for line in log.read_text("utf-8").splitlines()]
        told = (
            (0, "00000001", ASKED),
            (0, "00000002", '"type":"refused","why":"aborted"}'),
            (0, "00000003", ASKED),
            (0, "00000004", '"type":"refused","why":"out of turn"}'),
            (1, "fedcba98", '"type":"refused","why":"bad header"}'),
        )
        wanted = [
            f'"device":"127.0.0.1:{ports[number]}","session":"{session}",{rest}'
            for number, session, rest in told
        ]
        wanted += ['"console":"enable bob *","answer":["ok"]}', '"console":"quit","answer":[]}']
        require(came == wanted, f"the log has {came}")
        require(len(syncs) >= least if least else not syncs, f"it was synced {len(syncs)} times")


def visit_of_another_version(server):
    with connect(server) as device:
        device.sendall(bytes.fromhex("d0010100fedcba9800000000"))
        require(is_closed(device, LONGEST_WAIT), "the connection is kept")
        return device.getsockname()[1]


def lines_wait_for_the_disk(program):
    """With --sync no reply is sent where the disk doesn't keep its line, and else nobody asks it."""
    wanted = packet(PERMITTED, flag=KEPT)
    for options, sent in (((), wanted), (("--sync",), b"")):
        supervised = Supervised(lambda call: errno.EIO if call == FDATASYNC else None)
        options = ("--workers", "1", "--log", "log", *options)
        with Server(program, *options, before=supervised.begin) as server, supervised:
            with connect(server) as device:
                came = answer(device, packet(ASK, flag=KEPT), len(wanted))
        require(came == sent, f"{came} is sent")


SCRIPT = """key k
user bob
permit show .*
run
open 1
packet 1 c0020100.00000001.00000036.06010101030400030d080f'bobtty0service=shellcmd=showcmd-arg=version'
open 1
bytes 1 d0010100.fedcba98.00000000
"""


def a_script_and_its_lines(program):
    """The lines of a replay, without a time and then with one; and where they can't be written."""
    script = "".join(f"{spelled(line)}\n" for line in SCRIPT.splitlines())
    with tempfile.TemporaryDirectory(prefix="tacd-served-") as folder:
        for options, status in (
            (("--log", "log"), 0),
            (("--log", "log", "--time", "noon"), 0),
            (("--log", "log/none/log"), 4),
            (("--time", "noon"), 2),
        ):
            run = subprocess.run(
                [program, "replay", *options], cwd=folder, input=script.encode(), capture_output=True
            )
            require(run.returncode == status, f"replay {options} ends with {run.returncode}")
        lines = pathlib.Path(folder, "log").read_text("utf-8").splitlines()
    wanted = [
        f'{{"time":{time},"device":"connection 1","session":"{session}",{rest}'
        for time in ("null", '"noon"')
        for session, rest in (
            ("00000001", ASKED),
            ("fedcba98", '"type":"refused","why":"bad header"}'),
        )
    ]
    require(lines == wanted, f"the log has {lines}")


def the_longest_script(program):
    """It is read whole, and then its first line is judged. A longer one isn't read to its end, which an
    input without end shows."""
    most = 268_435_456
    too_long = b"tacd: the script could not be read, or is over 268435456 bytes long\n"
    with tempfile.TemporaryDirectory(prefix="tacd-served-") as folder:
        script = pathlib.Path(folder, "script")
        for path, length, wanted in (
            (script, most, (b"fault line 1 BadKey\n", b"", 1)),
            (script, most + 1, (b"", too_long, 4)),
            (pathlib.Path("/dev/zero"), None, (b"", too_long, 4)),
        ):
            if length:
                with path.open("wb") as file:
                    file.truncate(length)
            with path.open("rb") as given:
                run = subprocess.run([program, "replay"], stdin=given, capture_output=True)
            came = (run.stdout, run.stderr, run.returncode)
            require(came == wanted, f"of {length} bytes it ends by {came}")


def is_permitted_until_denied(device, server):
    """After the first answer another policy is loaded, and what is answered then is a denial."""
    require(is_answered(device, ASK, PERMITTED, flag=KEPT), "bob isn't permitted at first")
    server.process.stdin.write(b"reload\n")
    server.process.stdin.flush()
    permitted, denied = packet(PERMITTED, flag=KEPT), packet(DENIED)
    until = time.monotonic() + LONGEST_WAIT
    while time.monotonic() < until:
        came = answer(device, packet(ASK, flag=KEPT), len(permitted))
        if came != permitted:
            rest = answer(device, b"", len(denied) - len(permitted))
            return came + rest == denied
        time.sleep(0.005)
    return False


def make_huge(path):
    """As many bytes as a policy may have, which take no place on the disk."""
    path.touch(0o600)
    with path.open("wb") as file:
        file.truncate(268_435_456)


def a_file_that_changes(program):
    """The policy's file changes while a device asks, is refused, is gone, finds no memory where it is
    opened and for its content, and is as at first again."""
    errors = []
    supervised = Supervised(lambda call: errors.pop() if call == OPENAT and errors else None)
    with Server(program, before=supervised.begin) as server, supervised, connect(server) as device:
        starts(server)
        policy = pathlib.Path(server.folder.name, "policy")
        policy.write_text("group ops\npermit ping\nuser bob in ops\n")
        require(is_permitted_until_denied(device, server), "bob is answered otherwise")
        for wanted in ("ok", "user bob now permits: ping", "user bob now denies: show "):
            came = server.process.stdout.readline().decode()
            require(came == f"{wanted}\n", f"{came!r} is printed, not {wanted!r}")
        policy.write_text("group ops\npermit (\n")
        types(server, "reload", "fault line 2 5 BadPattern 3 Unclosed at 0")
        policy.unlink()
        types(server, "reload", "unread policy: No such file or directory (os error 2)")
        make_huge(policy)
        errors.append(errno.ENOMEM)
        types(server, "reload", "refused 12 Memory")
        require(not errors, "the file wasn't opened")
        limit_memory(2**27 + taken_memory(server.process.pid), server.process.pid)
        types(server, "reload", "refused 12 Memory")
        limit_memory(resource.RLIM_INFINITY, server.process.pid)
        types(server, "why bob ping", "permitted by group ops rule 1")
        policy.write_text(POLICY)
        types(server, "reload", "ok", "user bob now permits: show ", "user bob now denies: ping")
        types(server, "why bob ping", "denied by default")
        printed, said = server.process.communicate(b"quit\n", LONGEST_WAIT)
        came = (printed, said, server.process.returncode)
        require(came == (b"", b"", 0), f"at last it ended by {came}")


def taken_memory(process):
    """How many bytes of addresses the process has."""
    pages = int(pathlib.Path(f"/proc/{process}/statm").read_text().split()[0])
    return pages * resource.getpagesize()


def no_memory_for_a_policy(program):
    """A server ends whose policy's file finds no memory: where it is opened, and for its content."""
    supervised = Supervised(lambda call: errno.ENOMEM if call == OPENAT else None)
    with Server(program, before=supervised.begin) as server, supervised:
        told = "tacd: key: Cannot allocate memory (os error 12)\n"
        server.ends(complained=told, status=3, is_listening=False)
    supervised = Supervised(lambda call: errno.ENOMEM if call == OPENAT else None)
    key = ("--key", "k")
    with Server(program, key=key, before=supervised.begin) as server, supervised:
        told = "tacd: policy: Cannot allocate memory (os error 12)\n"
        server.ends(complained=told, status=3, is_listening=False)
    with tempfile.TemporaryDirectory(prefix="tacd-served-") as folder:
        make_huge(pathlib.Path(folder, "policy"))
        run = subprocess.run(
            [program, "serve", "--port", "1", "--key", "k", "policy"],
            cwd=folder,
            capture_output=True,
            preexec_fn=lambda: limit_memory(2**27),
        )
    came = (run.stdout, run.stderr, run.returncode)
    require(came == (b"fault Memory\n", b"tacd: memory ran out\n", 3), f"it ended by {came}")


def without_a_console(program):
    """Standard input isn't read: the server ends once its worker does."""
    options = ("--no-console", "--workers", "1", "--connections", "2")
    with Server(program, *options, key=("--key", KEY.decode())) as server:
        require(is_permitted(server) and is_permitted(server), "bob isn't permitted")
        server.ends()


def a_console_at_standard_input(program):
    lines = "why bob show version\ninsert group ops 1 deny show run.*\nshow\nquit\npolicy\n"
    answers = "permitted by group ops rule 1\nok\nuser bob now denies: show run\nrefused 1 BadEdit\n"
    at_once = (
        "tacd: the console's input ended at once, so the server stops: give it --console PATH, "
        "or --no-console\n"
    )
    for typed, answered, complained in (
        ("", "", at_once),
        ("quit", "", ""),
        ("\n", "refused 1 BadEdit\n", ""),
        (lines, answers, ""),
    ):
        with Server(program, "--workers", "3") as server:
            server.ends(typed, answered, complained)
    with open("/dev/full", "wb") as full, Server(program, "--workers", "3", output=full) as server:
        unwritten = "tacd: the output could not be written\n"
        server.ends(lines, "", unwritten, status=4, is_listening=False)


# What a console may answer, and the status of `tacd console` then.
ANSWERED = {
    "refused by user carla": 0,
    "refused by group ops\ngroup ops gives refused=1": 0,
    "not kept: No space left on device (os error 28)\nrefused by user carla": 5,
    "ok\nrefused 1 BadEdit": 0,
    "refused 1 BadEdit": 1,
    "refused 12 Memory": 1,
    "refused at edit 64: 7 BadIndex": 1,
    "fault line 3 5 BadPattern 3 Unclosed at 0": 1,
    "fault NoUser": 1,
    "fault TooManyStates group ops": 1,
    "refused 13 LogFull": 1,
    "unread policy: No such file or directory (os error 2)": 1,
    "busy ben": 1,
    "busy another": 1,
    "devices ok: 2 devices, 3 prefixes": 0,
    "no devices": 0,
    "devices fault line 7 4 BadPrefix": 1,
    "devices unread devices: No such file or directory (os error 2)": 1,
    "not kept: No space left on device (os error 28)\nno devices": 5,
    "not kept: No space left on device (os error 28)\ndevices fault line 7 4 BadPrefix": 1,
}


def statuses_of_the_console_client(program):
    """Of each answer that a console gives which is a test's own. `refused by` is no refusal: it says who
    refuses a service."""
    with tempfile.TemporaryDirectory(prefix="tacd-served-") as folder:
        with socket.socket(socket.AF_UNIX) as console:
            console.bind(f"{folder}/console")
            console.listen()
            console.settimeout(LONGEST_WAIT)
            for answer, status in ANSWERED.items():
                client = subprocess.Popen(
                    ["tacd", "console", "console", "reload", "devices"],
                    executable=program,
                    cwd=folder,
                    env={"USER": "ben"},
                    stdout=subprocess.PIPE,
                    stderr=subprocess.PIPE,
                )
                typed_lines = answers_all(console, "ready", "ok", answer)
                printed, said = client.communicate(timeout=LONGEST_WAIT)
                require(typed_lines == ["operator ben\n", "reload devices\n"], f"{typed_lines}")
                more = b"tacd: type help\n" if answer == "refused 1 BadEdit" else b""
                came = (printed.decode(), said, client.returncode)
                require(came == (f"{answer}\n", more, status), f"{answer} ends with {came}")


def answers_all(console, first, *answers):
    """Says the first text to one operator, and answers each of his lines. The result is these."""
    lines = []
    with console.accept()[0] as stream, stream.makefile("rw") as session:
        stream.settimeout(LONGEST_WAIT)
        print(first, end="\n\n", file=session, flush=True)
        for answer in answers:
            lines.append(session.readline())
            print(answer, end="\n\n", file=session, flush=True)
    return lines


def too_few_files_may_be_open(program):
    """A server of three workers has 25 files open beside its connections."""
    few = (
        "tacd: only 1000 files may be open, too few for 976 connections at once: "
        "raise 'ulimit -n' or LimitNOFILE= to 1001, or lower --connections-at-once\n"
    )
    for count, complained in (("975", ""), ("976", few)):
        options = ("--workers", "3", "--connections-at-once", count)
        with Server(program, *options, before=lambda: limit_files(1000)) as server:
            server.ends("quit", complained=complained)


def a_port_that_is_taken(program):
    """What is wrong with the policy is said first."""
    with socket.create_server(("0.0.0.0", 0)) as other:
        port = other.getsockname()[1]
        with Server(program, port=port) as server:
            taken = f"tacd: 0.0.0.0:{port}: Address already in use (os error 98)\n"
            server.ends(complained=taken, status=4, is_listening=False)
        more = "tacd: 'tacd lint policy' says more\n"
        with Server(program, port=port, policy="x") as server:
            server.ends("", "fault line 1 1 BadLine\n", more, status=1, is_listening=False)


def a_port_of_all_addresses(program):
    """A server at one of them is refused, whichever came first."""
    for address, others in (
        ("0.0.0.0", ("127.0.0.1", "127.0.0.2", "0.0.0.0", "::")),
        ("::", ("127.0.0.1", "::1", "0.0.0.0", "::")),
        ("127.0.0.1", ("0.0.0.0", "::")),
        ("::1", ("::",)),
    ):
        host = "::1" if address == "::1" else "127.0.0.1"
        with Server(program, "--address", address, "--workers", "1", host=host) as server:
            connect(server).close()
            for other in others:
                port = server.address[1]
                place = f"[{other}]:{port}" if ":" in other else f"{other}:{port}"
                taken = f"tacd: {place}: Address already in use (os error 98)\n"
                with Server(program, "--address", other, port=port) as second:
                    second.ends(complained=taken, status=4, is_listening=False)
            server.quits()
