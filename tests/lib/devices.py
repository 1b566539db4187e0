"""Devices that call a server of a test: packets in the notation of tests, and what is answered to them."""

import contextlib
import re
import socket
import time

from bench.lib.packet import HEADER_SIZE, padded

from .cases import LONGEST_WAIT, Wrong, require
from .notation import spelled
from .servers import KEY

# The flag 4 in the fourth byte keeps the connection open.
ASK = "c00201{flag}.00000001.00000036.06010101030400030d080f'bobtty0service=shellcmd=showcmd-arg=version'"
PERMITTED = "c00202{flag}.00000001.00000006.010000000000"
DENIED = "c0020204.00000001.00000017.100000110000'denied by default'"
# What a packet is answered by that was padded by another key.
BAD_BODY = "c0020200.00000001.0000000e.110000080000'bad body'"
CLOSING, KEPT = "00", "04"
LOGIN = "c0010100.00000001.0000000c.0101010100040000'tty0'"
NAME_WANTED = "c0010200.00000001.00000010.0400000a0000'Username: '"
RECORD = "c0030104.00000001.0000001a.0a060101010304000109'bobtty0task_id=7'"
STORED = "c0030204.00000001.00000005.0000000001"
# A login by PAP, as bob.
RIGHT = "c10101{flag}.0000000{id}.00000014.0101020103000009'bobblue-lake'"
WRONG = "c10101{flag}.0000000{id}.00000013.0101020103000008'bobred-lake'"
PASSED = "c10102{flag}.0000000{id}.00000006.010000000000"
FAILED = "c10102{flag}.0000000{id}.0000001b.020000150000'Authentication failed'"
# A device asks, begins a login and gives it up, asks again, and gives a login up that isn't open.
VISIT = (
    (ASK.replace("{flag}", KEPT), PERMITTED.replace("{flag}", KEPT)),
    (
        "c0010104.00000002.0000000b.0101010103000000'bob'",
        "c0010204.00000002.00000010.0501000a0000'Password: '",
    ),
    ("c0010304.00000002.00000005.0000000001", None),
    (
        ASK.replace("{flag}", KEPT).replace(".00000001.", ".00000003."),
        PERMITTED.replace("{flag}", KEPT).replace(".00000001.", ".00000003."),
    ),
    ("c0010304.00000004.00000005.0000000001", None),
)
TIME = re.compile(r'\{"time":"\d{4}-\d\d-\d\dT\d\d:\d\d:\d\d\.\d{3}Z",')


def packet(text, key=KEY, **parts):
    """A packet of the notation, with the pad of the key put on its body (RFC 8907, section 4.5)."""
    whole = bytes.fromhex(spelled("packet " + text.format(**parts)).removeprefix("packet "))
    return whole[:HEADER_SIZE] + padded(whole[:HEADER_SIZE], whole[HEADER_SIZE:], key)


def connect(server, source=None):
    """A connection to the server, as soon as it listens, from this address if one is said."""
    until = time.monotonic() + LONGEST_WAIT
    while True:
        try:
            return socket.create_connection(server.address, LONGEST_WAIT, source and (source, 0))
        except OSError:
            if time.monotonic() > until:
                raise Wrong("nobody listens") from None
            time.sleep(0.005)


def answer(device, sent, length):
    """The first bytes that are answered, fewer where the connection ends, or no more come in time."""
    came = b""
    with contextlib.suppress(ConnectionError, TimeoutError):
        if sent:  # The device may have said that nothing more comes.
            device.sendall(sent)
        while len(came) < length:
            more = device.recv(length - len(came))
            if not more:
                break
            came += more
    return came


def is_answered(device, sent, wanted, **parts):
    wanted = packet(wanted, **parts)
    return answer(device, packet(sent, **parts), len(wanted)) == wanted


def is_permitted(server):
    """Whether bob is permitted, on a connection of its own."""
    with connect(server) as device:
        return is_answered(device, ASK, PERMITTED, flag=CLOSING)


def is_closed(device, seconds):
    """Whether the connection is closed within that time, without a byte."""
    device.settimeout(seconds)
    try:
        return device.recv(1) == b""
    except ConnectionError:
        return True
    except TimeoutError:
        return False


def is_one_closed(devices, seconds):
    until = time.monotonic() + seconds
    while time.monotonic() < until:
        if any(is_closed(device, 0.02) for device in devices):
            return True
    return False


def account(device, kind, user, *arguments, times=1):
    """Records of this kind are stored: 2 START, 4 STOP, 8 WATCHDOG, 10 of an update."""
    fixed = bytes([kind, 6, 1, 1, 1, len(user), 0, 0, len(arguments), *map(len, arguments)])
    body = fixed + (user + "".join(arguments)).encode()
    sent = f"c0030104.00000001.{len(body):08x}.{body.hex()}"
    for _ in range(times):
        require(is_answered(device, sent, STORED), f"{arguments} of {user} isn't stored")


def visit(server):
    """All packets of a visit, until its connection is closed. The port that it came from."""
    with connect(server) as device:
        for sent, wanted in VISIT:
            if wanted is None:
                device.sendall(packet(sent))
            else:
                require(is_answered(device, sent, wanted), f"{sent} isn't answered so")
        require(is_closed(device, LONGEST_WAIT), "the connection is kept")
        return device.getsockname()[1]


def is_told(device):
    """Whether something has come, or the connection is closed."""
    device.setblocking(False)
    try:
        device.recv(1)
        return True
    except BlockingIOError:
        return False
    except ConnectionError:
        return True
    finally:
        device.settimeout(LONGEST_WAIT)


def exchanged(device, sent, key=KEY):
    """Whether a packet of a connection that is kept is answered, by whatever."""
    head = answer(device, packet(sent, key), 12)
    if len(head) < 12:
        return False
    length = int.from_bytes(head[8:], "big")
    return len(answer(device, b"", length)) == length
