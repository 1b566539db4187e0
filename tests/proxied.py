"""Servers with a socket that a TLS proxy calls, and what comes there: the header that tells who called,
and then packets in clear (RFC 9887)."""

import contextlib
import pathlib
import socket
import stat
import time

from lib.cases import LONGEST_WAIT, SOON, require
from lib.consoles import typed
from lib.devices import (
    ASK,
    CLOSING,
    KEPT,
    LOGIN,
    NAME_WANTED,
    PERMITTED,
    RECORD,
    STORED,
    answer,
    connect,
    is_answered,
    is_closed,
)
from lib.proxies import (
    BY_TLS,
    IN_CLEAR,
    KEPT_IN_CLEAR,
    SHOWN,
    SHOWN_BEFORE,
    SIGNATURE,
    called,
    clear,
    flagged,
    header,
    line,
    vector,
)
from lib.servers import BLANK, Server, device_events

KEY = b"fjord-and-fell-2026-11"
# One comes either way, one by a proxy with any certificate, one with its own alone, one with a key.
DEVICES = f"""device both
at 192.0.2.1
at 127.0.0.1
key {KEY.decode()}
tls
device any
at 192.0.2.2
tls
connections 2
device core
at 2001:db8::/32
at 192.0.2.3
tls core-1.example
device keyed
at 192.0.2.4
key wide-kelp-forest-0092
device inside
at 127.0.0.5
tls
"""
BAD_BODY = "c00202{flag}.00000001.0000000e.110000080000'bad body'"
NO_HEADER = "tacd: proxy: bad proxy header, its connection is closed\n"


def serving(program, *options, **more):
    """A server of these devices, with a log, and a console at a socket."""
    words = ("--console", "console", "--log", "log", *options)
    more = {"key": ("--devices", "devices"), "devices": DEVICES, "proxy": "proxy", **more}
    return Server(program, *words, **more)


def asks(server, head, sent=ASK, wanted=PERMITTED):
    """Whether a device of which a proxy tells this is answered so, on a connection of its own."""
    wanted = clear(wanted)
    with called(server, head) as device:
        return answer(device, clear(sent), len(wanted)) == wanted


def refused(server):
    """Why connections were refused, and of which devices."""
    return [(event.get("name"), event["why"]) for event in device_events(server) if "count" in event]


def ends(program, server, complained=""):
    """It is told to end. No key is in what it printed, nor in its log."""
    told = "".join(typed(program, server, text) for text in ("status", "quit"))
    server.ends(complained=complained)
    told += pathlib.Path(server.folder.name, "log").read_text("utf-8")
    require(KEY.decode() not in told, f"a key is told: {told}")


def packets_in_clear(program):
    """Every kind of packet is answered in clear, with the flag, and as many on one connection as the
    device wants. Lines of the log have the address and the name of which the proxy told."""
    with serving(program) as server:
        for head in (line("192.0.2.1"), header("192.0.2.1"), header("192.0.2.1", b"b\xc3\xb6b")):
            for sent, wanted in ((ASK, PERMITTED), (flagged(LOGIN), flagged(NAME_WANTED))):
                require(asks(server, head, sent, wanted), f"{head}: {sent} isn't answered")
        with called(server, line("192.0.2.1")) as device:
            for _ in range(3):
                wanted = clear(PERMITTED, KEPT_IN_CLEAR)
                came = answer(device, clear(ASK, KEPT_IN_CLEAR), len(wanted))
                require(came == wanted, f"it is answered by {came}")
            wanted = clear(flagged(STORED), KEPT_IN_CLEAR)
            came = answer(device, clear(flagged(RECORD), KEPT_IN_CLEAR), len(wanted))
            require(came == wanted, f"a record is answered by {came}")
        told = [(event["device"], event["name"], event["tls"], event["type"]) for event in device_events(server)]
        device = ("192.0.2.1:40000", "both")
        wanted = [(*device, name, "command") for name in (None, None, "b\u00c3\u00b6b", None, None, None)]
        require(told == [*wanted, (*device, None, "account")], f"the log has {told}")
        ends(program, server)


def a_packet_without_the_flag(program):
    """It is answered by its type's ERROR, in clear, and the connection is closed, single or not."""
    with serving(program) as server:
        for flag, wanted in ((CLOSING, IN_CLEAR), (KEPT, KEPT_IN_CLEAR)):
            with called(server, line("192.0.2.1")) as device:
                wanted = clear(BAD_BODY, wanted)
                came = answer(device, clear(ASK, flag) + clear(ASK), len(wanted) + 1)
                require(came == wanted, f"it is answered by {came}")
        told = [(event["type"], event["why"]) for event in device_events(server)]
        require(told == [("refused", "bad body")] * 2, f"the log has {told}")
        ends(program, server)


def the_port_beside_it(program):
    """A device is served there under its key. A packet in clear is refused at the port, and one
    under a key at the proxy's socket."""
    with serving(program) as server:
        with connect(server) as device:
            asked = is_answered(device, ASK, PERMITTED, key=KEY, flag=CLOSING)
            require(asked, "the device isn't answered at the port")
        with connect(server) as device:
            device.sendall(clear(ASK))
            require(is_closed(device, SOON), "a packet in clear is taken at the port")
        require(asks(server, line("127.0.0.1")), "the device isn't answered by the proxy")
        told = [(event["name"], "tls" in event, event.get("why")) for event in device_events(server)]
        wanted = [("both", False, None), ("both", False, "bad header"), ("both", True, None)]
        require(told == wanted, f"the log has {told}")
        ends(program, server)


def a_proxy_alone(program):
    """Without a port the server listens at the socket alone, and says so."""
    with serving(program, has_port=False) as server:
        require(asks(server, line("192.0.2.2")), "a device isn't answered")
        told = typed(program, server, "status")
        for name in ("no_key", "no_tls", "no_certificate", "other_certificate", "bad_proxy_header"):
            require(f'{{why="{name}"}} 0\n' in told, f"it tells {told}")
        ends(program, server)


def certificates(program):
    """A device that has a certificate of its own comes with no other one."""
    other = "tacd: {}: the device has a certificate of another name, its connection is closed\n"
    with serving(program) as server:
        for address in ("192.0.2.3", "2001:db8::7"):
            require(asks(server, header(address, b"core-1.example")), f"{address} isn't answered")
        for head in (
            header("192.0.2.3", b"core-1.exampl"),
            header("192.0.2.3", b"CORE-1.example"),
            header("192.0.2.3"),
            header("192.0.2.3", client=None),
            line("192.0.2.3"),
        ):
            with called(server, head) as device:
                require(is_closed(device, SOON), f"{head} is served")
        told = device_events(server)
        require([event["tls"] for event in told[:2]] == ["core-1.example"] * 2, f"it has {told}")
        require(told[1]["device"] == "[2001:db8::7]:40000", f"it has {told}")
        require(refused(server)[0] == ("core", "other certificate"), f"it has {told}")
        require(told[2]["tls"] == "core-1.exampl", f"it has {told}")
        told = typed(program, server, "status")
        require('{why="other_certificate"} 5\n' in told, f"it tells {told}")
        ends(program, server, other.format("192.0.2.3"))


# What a proxy says of a device of which it verified nothing.
UNVERIFIED = (
    {"verify": 1},
    {"verify": 0x12000000},
    {"client": BY_TLS},
    {"client": BY_TLS, "verify": 1},
    {"client": SHOWN | SHOWN_BEFORE},
    {"client": 0},
)


def nothing_verified(program):
    """A device of which the proxy says that it verified no certificate comes in by neither form of
    `tls`: its certificate isn't right, it showed none, or it didn't come by TLS. Where the proxy
    says nothing of that, or no name, `tls` lets it in."""
    complaint = (
        "tacd: 192.0.2.1: the proxy verified no certificate of the device,"
        " its connection is closed\n"
    )
    with serving(program) as server:
        for told in (
            {"client": None},
            {},
            {"client": BY_TLS | SHOWN},
            {"client": BY_TLS | SHOWN_BEFORE},
        ):
            require(asks(server, header("192.0.2.1", **told)), f"{told} isn't served")
        heads = [
            header(address, b"core-1.example", **told)
            for address in ("192.0.2.1", "192.0.2.3")
            for told in UNVERIFIED
        ]
        for head in heads:
            with called(server, head) as device:
                require(is_closed(device, SOON), f"{head} is served")
        told = [event for event in device_events(server) if "count" in event]
        require(refused(server)[0] == ("both", "no certificate"), f"it has {told}")
        require(told[0]["tls"] is None, f"it has {told}")
        told = typed(program, server, "status")
        require(f'{{why="no_certificate"}} {len(heads)}\n' in told, f"it tells {told}")
        require('{why="other_certificate"} 0\n' in told, f"it tells {told}")
        ends(program, server, complaint)


def each_device_its_own_way(program):
    """One that has a key alone isn't served by the proxy, nor one with a certificate alone at the
    port; nor is one that isn't listed."""
    no_tls = "tacd: {}: the device may not come by a proxy, its connection is closed\n"
    no_key = "tacd: {}: the device has no key, its connection is closed\n"
    unknown = "tacd: {}: unknown device, its connection is closed\n"
    for source, head, why, name, complaint in (
        (None, line("192.0.2.4"), "no tls", "keyed", no_tls.format("192.0.2.4")),
        (None, header("192.0.2.4", client=0), "no tls", "keyed", no_tls.format("192.0.2.4")),
        ("127.0.0.5", None, "no key", "inside", no_key.format("127.0.0.5")),
        (None, line("192.0.2.5"), "unknown device", None, unknown.format("192.0.2.5")),
    ):
        with serving(program) as server:
            with called(server, head) if head else connect(server, source) as device:
                require(is_closed(device, SOON), f"{why}: it is served")
            require(refused(server) == [(name, why)], f"the log has {device_events(server)}")
            counted = f'{{why="{why.replace(" ", "_")}"}} 1\n'
            told = typed(program, server, "status")
            require(counted in told, f"it tells {told}")
            ends(program, server, complaint)


def headers_in_pieces(program):
    """What comes after a header is served, wherever it is cut. The one worker serves others."""
    with serving(program, "--workers", "1") as server:
        for head in (line("192.0.2.1"), header("192.0.2.1", b"x" * 64)):
            wanted = clear(PERMITTED, KEPT_IN_CLEAR)
            with called(server) as device:
                for byte in head[:-1]:
                    device.sendall(bytes([byte]))
                    time.sleep(0.001)
                require(asks(server, line("192.0.2.2")), "another isn't answered")
                sent = head[-1:] + clear(ASK, KEPT_IN_CLEAR) * 2
                came = answer(device, sent, 2 * len(wanted))
                require(came == 2 * wanted, f"in pieces it is answered by {came}")
            with called(server, head + clear(ASK, KEPT_IN_CLEAR)[:20]) as device:
                came = answer(device, clear(ASK, KEPT_IN_CLEAR)[20:], len(wanted))
                require(came == wanted, f"in two pieces it is answered by {came}")
        ends(program, server)


def no_headers(program):
    """What can't become a header is closed as soon as that is seen, and one that is cut off; one
    that isn't whole in ten seconds is closed then. Others are served meanwhile."""
    longest = header("192.0.2.1", b"core", more=vector(4, bytes(490)))
    require(len(longest) == 536, f"the longest header has {len(longest)} bytes")
    with serving(program) as server, called(server, b"PROXY TCP4 192.0.2.1 ") as slow:
        began = time.monotonic()
        require(asks(server, longest), "the longest header isn't taken")
        for head in (
            clear(ASK),
            b"PROXY TCP5",
            b"PROXY TCP4 192.0.2.1 198.51.100.1 40000 65536\r\n",
            b"PROXY " + b"x" * 102,
            header("192.0.2.1", b"core", more=vector(4, bytes(491))),
            header("192.0.2.1", b"core", more=b"\x04\x00"),
            header("192.0.2.1", command=0x31),
        ):
            with called(server, head) as device:
                require(is_closed(device, SOON), f"{head} is taken")
        with called(server, b"PROXY TCP4") as device:
            device.shutdown(socket.SHUT_WR)
            require(is_closed(device, SOON), "one that is cut off is kept")
        require(is_closed(slow, 20), "a header that never ends is waited for")
        require(9 < time.monotonic() - began < 15, "its time is another one")
        told = [event for event in device_events(server) if "count" in event]
        require(all(event["device"] == "proxy" for event in told), f"the log has {told}")
        require(refused(server)[0] == (None, "bad proxy header"), f"the log has {told}")
        told = typed(program, server, "status")
        require('{why="bad_proxy_header"} 9\n' in told, f"it tells {told}")
        ends(program, server, NO_HEADER)


def nobody_called(program):
    """A proxy that looks whether the server is up is neither counted nor told of."""
    with serving(program) as server:
        local = SIGNATURE + bytes.fromhex("20000000")
        for head in (local, header("192.0.2.1", command=0x20), header("192.0.2.5", command=0x20)):
            with called(server, head) as device:
                require(is_closed(device, SOON), f"{head} is served")
        with called(server) as device:
            device.shutdown(socket.SHUT_WR)
            require(is_closed(device, SOON), "one without a byte is kept")
        require(device_events(server) == [], f"the log has {device_events(server)}")
        told = typed(program, server, "status")
        require("tacd_connections_accepted_total 0\n" in told, f"it tells {told}")
        require('{why="bad_proxy_header"} 0\n' in told, f"it tells {told}")
        ends(program, server)


def no_caller(program):
    """Of what a proxy hands over it has to tell who called: where that is nobody's address, the
    connection is closed, counted and told of as one without a header."""
    kinds = (0x00, 0x01, 0x10, 0x12, 0x22, 0x31, 0x32)
    heads = [b"PROXY UNKNOWN\r\n", b"PROXY UNKNOWN a b c d\r\n"]
    heads += [SIGNATURE + bytes([0x21, kind, 0, 0]) for kind in kinds]
    with serving(program) as server:
        for head in heads:
            with called(server, head) as device:
                require(is_closed(device, SOON), f"{head} is served")
        told = [(event["device"], event["why"]) for event in device_events(server)]
        require(set(told) == {("proxy", "bad proxy header")}, f"the log has {told}")
        told = typed(program, server, "status")
        require(f'{{why="bad_proxy_header"}} {len(heads)}\n' in told, f"it tells {told}")
        require("tacd_connections_accepted_total 0\n" in told, f"it tells {told}")
        ends(program, server, NO_HEADER)


def so_many_of_an_address(program):
    """Connections count for the address of which the proxy told, once it did."""
    with serving(program) as server, contextlib.ExitStack() as stack:
        for _ in range(70):
            stack.enter_context(called(server, b"PROXY TCP4 192.0.2.2 "))
        for _ in range(2):
            device = stack.enter_context(called(server, line("192.0.2.2")))
            wanted = clear(PERMITTED, KEPT_IN_CLEAR)
            came = answer(device, clear(ASK, KEPT_IN_CLEAR), len(wanted))
            require(came == wanted, f"it is answered by {came}")
        with called(server, line("192.0.2.2")) as device:
            require(is_closed(device, SOON), "a third is served")
        require(asks(server, line("192.0.2.1")), "another address isn't answered")
        require(refused(server) == [("any", "too many connections")], f"it has {device_events(server)}")
        ends(program, server)


def the_socket(program):
    """Its group may connect, and others may not. It stays, and the next server takes its place; what
    is no socket is left alone, and so is one at which a server listens."""
    with serving(program) as server:
        require(asks(server, line("192.0.2.1")), "a device isn't answered")
        path = pathlib.Path(server.folder.name, "proxy")
        mode = path.stat().st_mode
        require(stat.S_ISSOCK(mode) and stat.S_IMODE(mode) == 0o660, f"its mode is {mode:o}")
        there = "tacd: {}: a server is there already\n"
        with Server(program, key=("--devices", "devices"), proxy=path) as second:
            second.ends(complained=BLANK + there.format(path), status=4, is_listening=False)
        require(asks(server, line("192.0.2.1")), "the first isn't there any more")
        ends(program, server)
        require(path.is_socket(), "its file is gone")
        with Server(program, key=("--devices", "devices"), devices=DEVICES, proxy=path) as second:
            with socket.socket(socket.AF_UNIX) as device:
                until = time.monotonic() + LONGEST_WAIT
                while device.connect_ex(str(path)):
                    require(time.monotonic() < until, "nobody listens again")
                    time.sleep(0.005)
                wanted = clear(PERMITTED)
                came = answer(device, line("192.0.2.1") + clear(ASK), len(wanted))
                require(came == wanted, f"the next is answered by {came}")
            second.quits()
        path.unlink()
        path.write_text("")
        no_socket = f"tacd: {path}: it is no socket\n"
        with Server(program, key=("--devices", "devices"), proxy=path) as third:
            third.ends(complained=BLANK + no_socket, status=4, is_listening=False)
