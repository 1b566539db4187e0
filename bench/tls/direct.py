"""Whoever reaches the socket and isn't a proxy: headers of all kinds, and what comes after them."""

import concurrent.futures
import datetime
import itertools
import os
import socket
import stat
import struct
import subprocess
import time

import headers
from headers import (
    LOCAL, PROXY, SHOWN, TCP4, TCP6, UDP4, UNIX, UNSPEC, USED, binary, certificate, line, vector,
)
from lib.judge import compare, judge, settles
from lib.packet import SINGLE
from packets import (
    CLOSED, KEPT, PERMITTED, SHOW, Clear, Padded, ends, is_permitted, packet, part_of, reply,
)
from places import IS_ROOT, STRANGER, USER, as_user
from server import KEY, Numbers
from through import ACCESS, ANY, BOTH, CORE_1
from through import STRANGER as NOBODY

NAME = b"core-1.example.net"
TELLS_NAME = headers.certificate(NAME)
LONG = b"c" * 64
SERVED, BAD, PASSED_OVER = "served", "bad proxy header", "passed over"
UNKNOWN, NO_TLS = "unknown device", "no tls"
UNVERIFIED, OTHER = "no certificate", "other certificate"
PATIENCE = (9.5, 11.5)
PENDING = 200
# So many connections, after as many that warm the server up, and what they may leave behind.
MANY, SLACK = 500, 1024  # kB
# A server without a connection has fewer.
FILES = 120

# What comes before a packet in the same write, and what becomes of the connection.
HEADERS = {
    "a line": (line(ANY), SERVED),
    "a line for IPv6": (line("::1", "TCP6", "::1"), SERVED),
    "a line for IPv4 within IPv6": (line(f"::ffff:{ANY}", "TCP6", "::ffff:127.0.0.1"), SERVED),
    "version 2": (binary(ANY), SERVED),
    "version 2 for IPv6": (binary("::1"), SERVED),
    "version 2 for IPv4 within IPv6": (binary(f"::ffff:{ANY}"), SERVED),
    "version 2 with a name": (binary(CORE_1, TELLS_NAME), SERVED),
    "536 bytes": (headers.of_length(ANY, 536), SERVED),
    "536 bytes with a name": (headers.of_length(CORE_1, 536, TELLS_NAME), SERVED),
    "537 bytes": (headers.of_length(ANY, 537), BAD),
    "65,551 bytes": (binary(ANY, size=65_535), BAD),
    "a line of 108 bytes": (b"PROXY UNKNOWN " + b"x" * 92 + b"\r\n", BAD),
    "a line that never ends": (b"PROXY UNKNOWN " + b"x" * 500, BAD),
    "no header": (b"", BAD),
    "TLS": (bytes.fromhex("160301020001"), BAD),
    "HTTP": (b"GET / HTTP/1.1\r\n\r\n", BAD),
    "a port of 65,536": (line(ANY, ports="65536 300"), BAD),
    "no address": (line("localhost"), BAD),
    "IPv6 in a line of IPv4": (line("::1"), BAD),
    "another command": (headers.raw(0x22, TCP4, headers.addresses(ANY)), BAD),
    "version 3": (headers.raw(0x31, TCP4, headers.addresses(ANY)), BAD),
    "another family": (headers.raw(PROXY, 0x41, headers.addresses(ANY)), BAD),
    "no room for IPv4": (headers.raw(PROXY, TCP4, headers.addresses(ANY)[:11]), BAD),
    "no room for IPv6": (headers.raw(PROXY, TCP6, headers.addresses("::1")[:35]), BAD),
    "a vector of two bytes": (binary(ANY, b"\4\0"), BAD),
    "a vector that is too long": (binary(ANY, struct.pack("!BH", 4, 2) + b"x"), BAD),
    "a name that is too long for its vector": (
        binary(CORE_1, vector(headers.SSL, b"\3\0\0\0\0" + struct.pack("!BH", 0x22, 9) + b"core")),
        BAD,
    ),
    "TLS in four bytes": (binary(CORE_1, vector(headers.SSL, b"\3\0\0\0")), BAD),
    "LOCAL": (headers.raw(LOCAL, UNSPEC, b""), PASSED_OVER),
    "LOCAL with an address": (headers.raw(LOCAL, TCP4, headers.addresses(ANY)), PASSED_OVER),
    "as haproxy's check": (
        headers.raw(LOCAL, UNSPEC, vector(headers.SSL, bytes(5))), PASSED_OVER,
    ),
    "a line UNKNOWN": (b"PROXY UNKNOWN\r\n", BAD),
    "a line UNKNOWN with more": (b"PROXY UNKNOWN ::1 ::1 1 2\r\n", BAD),
    "no family": (headers.raw(PROXY, UNSPEC, b""), BAD),
    "UDP": (headers.raw(PROXY, UDP4, headers.addresses(ANY)), BAD),
    "a Unix socket": (headers.raw(PROXY, UNIX, bytes(216)), BAD),
    "an address of nobody": (line(NOBODY), UNKNOWN),
    "an address of nobody, with a name": (binary(NOBODY, TELLS_NAME), UNKNOWN),
    "a device without tls": (line(ACCESS), NO_TLS),
    "no name": (line(CORE_1), OTHER),
    "another name": (binary(CORE_1, headers.certificate(b"core-2.example.net")), OTHER),
    "a beginning of the name": (binary(CORE_1, headers.certificate(NAME[:-1])), OTHER),
    "more than the name": (binary(CORE_1, headers.certificate(NAME + b"\0")), OTHER),
    "the name in capitals": (binary(CORE_1, headers.certificate(NAME.upper())), OTHER),
    "nothing of certificates": (binary(CORE_1), OTHER),
    "a name that wasn't verified": (binary(CORE_1, certificate(NAME, verify=1)), UNVERIFIED),
    "a name of no certificate": (binary(CORE_1, certificate(NAME, client=USED)), UNVERIFIED),
    "a name without TLS": (binary(CORE_1, certificate(NAME, client=SHOWN)), UNVERIFIED),
    "any name, not verified": (binary(ANY, certificate(NAME, verify=1 << 31)), UNVERIFIED),
    "any name, of no certificate": (binary(ANY, certificate(None, client=USED)), UNVERIFIED),
    "any name, without TLS": (binary(ANY, vector(headers.SSL, bytes(5))), UNVERIFIED),
    "no certificate of a device without tls": (
        binary(ACCESS, certificate(None, client=USED)), NO_TLS,
    ),
    "a name of 65 bytes": (binary(ANY, headers.certificate(LONG + b"c")), SERVED),
}
# Names as the log has them, and how it has them.
NAMES = {
    None: None,
    NAME: NAME.decode(),
    LONG: LONG.decode(),
    LONG + b"c": None,
    b'"\\\0\x1b\x7f\xe9': '"\\\0\x1b\x7f\xe9',
}
# What comes, and stops before the header is whole.
UNFINISHED = {
    "nothing": b"",
    "a byte": b"P",
    "a line without its end": line(ANY)[:-1],
    "fifteen bytes of version 2": binary(ANY)[:15],
    "535 bytes of 536": headers.of_length(ANY, 536)[:535],
}


def connected(server):
    stream = socket.socket(socket.AF_UNIX)
    stream.settimeout(20)
    stream.connect(str(server.places.socket))
    return stream


def answered(server, data, pieces=None):
    """What comes of a header and a packet: SERVED, or how the connection is left."""
    with connected(server) as stream:
        try:
            for piece in pieces or [data + packet(Clear(), SHOW, 1)]:
                stream.sendall(piece)
                if pieces:
                    time.sleep(0.001)
        except ConnectionError:
            pass
        came = part_of(reply(stream, Clear()), lambda it: it.body.hex())
        return SERVED if came == PERMITTED else came


def try_headers(server):
    """Each is served or closed, and counted and told as it has to be, or not at all."""
    numbers = Numbers(server)
    for what, (data, wanted) in HEADERS.items():
        found = answered(server, data)
        compare(f"header, {what}", found, SERVED if wanted == SERVED else CLOSED)
        if wanted == SERVED:
            numbers.served()
            numbers.told("command PASS_ADD")
        elif wanted != PASSED_OVER:
            numbers.refused(wanted)
        numbers.judge(f"after it ({wanted})")


def try_pieces(server):
    """However a header is cut, and with whatever of the packets after it."""
    request = packet(Clear(), SHOW, 1)
    for what, header in ("a line", line(ANY)), ("version 2", binary(CORE_1, TELLS_NAME)):
        whole = header + request
        pieces = [whole[at : at + 1] for at in range(len(whole))]
        compare(f"{what}, byte by byte", answered(server, b"", pieces), SERVED)
        for at in 1, len(header) - 1, len(header), len(header) + 5, len(header) + 30:
            pieces = [whole[:at], whole[at:]]
            compare(f"{what}, cut after {at} bytes", answered(server, b"", pieces), SERVED)
    with connected(server) as stream:
        packets = [packet(Clear(), SHOW, n, flags=SINGLE) for n in (1, 2, 3)]
        stream.sendall(line(ANY) + b"".join(packets))
        found = [part_of(reply(stream, Clear()), lambda it: it.header.session) for _ in packets]
        compare("three packets behind a header", (found, ends(stream)), ([1, 2, 3], KEPT))


def try_second_header(server):
    """A header is read once: whatever comes behind it is a packet."""
    numbers = Numbers(server)
    compare("a second header", answered(server, line(ANY) + line(CORE_1)), CLOSED)
    numbers.served()
    numbers.told("bad header")
    numbers.judge("after it")


def try_names(server):
    """A name is told as it came, and a name that is none as null."""
    for name, wanted in NAMES.items():
        count = len(server.lines())
        compare(f"the name {name}", answered(server, binary(ANY, headers.certificate(name))), SERVED)
        settles(lambda: len(server.lines()), count + 1)
        found = server.lines()[-1]
        compare("its line", (found["device"], found["name"], found["tls"]),
              (f"{ANY}:{headers.PORT}", "any", wanted))


def waited(server, data):
    """What becomes of a header that isn't whole, and after how many seconds."""
    with connected(server) as stream:
        begun = time.monotonic()
        stream.sendall(data)
        return reply(stream, Clear()), time.monotonic() - begun


def trickled(server):
    """A byte a second of a header that would be right."""
    with connected(server) as stream:
        begun = time.monotonic()
        stream.settimeout(1)
        for at in range(20):
            try:
                stream.sendall(line(ANY)[at : at + 1])
                if stream.recv(1) == b"":
                    break
            except TimeoutError:
                continue
            except ConnectionError:
                break
        return CLOSED, time.monotonic() - begun


def try_unfinished(server):
    """Ten seconds for all of a header. Those who wait for one keep nobody else waiting."""
    numbers = Numbers(server)
    with concurrent.futures.ThreadPoolExecutor() as pool:
        waits = {what: pool.submit(waited, server, data) for what, data in UNFINISHED.items()}
        waits["a byte a second"] = pool.submit(trickled, server)
        pending = [connected(server) for _ in range(PENDING)]
        time.sleep(1)
        begun = time.monotonic()
        found = answered(server, line(ANY))
        seconds = time.monotonic() - begun
        judge(f"a device beside {PENDING} without a header", found == SERVED and seconds < 1,
              f"{found} after {seconds * 1000:.0f} ms")
        least, most = PATIENCE
        for what, wait in waits.items():
            found, seconds = wait.result()
            judge(f"{what}, and then silence", found == CLOSED and least < seconds < most,
                  f"{found} after {seconds:.1f} s")
        compare(f"the {PENDING}", {ends(stream) for stream in pending}, {CLOSED})
        for stream in pending:
            stream.close()
    numbers.served()
    numbers.told("command PASS_ADD")
    numbers.refused(BAD, len(waits) + PENDING)
    numbers.judge("after them")


def try_broken_off(server):
    """A header that ends before it is whole is none."""
    numbers = Numbers(server)
    for what, data in UNFINISHED.items():
        if data == b"":
            continue
        with connected(server) as stream:
            stream.sendall(data)
            stream.shutdown(socket.SHUT_WR)
            compare(f"{what}, and then the end", ends(stream), CLOSED)
        numbers.refused(BAD)
    numbers.judge("after them")


def try_memory(server):
    """Connections by the socket leave no more behind than those at the port do."""

    def by_port():
        with server.connection(BOTH) as stream:
            return is_permitted(stream, Padded(KEY))

    def by_socket():
        return answered(server, binary(CORE_1, TELLS_NAME)) == SERVED

    def by_nobody():
        return answered(server, b"x") == CLOSED

    grew = {}
    for what, call in ("port", by_port), ("socket", by_socket), ("bad headers", by_nobody):
        right = sum(call() for _ in range(MANY))
        before = server.running.kilobytes()
        right += sum(call() for _ in range(MANY))
        grew[what] = server.running.kilobytes() - before
        compare(f"of {2 * MANY} connections, {what}", right, 2 * MANY)
    told = ", ".join(f"{what} {more} kB" for what, more in grew.items())
    judge("memory", max(grew.values()) <= grew["port"] + SLACK, f"grew by {told}")
    held = server.running.descriptors()
    judge("open files", held < FILES, f"{held}")


def try_told(server):
    """All that were refused are counted in the log, with a line a second at most."""
    time.sleep(1.1)
    begun = time.monotonic()
    count = counted(server, BAD)
    for _ in range(300):
        answered(server, b"x")
    time.sleep(1.1)
    answered(server, b"x")
    seconds = time.monotonic() - begun
    wanted = server.number('connections_refused_total{why="bad_proxy_header"}')
    found = settles(lambda: counted(server, BAD), wanted)
    compare("bad headers that the log counts", found, wanted)
    # Those before are counted by the first of these lines.
    judge("of these in this time", found - count >= 301, f"{found - count} in {seconds:.1f} s")
    lines = refused(server, BAD)
    members = {(line["device"], "name" in line, "tls" in line) for line in lines}
    compare("whom they name", members, {("proxy", False, False)})
    times = [datetime.datetime.fromisoformat(line["time"]).timestamp() for line in lines]
    least = min(later - former for former, later in itertools.pairwise(times))
    judge("between two such lines", least > 0.95, f"{least:.2f} s at least")


def refused(server, why):
    return [line for line in server.lines() if line.get("why") == why]


def counted(server, why):
    return sum(line["count"] for line in refused(server, why))


# ---- the socket's file

ASKING = """
import socket, sys
stream = socket.socket(socket.AF_UNIX)
try:
    stream.connect(sys.argv[1])
    print("connected")
except OSError as error:
    print(error.strerror)
"""


def reached_by(server, user, group):
    """What a user of this group gets who calls the socket."""
    words = ["/usr/bin/python3", "-c", ASKING, str(server.places.socket)]
    who = as_user(user) | ({} if group is None else {"group": group})
    done = subprocess.run(words, capture_output=True, text=True, cwd="/", **who)
    return done.stdout.strip() or done.stderr


def try_file(server, group):
    """Its mode and group, and who may connect."""
    status = server.places.socket.stat()
    compare("the socket's mode", oct(stat.S_IMODE(status.st_mode)), "0o660")
    compare("what else is in its folder", os.listdir(server.places.folder), ["socket"])
    if not IS_ROOT:
        print("who may connect isn't tried but by root")
        return
    compare("its group is its folder's", (server.places.socket.owner(), server.places.socket.group()),
          (USER, group))
    compare("the proxy's group", reached_by(server, STRANGER, group), "connected")
    compare("another user", reached_by(server, STRANGER, None), "Permission denied")


# ---- starts


def start_of(server, *words):
    """The status of a start that is refused, what it prints, and whether it says why."""
    try:
        done = subprocess.run(words, cwd=server.places.own, capture_output=True, text=True,
                              timeout=5, stdin=subprocess.DEVNULL, **as_user(USER))
    except subprocess.TimeoutExpired:
        return "it serves"
    return done.returncode, done.stdout, bool(done.stderr)


def with_proxy(server, path):
    """The words of a server, with another socket and without its console, log and port."""
    places = server.places
    return [server.program, "serve", "--no-console", "--proxy", path,
            "--devices", places.own / "devices", places.own / "policy"]


def try_starts(server):
    """What a server is told at its start that can't have its socket, or has no port."""
    folder = server.places.folder
    compare("a second server at the socket", start_of(server, *with_proxy(server, folder / "socket")),
          (4, "", True))
    compare("the first one goes on", answered(server, line(ANY)), SERVED)
    for what, path in (
        ("a file", server.places.own / "devices"),
        ("a folder", server.places.own),
        ("in no folder", folder / "none" / "socket"),
        ("a long one", folder / ("x" * 120)),
    ):
        compare(f"a start whose socket is {what}", start_of(server, *with_proxy(server, path)),
              (4, "", True))
    compare("the file is whole", (server.places.own / "devices").read_text() != "", True)
    without = [server.program, "serve", "--no-console", "--key", KEY,
               "--proxy", folder / "other", server.places.own / "policy"]
    compare("a start without --devices", start_of(server, *without), (2, "", True))
    neither = [server.program, "serve", "--no-console",
               "--devices", server.places.own / "devices", server.places.own / "policy"]
    compare("a start with neither port nor socket", start_of(server, *neither), (2, "", True))


def try_without_port(server):
    """A server that has no port: it prints one line, and is reached by its socket."""
    with server:
        compare("without a port", answered(server, line(ANY)), SERVED)
        server.quit()
