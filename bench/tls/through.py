"""Devices that call a proxy: who is let in, what is answered, and what the log and `status` say."""

import concurrent.futures
import contextlib
import json
import shutil
import socket
import ssl
import subprocess
import time

import documents
from certificates import DEVICE, SERVER
from lib.judge import compare, judge, settles
from lib.packet import ACCOUNT, CLEAR, COMMAND, LOGIN, PAP, SINGLE
from packets import (
    BAD_BODY, CLOSED, KEPT, PERMITTED, SESSIONS, SHOW, Clear, Padded, ends, is_permitted, login,
    packet, part_of, replies, reply,
)
from proxies import has_ipv6
from server import KEY, Numbers, since

LOCAL = "127.0.0."
CORE_1, CORE_2, ANY, FEW, CROWD, BOTH, STRANGER = (f"{LOCAL}{n}" for n in (1, 2, 3, 4, 5, 6, 9))
ACCESS = f"{LOCAL}130"
MANY = 1_000
# Of the connections that are there at once this many are opened, and asked on, side by side.
SIDE_BY_SIDE = 16
SILENT = (9.5, 11.5)
# Besides those of examples/tls: devices for which any certificate will do.
MORE = f"""
device any
at {ANY}
at ::1
tls

device few
at {FEW}
tls
connections 2

device crowd
at {CROWD}
tls
connections {MANY}

device both
at {BOTH}
key {KEY}
tls
"""


def devices():
    text = documents.example("devices", ("192.0.2.1\n", f"{CORE_1}\n"),
                             ("192.0.2.2\n", f"{CORE_2}\n"), ("192.0.2.128/25", f"{LOCAL}128/25"))
    return text + MORE


class Trial:
    """A server behind this proxy, and the certificates of its devices."""

    def __init__(self, server, proxy, authority):
        self.server, self.proxy, self.authority = server, proxy, authority
        self.name = type(proxy).__name__.lower()
        self.pairs = {name: authority.pair(name) for name in ("core-1", "core-2")}

    def judge(self, what, found, wanted):
        compare(f"{self.name}, {what}", found, wanted)

    def device(self, source=ANY, pair="core-1", context=None, session=None, host="127.0.0.1"):
        """A connection inside TLS from this address, with this certificate."""
        context = context or self.authority.context(self.pairs.get(pair))
        address = (host, self.proxy.port)
        plain = socket.create_connection(address, 20, (source, 0))
        try:
            return context.wrap_socket(plain, server_hostname=SERVER, session=session)
        except BaseException:
            plain.close()
            raise

    def spelled(self, address):
        """A device's address as the log has it: stunnel tells an IPv4 address as IPv6."""
        host, port = address[:2]
        if ":" not in host and not self.proxy.tells_names and has_ipv6():
            host = f"::ffff:{host}"
        return f"[{host}]:{port}" if ":" in host else f"{host}:{port}"

    def common_name(self, pair):
        return f"{pair}.example.net" if self.proxy.tells_names else None

    def numbers(self):
        return Numbers(self.server)


# ---- who is let in


def refusal(trial, context):
    """How the proxy refuses a device in the handshake, or that it doesn't."""
    try:
        with trial.device(context=context) as stream:
            stream.settimeout(2)
            data = stream.recv(1)
            return "closed without an alert" if data == b"" else f"answered by {data.hex()}"
    except ssl.SSLError as error:
        return "an alert" if "ALERT" in (error.reason or "") else str(error)
    except TimeoutError:
        return "let in"
    except ConnectionError as error:
        return f"broken off: {error}"


def try_handshakes(trial, other):
    """Who shows no right certificate ends at the proxy: the server isn't called."""
    numbers, authority = trial.numbers(), trial.authority
    own = trial.pairs[DEVICE]
    expired = authority.issue("core-8", ("-days 365", "-days -1"))
    foreign = authority.issue("core-9", ("clientAuth", "serverAuth"))
    for what, context in (
        ("TLS 1.2", authority.context(own, ssl.TLSVersion.TLSv1_2)),
        ("no certificate", authority.context()),
        ("one of another CA", authority.context(other.pair(DEVICE))),
        ("one that has expired", authority.context(expired)),
        ("one for a server", authority.context(foreign)),
    ):
        trial.judge(f"with {what}", refusal(trial, context), "an alert")
    stranger = other.context(own)
    try:
        with trial.device(context=stranger):
            found = "taken for the server's"
    except ssl.SSLCertVerificationError:
        found = "not the server's"
    trial.judge("with a CA that isn't the server's", found, "not the server's")
    with socket.create_connection(("127.0.0.1", trial.proxy.port), 10, (ANY, 0)) as plain:
        plain.sendall(packet(Padded(KEY), SHOW, 1))
        # It may be told an alert of TLS, whose first byte is 21.
        found = ends(plain)
        trial.judge("without TLS", found in (CLOSED, KEPT, "more comes: 15") or found, True)
    told = "SSL handshake failure" if trial.proxy.tells_names else "SSL_accept:"
    found = settles(lambda: told in trial.proxy.says(), True)
    trial.judge(f"its log has '{told}'", found, True)
    with trial.device() as stream:
        trial.judge("with a certificate", is_permitted(stream), True)
    numbers.served()
    numbers.told("command PASS_ADD")
    numbers.judge(f"after all of these at {trial.name}")


def try_openssl(trial):
    """A client that others wrote, which checks the server's name."""
    certificate, key = trial.pairs[DEVICE]
    words = ["openssl", "s_client", "-quiet", "-connect", f"127.0.0.1:{trial.proxy.port}",
             "-bind", f"{ANY}:0", "-cert", certificate, "-key", key,
             "-CAfile", str(trial.authority.folder / "ca.pem"), "-verify_return_error",
             "-verify_hostname", SERVER]
    for what, more, wanted in (
        ("TLS 1.3", ["-tls1_3"], f"c00202010000000700000006{PERMITTED}"),
        ("TLS 1.2", ["-tls1_2"], ""),
    ):
        with subprocess.Popen([*words, *more], stdin=subprocess.PIPE, stdout=subprocess.PIPE,
                              stderr=subprocess.DEVNULL) as client:
            with contextlib.suppress(BrokenPipeError):
                client.stdin.write(packet(Clear(), SHOW, 7))
                client.stdin.flush()
            data = client.stdout.read()
        trial.judge(f"openssl s_client by {what}", data.hex(), wanted)


def try_early_data(trial):
    """A session that is taken up again has its certificate still, and brings no early data."""
    context = trial.authority.context(trial.pairs[DEVICE])
    source = CORE_1 if trial.proxy.tells_names else ANY
    with trial.device(source, context=context) as stream:
        is_permitted(stream, flags=SINGLE)
        session = stream.session
    count = len(trial.server.lines())
    with trial.device(source, context=context, session=session) as stream:
        found = stream.session_reused, is_permitted(stream)
        trial.judge("a session that is taken up again", found, (True, True))
    lines = since(trial.server.lines, count)
    found = lines[0].get("tls", "none") if lines else "no line"
    trial.judge("its name", found, trial.common_name(DEVICE))
    certificate, key = trial.pairs[DEVICE]
    words = ["openssl", "s_client", "-tls1_3", "-connect", f"127.0.0.1:{trial.proxy.port}",
             "-bind", f"{ANY}:0", "-cert", certificate, "-key", key]
    # It stays until a session has come, which is what it shows.
    with subprocess.Popen(words, stdin=subprocess.PIPE, stdout=subprocess.PIPE, text=True,
                          stderr=subprocess.DEVNULL) as client:
        line = ""
        for line in client.stdout:
            if "Max Early Data" in line:
                break
        client.stdin.close()
    trial.judge("early data", line.strip(), "Max Early Data: 0")


def try_revoked(trial, proxy):
    """A second proxy, which has a list of revoked certificates. The first one has none."""
    pair = trial.authority.issue("core-7")
    trial.authority.revoke("core-7")
    old, new = proxy.revokes
    folder = str(trial.authority.folder)
    proxy.start((old, new.format(folder)))
    with contextlib.ExitStack() as stack:
        stack.push(proxy.__exit__)
        second = Trial(trial.server, proxy, trial.authority)
        context = trial.authority.context(pair)
        trial.judge("with a certificate that is revoked", refusal(second, context), "an alert")
        with second.device() as stream:
            trial.judge("with one that isn't", is_permitted(stream), True)
        with trial.device(context=context) as stream:
            trial.judge("without the list", is_permitted(stream), True)


# ---- who may come


def turned_away(trial, source, pair, context=None):
    """What the client sees of a connection that the server refuses, and its address."""
    with trial.device(source, pair, context) as stream:
        address = stream.getsockname()
        try:
            stream.sendall(packet(Clear(), SHOW, 1))
            return reply(stream, Clear()), address
        except (ConnectionError, ssl.SSLEOFError):
            return CLOSED, address


def try_without_key(trial):
    """A device that has no key, at the port."""
    count = len(trial.server.lines())
    with trial.server.connection(CORE_1) as stream:
        stream.sendall(packet(Padded(KEY), SHOW, 1))
        trial.judge("at the port, a device without a key", reply(stream, Padded(KEY)), CLOSED)
        line = (since(trial.server.lines, count) or [{}])[0]
        line.pop("time", None)
        host, port = stream.getsockname()
        wanted = {"device": f"{host}:{port}", "name": "core-1", "type": "refused",
                  "why": "no key", "count": 1}
        trial.judge("its line", json.dumps(line), json.dumps(wanted))


def try_refused(trial):
    """The devices' file decides, by the address and the name."""
    named = trial.proxy.tells_names
    numbers = trial.numbers()
    # An address, a certificate, why it is refused, and its name in the file.
    for what, source, pair, why, name in (
        ("another device's certificate", CORE_1, "core-2", "other certificate", "core-1"),
        ("a device without tls", ACCESS, "core-1", "no tls", "access"),
        ("an address of nobody", STRANGER, "core-1", "unknown device", None),
    ):
        count = len(trial.server.lines())
        found, address = turned_away(trial, source, pair)
        trial.judge(what, found, CLOSED)
        numbers.refused(why)
        line = (since(trial.server.lines, count) or [{}])[0]
        line.pop("time", None)
        wanted = {"device": trial.spelled(address), "name": name, "tls": trial.common_name(pair),
                  "type": "refused", "why": why, "count": 1}
        if name is None:
            wanted = {key: wanted[key] for key in wanted if key not in ("name", "tls")}
        trial.judge("its line", json.dumps(line), json.dumps(wanted))
    try_without_key(trial)
    numbers.refused("no key")
    with trial.device(CORE_1) as stream:
        trial.judge("a device by its own certificate", is_permitted_or_closed(stream), named)
    if named:
        numbers.served()
        numbers.told("command PASS_ADD")
    else:
        # stunnel tells no name, so that is another one.
        numbers.refused("other certificate")
    numbers.judge(f"after those that {trial.name} let in and the server didn't")


def is_permitted_or_closed(stream):
    try:
        return is_permitted(stream)
    except ssl.SSLError:
        return False


def try_optional(trial, proxy, other):
    """A proxy that lets devices through whose certificate it can't verify, or that show none. The
    server closes them, for whichever certificates their block has."""
    proxy.start((" verify required", " verify optional ca-ignore-err all crt-ignore-err all"))
    with contextlib.ExitStack() as stack:
        stack.push(proxy.__exit__)
        optional, numbers = Trial(trial.server, proxy, trial.authority), trial.numbers()
        foreign = trial.authority.context(other.pair(DEVICE))
        for source in ANY, CORE_1:
            for what, context in ("none", trial.authority.context()), ("one of another CA", foreign):
                found, _ = turned_away(optional, source, None, context)
                trial.judge(f"{source} with {what}, where certificates are optional", found, CLOSED)
                numbers.refused("no certificate")
            with optional.device(source) as stream:
                trial.judge(f"{source} with its own", is_permitted(stream), True)
            numbers.served()
            numbers.told("command PASS_ADD")
        numbers.judge("where certificates are optional")


def try_plain(trial, proxy):
    """A port of the proxy without TLS. The server takes nothing that comes by it."""
    inside = " ssl crt /etc/tacacss/server.pem ca-file /etc/tacacss/ca.pem verify required"
    proxy.start((f"{inside} ssl-min-ver TLSv1.3", ""))
    with contextlib.ExitStack() as stack:
        stack.push(proxy.__exit__)
        # It was called once to see whether it serves.
        time.sleep(1)
        numbers = trial.numbers()
        for source in ANY, CORE_1:
            with socket.create_connection(("127.0.0.1", proxy.port), 10, (source, 0)) as plain:
                plain.sendall(packet(Clear(), SHOW, 1))
                trial.judge(f"{source} without TLS", reply(plain, Clear()), CLOSED)
            numbers.refused("no certificate")
        numbers.judge("at a port without TLS")


def try_few(trial):
    """A device's connections are counted by its own address, and not by the proxy's."""
    numbers = trial.numbers()
    with trial.device(FEW) as one, trial.device(FEW) as two:
        found = [is_permitted(one, flags=SINGLE), is_permitted(two, flags=SINGLE)]
        trial.judge("two of an address that may have two", found, [True, True])
        trial.judge("the third", turned_away(trial, FEW, DEVICE)[0], CLOSED)
        with trial.device(ANY) as other:
            trial.judge("one of another address", is_permitted(other), True)
        numbers.served(3)
        numbers.told("command PASS_ADD", 3)
        numbers.refused("too many connections")
        numbers.add("connections", 2)
        numbers.judge("while they are there")
    numbers.add("connections", -2)
    numbers.judge("once they have gone")


# ---- what is answered


def flag(one):
    return one.header.flags & CLEAR


def without_flag(one):
    return one.header._replace(flags=one.header.flags & ~CLEAR), one.body.hex()


def body(one):
    return one.body.hex()


def seen(stream, door, asked, session, flags):
    """The replies to a session without what differs by the door, and how its connection is left."""
    came = []
    for one in replies(stream, door, asked, session, flags):
        if part_of(one, flag) not in (door.FLAG, CLOSED):
            came.append("another flag")
        came.append(part_of(one, without_flag))
    if CLOSED not in came:
        came.append(ends(stream))
        stream.settimeout(20)
    return came


def try_sessions(trial):
    """All kinds of packets are answered as under a key, but in clear and with the flag."""
    numbers, count = trial.numbers(), len(trial.server.lines())
    wanted, differ = [], []
    for flags in 0, SINGLE:
        for session, (what, (asked, told)) in enumerate(SESSIONS.items(), start=flags * 64 + 1):
            with trial.device(BOTH) as stream:
                address = trial.spelled(stream.getsockname())
                inside = seen(stream, Clear(), asked, session, flags)
            with trial.server.connection(BOTH) as stream:
                outside = seen(stream, Padded(KEY), asked, session, flags)
            if inside != outside:
                differ.append(f"{what}, flags {flags}: {inside} and {outside}")
            wanted.append((session, address, told))
            numbers.told(told, 2)
            if told == "bad body":
                # the one under a key, as packets under another one have such bodies
                numbers.add("connections_other_key_total")
    numbers.served(4 * len(SESSIONS))
    trial.judge(f"of {len(wanted)} sessions, answered otherwise than under a key", differ, [])
    numbers.judge("after them")
    lines = trial.server.lines()[count:]
    inside = [line for line in lines if "tls" in line]
    outside = [line for line in lines if "tls" not in line]
    found = [(int(line["session"], 16), line["device"], told_of(line)) for line in inside]
    trial.judge("their lines: session, address, what was told", found == wanted or found, True)
    found = {(line["name"], line["tls"], list(line)[:5].index("tls")) for line in inside}
    trial.judge("their names", found, {("both", trial.common_name(DEVICE), 3)})
    found = {line["name"] for line in outside}
    trial.judge("those at the port", (found, len(outside)), ({"both"}, len(wanted)))
    for line in lines:
        for member in ("time", "device", "tls"):
            line.pop(member, None)
    trial.judge("both say the same", inside == outside, True)


def told_of(line):
    return line["why"] if line["type"] == "refused" else f"{line['type']} {line['status']}"


def try_one_connection(trial):
    """Sixteen sessions side by side, cut up anywhere, and no reply is another's."""
    asked = login(PAP, b"blue-lake")
    with trial.device(BOTH) as stream:
        sent = b"".join(packet(Clear(), asked, n, flags=SINGLE) for n in range(1, 17))
        for begin in range(0, len(sent), 7):
            stream.sendall(sent[begin : begin + 7])
        found = [part_of(reply(stream, Clear()), lambda one: (one.header.session, body(one)))
                 for _ in range(16)]
        wanted = [(n, "010000000000") for n in range(1, 17)]
        trial.judge("sixteen logins on a connection", found == wanted or found, True)


def try_unflagged(trial):
    """A packet without the flag is told ERROR, with the flag, and its connection closes."""
    numbers = trial.numbers()
    for kind, asked in (
        (LOGIN, login(PAP, b"blue-lake")),
        (COMMAND, SHOW),
        (ACCOUNT, SESSIONS["a start"][0]),
    ):
        for flags in 0, SINGLE:
            for what, door in ("in clear", Clear()), ("under a key", Padded(KEY)):
                with trial.device(BOTH) as stream:
                    data = bytearray(packet(door, asked, 5, flags=flags))
                    data[3] &= ~CLEAR
                    stream.sendall(data)
                    found = part_of(reply(stream, Clear()), lambda one: (flag(one), body(one)))
                    after = ends(stream)
                trial.judge(f"type {kind} without the flag, {what}, flags {flags}",
                            (found, after), ((CLEAR, BAD_BODY[kind]), CLOSED))
    numbers.served(12)
    numbers.told("bad body", 12)
    with trial.device(BOTH) as stream:
        asked = SESSIONS["a login by questions"][0]
        stream.sendall(packet(Clear(), asked, 6, flags=SINGLE))
        question = part_of(reply(stream, Clear()), body)
        data = bytearray(packet(Clear(), asked, 6, 1, SINGLE))
        data[3] &= ~CLEAR
        stream.sendall(data)
        found = question[:2], part_of(reply(stream, Clear()), body), ends(stream)
        trial.judge("an answer without the flag", found, ("04", BAD_BODY[LOGIN], CLOSED))
    numbers.served()
    numbers.told("bad body")
    numbers.judge("after them")


def try_addresses(trial):
    """The log has each device's own address and port."""
    count, wanted = len(trial.server.lines()), []
    for source, host in (ANY, "127.0.0.1"), ("::1", "::1"):
        if source == "::1" and not has_ipv6():
            continue
        with trial.device(source, host=host) as stream:
            wanted.append((trial.spelled(stream.getsockname()), "any"))
            is_permitted(stream)
    settles(lambda: len(trial.server.lines()), count + len(wanted))
    found = [(line["device"], line["name"]) for line in trial.server.lines()[count:]]
    trial.judge("addresses", found, wanted)


# ---- how many, and for how long


def try_crowd(trial):
    """So many connections at once, each of which is answered, and answered again."""
    numbers = trial.numbers()
    context = trial.authority.context(trial.pairs[DEVICE])
    begun = time.monotonic()

    def called(number):
        stream = trial.device(CROWD, context=context)
        return stream, is_permitted(stream, session=number, flags=SINGLE)

    def asked(stream):
        return is_permitted(stream, session=MANY + 1, flags=SINGLE)

    with concurrent.futures.ThreadPoolExecutor(SIDE_BY_SIDE) as pool:
        came = list(pool.map(called, range(1, MANY + 1)))
        took = time.monotonic() - begun
        trial.judge(f"of {MANY} connections, answered", sum(right for _, right in came), MANY)
        numbers.served(MANY)
        numbers.told("command PASS_ADD", MANY)
        numbers.add("connections", MANY)
        numbers.judge("while they are there")
        trial.judge("one more", turned_away(trial, CROWD, DEVICE)[0], CLOSED)
        numbers.refused("too many connections")
        again = sum(pool.map(asked, (stream for stream, _ in came)))
        trial.judge("answered again", again, MANY)
        numbers.told("command PASS_ADD", MANY)
    for stream, _ in came:
        stream.close()
    numbers.add("connections", -MANY)
    numbers.judge(f"once they have gone, who came in {took:.1f} s")


def silence(trial):
    """After how many seconds a device that says nothing is closed."""
    with trial.device(ANY) as stream:
        begun = time.monotonic()
        stream.settimeout(20)
        try:
            data = stream.recv(1)
        except (ConnectionError, ssl.SSLError):
            data = b""
        except TimeoutError:
            data = b"?"
        return data, time.monotonic() - begun


def try_silence(trial):
    data, seconds = silence(trial)
    least, most = SILENT
    judge(f"{trial.name}, a silent device", data == b"" and least < seconds < most,
          f"is closed after {seconds:.1f} s")


# ---- from keys to TLS


def jq(trial, number):
    """What a line of jq on the page prints of the log."""
    shown = [block for _, block in documents.blocks(documents.PAGE)]
    asking = [block for block in shown if block.lstrip().startswith("jq ")]
    words = asking[number].replace("/var/log/tacd/audit.log", str(trial.server.places.log))
    return subprocess.run(["sh", "-c", words], capture_output=True, text=True, check=True).stdout


def try_move(trial):
    """A device may come both ways, and then by TLS alone, as its block says."""
    key, server = Padded(KEY), trial.server
    came = "core-2" if trial.proxy.tells_names else "both"
    source = CORE_2 if trial.proxy.tells_names else BOTH
    numbers = trial.numbers()
    with server.connection(source) as plain, trial.device(source, "core-2") as inside:
        found = is_permitted(plain, key, 1, SINGLE), is_permitted(inside, session=1, flags=SINGLE)
        trial.judge("both ways", found, (True, True))
        # The log has a line a second of each reason.
        time.sleep(1.1)
        before, _, after = devices().partition(f"device {came}\n")
        server.reload_devices(f"{before}device {came}\n{after.replace(f'key {KEY}', '', 1)}")
        found = is_permitted(plain, key, 2, SINGLE), is_permitted(inside, session=2, flags=SINGLE)
        trial.judge("connections that are open without the key", found, (True, True))
        with server.connection(source) as stream:
            trial.judge("the next one by the key", ends(stream), CLOSED)
        with trial.device(source, "core-2") as stream:
            trial.judge("the next one inside TLS", is_permitted(stream), True)
    if shutil.which("jq"):
        found = {line.split()[1] + " " + line.split()[2] for line in jq(trial, 0).splitlines()}
        trial.judge("jq tells who came how", {f"{came} tls", f"{came} key"} <= found or found, True)
        found = [line.split("\t")[1:2] + line.split("\t")[3:] for line in jq(trial, 1).splitlines()]
        trial.judge("jq tells who was refused", ["no key", came, "-"] in found or found, True)
    numbers.served(3)
    numbers.told("command PASS_ADD", 5)
    numbers.refused("no key")
    if trial.proxy.tells_names:
        server.reload_devices(devices().replace("tls core-1.", "tls core-0."))
        trial.judge("another name in the file", turned_away(trial, CORE_1, DEVICE)[0], CLOSED)
        numbers.refused("other certificate")
    server.reload_devices(devices())
    numbers.judge("after the move")


# ---- the proxy asks, and the server is away


def try_checks(trial, proxy):
    """haproxy's own questions are answered by a close, and neither counted nor told."""
    numbers, count = trial.numbers(), len(trial.server.lines())
    proxy.start(("-v2-ssl-cn", "-v2-ssl-cn check inter 100ms"))
    with contextlib.ExitStack() as stack:
        stack.push(proxy.__exit__)
        time.sleep(3)
        compare("haproxy, its checks", "DOWN" in proxy.says(), False)
        numbers.judge("after haproxy's checks")
        compare("haproxy, lines of its checks", trial.server.lines()[count:], [])
        checked = Trial(trial.server, proxy, trial.authority)
        with checked.device() as stream:
            compare("haproxy, a device beside them", is_permitted(stream), True)


def try_restart(trial):
    """The server stops and is killed, and the next one is reached by the same proxy."""
    server = trial.server
    for what, stop in ("by quit", server.quit), ("by SIGKILL", server.running.kill):
        with trial.device() as stream:
            trial.judge(f"before an end {what}", is_permitted(stream, flags=SINGLE), True)
            stop()
            server.running.ended(10)
            trial.judge("its connection", ends(stream), CLOSED)
        trial.judge("the socket's file is there still", server.places.socket.is_socket(), True)
        begun = time.monotonic()
        trial.judge("a device meanwhile", turned_away(trial, ANY, DEVICE)[0], CLOSED)
        seconds = time.monotonic() - begun
        judge(f"{trial.name}, that", seconds < 5, f"took {seconds:.1f} s")
        told = " SC " if trial.proxy.tells_names else "s_connect:"
        found = settles(lambda: told in trial.proxy.says(), True)
        trial.judge(f"its log has '{told}'", found, True)
        server.start()
        with trial.device() as stream:
            trial.judge("after the next start", is_permitted(stream), True)
