"""Which devices may call, and what is printed of that (docs/DEVICES.md). Addresses and prefixes are
those of Python's ipaddress."""

import ipaddress
import itertools
import re
from typing import NamedTuple

from .texts import is_name, is_secret, is_text, lines_of, number_of, text_of

MOST_DEVICES, MOST_PREFIXES, MOST_CONNECTIONS = 4_096, 16_384, 10_000
MOST_COMMON_NAME = 64
LEAST_KEY = 16
# What Cisco's type 7 hides a text under.
MASK = b"dsfd;kfoA,.iyewrkldJKDHSUBsgvca69834ncxv9873254k;fg87"
MAPPED = ipaddress.ip_network("::ffff:0:0/96")


class Refused(Exception):
    """Why a line is refused, or a file with the line where."""


class Key(NamedTuple):
    text: str
    line: int


class Device:
    def __init__(self, name, line):
        self.name = name
        self.line = line
        self.key = None
        self.old_key = None
        # the common name, or an empty text for any
        self.tls = None
        self.tls_line = None
        self.connections = None
        # each with the line that says it
        self.prefixes = {}


def listing(text, words):
    """What is printed of the file where these addresses are asked about, and the status."""
    addresses = [(word, address_of(word)) for word in words]
    if any(address is None for _, address in addresses):
        return b"", 2
    try:
        devices = read_devices(lines_of(text_of(text)))
    except Refused as refusal:
        return f"devices fault line {refusal}\n".encode(), 1
    if not words:
        return "".join(f"{line}\n" for line in told(devices)).encode(), 0
    found = [(word, nearest(devices, address)) for word, address in addresses]
    lines = [found_line(word, place) for word, place in found]
    may_call = all(place is not None for _, place in found)
    return "".join(f"{line}\n" for line in lines).encode(), 0 if may_call else 5


def told(devices):
    prefixes = sum(len(device.prefixes) for device in devices)
    yield f"devices ok: {len(devices)} devices, {prefixes} prefixes"
    keys, names = {}, {}
    for device in devices:
        if device.key is not None:
            yield from told_of_keys(device, keys)
        if device.tls:
            line = device.tls_line
            if names.setdefault(device.tls, line) != line:
                yield f"line {line}: the common name of line {names[device.tls]}"


def told_of_keys(device, first):
    text, line = device.key
    if first.setdefault(text, line) != line:
        yield f"line {line}: the key of line {first[text]}"
    if len(text) < LEAST_KEY:
        yield f"line {line}: a key of {len(text)} characters"
    if doubt(text) is not None:
        yield f"line {line}: {doubt(text)}"
    if device.old_key is None:
        return
    old, line = device.old_key
    if doubt(old) is not None:
        yield f"line {line}: {doubt(old)}"
    if device.tls is not None:
        yield f"line {line}: an old key beside the 'tls' of line {device.tls_line}"


def doubt(key):
    """Why it is doubtful that a key is the one that was meant, or None."""
    if key != key.strip(" "):
        return "a key with a blank at an end, which is part of it"
    if re.fullmatch(r"""(["']).*\1""", key):
        return "a key in quotes, which are part of it"
    if " #" in key:
        return "a key with '#' after a blank: no comment, but part of it"
    if re.match("= |key ?=", key):
        return "a key that begins with 'key =' or '= ', which is part of it"
    if re.fullmatch("7 ([0-9A-Fa-f]{2}){2,}", key) or is_hidden(key):
        return "a key that looks like Cisco's type 7: it is taken as it stands"
    if len(set(key)) == 1:
        return "a key of one character, alone or repeated"
    return None


def is_hidden(key):
    """Whether Cisco's type 7 makes it of some text, unless it is a number in decimal digits."""
    if key.isdigit() or not re.fullmatch("(0[0-9]|1[0-5])([0-9A-Fa-f]{2})+", key):
        return False
    places = itertools.islice(itertools.cycle(MASK), int(key[:2]), None)
    hidden = bytes(byte ^ mask for byte, mask in zip(bytes.fromhex(key[2:]), places))
    return all(0x20 <= symbol <= 0x7E for symbol in hidden)


def found_line(word, place):
    if place is None:
        return f"{word} may not call"
    name, prefix, line = place
    return f"{word} {name} {prefix} line {line}"


def nearest(devices, address):
    """The device, the prefix and the line of the longest prefix that has the address, or None."""
    if address.version == 6 and address.ipv4_mapped is not None:
        address = address.ipv4_mapped
    places = [
        (device.name, prefix, line)
        for device in devices
        for prefix, line in device.prefixes.items()
        if address in prefix
    ]
    return max(places, key=lambda place: place[1].prefixlen, default=None)


# ---- the text of a file


def read_devices(lines):
    devices = []
    for number, line in enumerate(lines, start=1):
        try:
            take(devices, number, line)
        except Refused as refusal:
            raise Refused(f"{number} {refusal}") from refusal
    for device in devices:
        if not has_way(device):
            raise Refused(f"{device.line} 8 NoKey")
    for device in devices:
        if not device.prefixes:
            raise Refused(f"{device.line} 9 NoAddress")
    return devices


def has_way(device):
    if device.key is None:
        return device.tls is not None and device.old_key is None
    return True


def take(devices, number, line):
    if not is_text(line):
        raise Refused("1 BadLine")
    line = line.lstrip(" ")
    if line == "" or line.startswith("#"):
        return
    word, blank, rest = line.partition(" ")
    if word not in ("device", "at", "key", "old-key", "tls", "connections"):
        raise Refused("1 BadLine")
    if blank == "" and word != "tls":
        raise Refused("1 BadLine")
    if word in ("device", "at", "connections") and " " in rest:
        raise Refused("1 BadLine")
    if word == "device":
        begin(devices, number, rest)
    elif not devices:
        raise Refused("3 NoDevice")
    elif word == "at":
        place(devices, number, rest)
    elif word == "key":
        set_key(devices[-1], number, rest)
    elif word == "old-key":
        set_old_key(devices[-1], number, rest)
    elif word == "tls":
        set_tls(devices[-1], number, rest if blank else None)
    else:
        set_connections(devices[-1], rest)


def begin(devices, number, name):
    if not is_name(name):
        raise Refused("2 BadName")
    if any(device.name == name for device in devices):
        raise Refused("6 Repeated")
    if len(devices) == MOST_DEVICES:
        raise Refused("7 Limit")
    devices.append(Device(name, number))


def place(devices, number, text):
    prefix = prefix_of(text)
    if prefix is None:
        raise Refused("4 BadPrefix")
    if any(prefix in device.prefixes for device in devices):
        raise Refused("6 Repeated")
    if sum(len(device.prefixes) for device in devices) == MOST_PREFIXES:
        raise Refused("7 Limit")
    devices[-1].prefixes[prefix] = number


def set_key(device, number, text):
    if not is_secret(text):
        raise Refused("5 BadValue")
    if device.key is not None:
        raise Refused("6 Repeated")
    if device.old_key is not None and device.old_key.text == text:
        raise Refused("6 Repeated")
    device.key = Key(text, number)


def set_old_key(device, number, text):
    if not is_secret(text):
        raise Refused("5 BadValue")
    if device.old_key is not None:
        raise Refused("6 Repeated")
    if device.key is not None and device.key.text == text:
        raise Refused("6 Repeated")
    device.old_key = Key(text, number)


def set_tls(device, number, name):
    """With certificates of this common name, or with any where the line has none."""
    if name is not None and not 1 <= len(name) <= MOST_COMMON_NAME:
        raise Refused("5 BadValue")
    if device.tls is not None:
        raise Refused("6 Repeated")
    device.tls = "" if name is None else name
    device.tls_line = number


def set_connections(device, text):
    connections = number_of(text, 5)
    if connections is None or not 1 <= connections <= MOST_CONNECTIONS:
        raise Refused("5 BadValue")
    if device.connections is not None:
        raise Refused("6 Repeated")
    device.connections = connections


def address_of(text):
    """The address that a text spells, without a scope, or None."""
    try:
        return None if "%" in text else ipaddress.ip_address(text)
    except ValueError:
        return None


def prefix_of(text):
    front, slash, digits = text.partition("/")
    address = address_of(front)
    if address is None:
        return None
    length = number_of(digits, 3) if slash else address.max_prefixlen
    if length is None or length > address.max_prefixlen:
        return None
    try:
        # A bit after the length is refused.
        prefix = ipaddress.ip_network((int(address).to_bytes(address.max_prefixlen // 8), length))
    except ValueError:
        return None
    return None if prefix.version == 6 and prefix.subnet_of(MAPPED) else prefix
