"""Devices' files and addresses that are asked about."""

import ipaddress
from typing import NamedTuple

NAMES = ["core-1", "access", "a", "B.example", "x" * 32, "edge@2"]
BAD_NAMES = ["", "x" * 33, "a/b", "a b"]
KEYS = ["k", "tundra", "wintry-tundra-41", "wide kelp ", "x" * 128, "0123456789abcde", "#", " kelp"]
KEYS += ['"wide-kelp-forest"', "'wide kelp'", '"wide', "kelp'", '"', '""', "kelp # a comment", "kelp#a"]
KEYS += ["# a comment", "= kelp", "=kelp", "key = kelp", "key=kelp", "key kelp", "key =", "keys = kelp"]
KEYS += ["7 02050D480809", "7 02050d48", "7 02050D4", "7 0205", "7 02", "7", "7 kelp", "02050D480809"]
KEYS += ["02050d480809", "02050D48080", "16050D480809", "030752180500", "0205", "02", "12345678901234"]
KEYS += ["070C285F4D06", "15060e1f10", "1234", "00FF", "xxxxxxxxxxxxxxxy", "    "]
BAD_KEYS = ["", "x" * 129, "k\xf6y"]
COMMON_NAMES = ["core-1.example.net", "Access Switches", " a", "x" * 64, "#", "tls"]
BAD_COMMON_NAMES = ["", "x" * 65, "\xe9tage"]
BAD_CONNECTIONS = ["0", "10001", "000001", "four", "-1", "1 2", ""]
LENGTHS = [0, 1, 8, 15, 16, 24, 31, 32, 48, 64, 95, 96, 97, 127, 128, 128, 128]
PLACES = [0, 1, 7, 8, 9, 15, 16, 24, 31]
# Where prefixes begin, so that they have much in common.
ROOTS = {4: ["10.0.0.0", "10.1.0.0", "192.0.2.0", "0.0.0.0", "255.255.255.255"]}
ROOTS[6] = ["2001:db8::", "2001:db8:0:1::", "::", "fe80::", "::fffe:0:0", "64:ff9b::a00:0", "ff::"]
BAD_PREFIXES = ["", "/", "core-1", "10.0.0.0/", "10.0.0.0/33", "10.0.0.1/24", "010.0.0.1", "::1/99"]
BAD_PREFIXES += ["::1/129", "::1/127", "fe80::1%2", "10.0.0.0/0008", "10.0.0", "1::2::3", "12345::"]
BAD_PREFIXES += ["::ffff:1.2.3.4", "::ffff:0:0/96", "10.0.0.0/+8", "10.0.0.0/8/8", "[::1]", "1.2.3.999"]
BAD_WORDS = ["core-1", "10.0.0.0/8", "10.1", "fe80::1%2", "::1::", "01.2.3.4", "10.0.0.1:49", ""]
MOST_WORDS = 20


class Listing(NamedTuple):
    """A devices' file, and the addresses that are asked about."""

    text: bytes
    words: tuple


def listing(choices):
    prefixes = []
    blocks = [block(choices, name, prefixes) for name in names(choices)]
    lines = [line for lines in blocks for line in lines]
    if choices.chance(0.4):
        lines = spoiled(choices, lines)
    text = "".join(f"{line}\n" for line in lines)
    if choices.chance(0.1):
        text = choices.spoiled(text, " #/:.0aZ\t\r\n\xe9\x7f")
    if choices.chance(0.1):
        text = text.removesuffix("\n")
    asked = () if choices.chance(0.3) else tuple(words(choices, prefixes))
    return Listing(text.encode("latin-1"), asked)


def names(choices):
    return choices.sample(NAMES, choices.randrange(len(NAMES)))


def block(choices, name, prefixes):
    """A device that is mostly right, unless its prefixes are there already."""
    settings = ways(choices)
    for _ in range(choices.count(1, 6)):
        text, prefix = drawn_prefix(choices)
        if choices.chance(0.02) or prefix not in prefixes:
            prefixes.append(prefix)
            settings.append(f"at {text}")
    if choices.chance(0.3):
        settings.append(f"connections {choices.choice(['1', '4', '10000', '00009'])}")
    choices.shuffle(settings)
    return [f"device {name}", *(indented(choices, line) for line in settings)]


def ways(choices):
    """A key, tls or both, and perhaps an old key; rarely one without a key."""
    keys = [f"key {choices.choice(KEYS)}"]
    if choices.chance(0.3):
        keys.append(f"old-key {choices.choice(KEYS)}")
    if choices.chance(0.6):
        return keys
    tls = "tls" if choices.chance(0.5) else f"tls {choices.choice(COMMON_NAMES)}"
    if choices.chance(0.5):
        return [*keys, tls]
    return [tls, *keys[1:]] if choices.chance(0.1) else [tls]


def indented(choices, line):
    return " " * choices.choice([0, 0, 0, 1, 4]) + line


def spoiled(choices, lines):
    """With one line more, or one less, in another order, or without some of a kind."""
    at = choices.randrange(len(lines) + 1)
    match choices.randrange(7):
        case 0:
            return lines[:at] + [bad_line(choices)] + lines[at:]
        case 1:
            return lines[:at] + lines[at + 1 :]
        case 2:
            return lines[:at] + lines[at : at + 1] + lines[at:]
        case 3:
            return lines[:at] + [choices.choice(["", "   ", "# device a", "  #"])] + lines[at:]
        case 4:
            again = choices.choice(lines) if lines else "at ::1"
            return lines[:at] + [again] + lines[at:]
        case 5:
            kinds = choices.choice([("key",), ("at",), ("key", "at"), ("key", "old-key"), ("tls",)])
            return [
                line for line in lines if not line.lstrip().startswith(kinds) or choices.chance(0.6)
            ]
    return choices.sample(lines, len(lines))


def bad_line(choices):
    return choices.choice(
        [
            f"device {choices.choice(BAD_NAMES)}",
            f"at {choices.choice(BAD_PREFIXES)}",
            f"key {choices.choice(BAD_KEYS)}",
            f"old-key {choices.choice(BAD_KEYS)}",
            f"tls {choices.choice(BAD_COMMON_NAMES)}",
            f"connections {choices.choice(BAD_CONNECTIONS)}",
            choices.choice(["device", "at", "key", "at ::1 ", "Key k", "keys k", "old-keys k", "x"]),
            choices.choice(["tls", "TLS", "tls-name a", "tlsa", "tls\ta"]),
        ]
    )


# ---- prefixes and addresses


def drawn_prefix(choices):
    """A prefix, and one of the texts that spell it."""
    version = choices.choice([4, 4, 6])
    root = ipaddress.ip_address(choices.choice(ROOTS[version]))
    width = root.max_prefixlen
    length = min(choices.choice(LENGTHS), width)
    bits = nearby(choices, int(root), width) >> (width - length) << (width - length)
    address = address_at(version, bits)
    prefix = ipaddress.ip_network((bits.to_bytes(width // 8, "big"), length))
    if length == width and choices.chance(0.7):
        return written(choices, address), prefix
    digits = choices.choice([str(length), str(length), f"{length:03}"])
    return f"{written(choices, address)}/{digits}", prefix


def nearby(choices, bits, width):
    """The bits with a few of them changed."""
    for _ in range(choices.count(0, 3)):
        bits ^= 1 << choices.choice([*PLACES, width - 1, choices.randrange(width)])
    return bits


def words(choices, prefixes):
    """Up to twenty addresses, within the prefixes or near them; rarely a word that is none."""
    for _ in range(choices.count(1, MOST_WORDS) if choices.chance(0.3) else MOST_WORDS):
        if choices.chance(0.002):
            yield choices.choice(BAD_WORDS)
            continue
        is_near = prefixes and choices.chance(0.9)
        near = beside(choices, choices.choice(prefixes)) if is_near else random_address(choices)
        if near.version == 4 and choices.chance(0.2):
            near = ipaddress.IPv6Address((0xFFFF << 32) | int(near))
        yield written(choices, near)


def beside(choices, prefix):
    """The first or the last address of a prefix, one within it, or one that isn't quite."""
    width, spare = prefix.max_prefixlen, prefix.max_prefixlen - prefix.prefixlen
    bits = int(prefix.network_address)
    match choices.randrange(5):
        case 0:
            bits |= (1 << spare) - 1
        case 1:
            bits |= choices.getrandbits(128) & ((1 << spare) - 1)
        case 2:
            bits ^= 1 << min(spare, width - 1)
        case 3:
            bits = nearby(choices, bits, width)
    return address_at(prefix.version, bits)


def random_address(choices):
    version = choices.choice([4, 6])
    width = 32 if version == 4 else 128
    root = int(ipaddress.ip_address(choices.choice(ROOTS[version])))
    return address_at(version, nearby(choices, root, width))


def address_at(version, bits):
    return ipaddress.IPv4Address(bits) if version == 4 else ipaddress.IPv6Address(bits)


def written(choices, address):
    """One of the texts that spell an address."""
    if address.version == 4:
        return str(address)
    match choices.randrange(5):
        case 0:
            return address.exploded
        case 1:
            return str(address).upper()
        case 2:
            front, low = int(address) >> 32, ipaddress.IPv4Address(int(address) & 0xFFFFFFFF)
            groups = [f"{front >> shift & 0xFFFF:x}" for shift in (80, 64, 48, 32, 16, 0)]
            return f"{':'.join(groups)}:{low}"
    return str(address)
