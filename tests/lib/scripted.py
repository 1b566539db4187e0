"""What scripts and policies of tests are made of: records, requests with many arguments, tallies."""

STORED = "reply 1 c0030204.00000001.00000005.0000000001\n"
# As many attributes as a subject may have, each as long as it may be.
ATTRIBUTES = [f"a{number:02}=" + "v" * 251 for number in range(64)]


def opened(policy):
    """The beginning of a script with a connection."""
    return f"key k\n{policy}run\nopen 1\n"


def packet(header, body):
    """A packet on connection 1, by the header but for the length."""
    return f"packet 1 {header}.{len(body):08x}.{body.hex()}\n"


def record(kind, user, *arguments):
    """A record on a connection that stays open, of this kind: 2 START, 4 STOP, 8 WATCHDOG."""
    fixed = bytes([kind, 6, 1, 1, 1, len(user), 0, 0, len(arguments)])
    text = user + "".join(arguments)
    return packet("c0030104.00000001", fixed + bytes(map(len, arguments)) + text.encode())


def tally_line(subject, *counts):
    names = ("starts", "stops", "watchdogs", "updates", "open", "elapsed", "drift")
    counted = " ".join(f"{name} {count}" for name, count in zip(names, counts))
    return f"tally {subject} {counted}\n"


def given(service):
    """A group that is given all of these with a service, and a level with a shell."""
    lines = "".join(f"service {service} {attribute}\n" for attribute in ATTRIBUTES)
    return f"policy 3\ngroup ops\n{lines}priv 15\npermit ()\n"


def asked(arguments, flags="00", session=1):
    """A packet in which bob asks by these arguments (RFC 8907, section 6.1)."""
    fixed = f"06010101030400{counted(arguments)}"
    return with_header(f"c00201{flags}.{session:08x}", fixed, "bobtty0" + "".join(arguments))


def granted(arguments, flags="00", session=1):
    """The reply that gives these (section 6.2)."""
    lengths = counted(arguments)
    fixed = f"01{lengths[:2]}00000000{lengths[2:]}"
    return with_header(f"c00202{flags}.{session:08x}", fixed, "".join(arguments))


def counted(arguments):
    """How many there are, and their lengths."""
    return bytes([len(arguments), *map(len, arguments)]).hex()


def with_header(header, fixed, text):
    return f"{header}.{len(fixed) // 2 + len(text):08x}.{fixed}'{text}'"
