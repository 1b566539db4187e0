"""The notation of packets in tests: hexadecimal digits, with dots where these help to read them,
and with texts in single quotes, which represent their bytes."""

WORDS = ("packet", "bytes", "pieces", "reply")


def has_packets(line):
    """Whether a line of a script or of its output has packets, or bytes of them."""
    return line.partition(" ")[0] in WORDS


def spelled(line):
    """The line with packets in plain digits, as a script and its output have them."""
    if not has_packets(line):
        return line
    parts = line.split("'")
    parts[::2] = [part.replace(".", "") for part in parts[::2]]
    parts[1::2] = [part.encode().hex() for part in parts[1::2]]
    return "".join(parts)


def spelled_out(text):
    """The same of all lines of a text."""
    return "\n".join(map(spelled, text.split("\n")))
