"""Symbols, names, numbers and lines (docs/DEFINITIONS.md, docs/POLICY.md, docs/CONSOLE.md).

Text is held as str with one character for each byte, whatever the byte is.
"""

FIRST_SYMBOL, LAST_SYMBOL = 0x20, 0x7E
SYMBOLS = [chr(code) for code in range(FIRST_SYMBOL, LAST_SYMBOL + 1)]
DIGITS = "0123456789"
NAME_SYMBOLS = DIGITS + "abcdefghijklmnopqrstuvwxyzABCDEFGHIJKLMNOPQRSTUVWXYZ_-.@"
LONGEST_NAME = 32
LONGEST_SECRET = 128


def text_of(data):
    return data.decode("latin-1")


def bytes_of(text):
    return text.encode("latin-1")


def is_text(text):
    return all(FIRST_SYMBOL <= ord(symbol) <= LAST_SYMBOL for symbol in text)


def is_name(text):
    return 1 <= len(text) <= LONGEST_NAME and all(symbol in NAME_SYMBOLS for symbol in text)


def is_secret(text):
    """Keys of a server are the same texts."""
    return 1 <= len(text) <= LONGEST_SECRET and is_text(text)


def number_of(text, most_digits):
    """The number that 1 to so many decimal digits spell, or None."""
    if not 1 <= len(text) <= most_digits or any(symbol not in DIGITS for symbol in text):
        return None
    return int(text)


def lines_of(text):
    """Lines end in LF; the last may lack it."""
    lines = text.split("\n")
    if lines[-1] == "":
        lines.pop()
    return lines


def percent_form(text):
    if text == "":
        return "%"
    return "".join(
        symbol if 0x21 <= ord(symbol) <= 0x7E and symbol != "%" else f"%{ord(symbol):02X}"
        for symbol in text
    )
