"""Hashes of passwords: SHA-crypt with SHA-512 (docs/POLICY.md, "Hashes")."""

import functools
import hashlib
import re
from typing import NamedTuple, Optional

SYMBOLS = "./0123456789ABCDEFGHIJKLMNOPQRSTUVWXYZabcdefghijklmnopqrstuvwxyz"
FORM = re.compile(r"\$6\$(?:rounds=([1-9][0-9]*)\$)?([./0-9A-Za-z]{1,16})\$([./0-9A-Za-z]{86})")
FEWEST_ROUNDS, ROUNDS, MOST_ROUNDS = 1_000, 5_000, 999_999
LONGEST_PASSWORD = 128


class Hash(NamedTuple):
    rounds: Optional[int]
    salt: str
    symbols: str

    def __str__(self):
        rounds = "" if self.rounds is None else f"rounds={self.rounds}$"
        return f"$6${rounds}{self.salt}${self.symbols}"

    def passes(self, password):
        if not 1 <= len(password) <= LONGEST_PASSWORD:
            return False
        return crypted(self.rounds or ROUNDS, self.salt, password) == self.symbols


def hash_of(text):
    """The hash that has this text, or None."""
    parts = FORM.fullmatch(text)
    if parts is None:
        return None
    rounds = None if parts[1] is None else int(parts[1])
    if rounds is not None and not FEWEST_ROUNDS <= rounds <= MOST_ROUNDS:
        return None
    return Hash(rounds, parts[2], parts[3])


def made_of(rounds, salt, password):
    """The hash that a password makes."""
    return Hash(rounds, salt, crypted(rounds or ROUNDS, salt, password))


def sha512(*parts):
    return hashlib.sha512(b"".join(parts)).digest()


def repeated(digest, size):
    return (digest * (size // len(digest) + 1))[:size]


@functools.lru_cache(maxsize=100_000)
def crypted(rounds, salt, password):
    """The symbols that a password makes under a salt."""
    salt = salt.encode("ascii")
    size = len(password)
    other = sha512(password, salt, password)
    bits = [other if size >> i & 1 else password for i in range(size.bit_length())]
    digest = sha512(password, salt, repeated(other, size), *bits)
    p = repeated(sha512(password * size), size)
    s = repeated(sha512(salt * (16 + digest[0])), len(salt))
    for i in range(rounds):
        digest = sha512(
            p if i % 2 else digest,
            s if i % 3 else b"",
            p if i % 7 else b"",
            digest if i % 2 else p,
        )
    return in_symbols(digest)


def in_symbols(digest):
    order = [(i, i + 21, i + 42) for i in range(21)]
    turned = [triple[i % 3 :] + triple[: i % 3] for i, triple in enumerate(order)]
    text = "".join(symbols_of(bytes(digest[at] for at in triple), 4) for triple in turned)
    return text + symbols_of(bytes([0, 0, digest[63]]), 2)


def symbols_of(triple, count):
    number = int.from_bytes(triple, "big")
    return "".join(SYMBOLS[number >> 6 * place & 63] for place in range(count))
