"""Keys and values: their lengths, their order, and how a line spells them."""

from __future__ import annotations

import re

from ._errors import TooLong

MAX_KEY, MAX_VALUE = 128, 512
# The greatest key.
GREATEST = b"\xff" * MAX_KEY
# A word that is its own bytes: printable, and not taken for hex.
PLAIN = re.compile(rb"(?!0x)[!-~]+")

Pair = tuple[bytes, bytes]


def bytes_in(name: str, data: object) -> bytes:
    """The bytes of a key or a value; text is refused, since it has none before it is encoded."""
    if isinstance(data, bytes):
        return data
    if isinstance(data, (bytearray, memoryview)):
        return bytes(data)
    if isinstance(data, str):
        raise TypeError(f"a {name} is bytes, and {data!r:.60} is str: encode it, by .encode()")
    raise TypeError(f"a {name} is bytes, not {type(data).__name__}")


def is_key(key: bytes) -> bool:
    """Whether a pair may have this key."""
    return 0 < len(key) <= MAX_KEY


def key_in(data: object) -> bytes:
    """The bytes of a key that may be put."""
    key = bytes_in("key", data)
    if not is_key(key):
        raise TooLong("a key has 1 to 128 bytes")
    return key


def value_in(data: object) -> bytes:
    """The bytes of a value that may be put."""
    value = bytes_in("value", data)
    if len(value) > MAX_VALUE:
        raise TooLong("a value has 0 to 512 bytes")
    return value


def word_of(data: bytes) -> bytes:
    """The word of a line that stands for these bytes."""
    return data if PLAIN.fullmatch(data) else b"0x" + data.hex().encode()


def bytes_of(word: str) -> bytes:
    """The bytes that a word of an answer stands for."""
    return bytes.fromhex(word[2:]) if word.startswith("0x") else word.encode()


def after(key: bytes) -> bytes | None:
    """The least key above this one; None above the greatest."""
    return key + b"\0" if len(key) < MAX_KEY else after_all_of(key)


def after_all_of(prefix: bytes) -> bytes | None:
    """The least bytes above all that begin with a prefix; None if there are none."""
    front = prefix.rstrip(b"\xff")
    return front[:-1] + bytes([front[-1] + 1]) if front else None


def lowest(low: bytes) -> bytes | None:
    """The least key at or above these bytes, which may be fewer or more than a key has."""
    if len(low) > MAX_KEY:
        return after(low[:MAX_KEY])
    return low or b"\0"


class Span:
    """The keys of a prefix, from `start` on, below `stop`: those at or above `low` and below
    `high`. Without a bound above `high` is None."""

    def __init__(self, prefix: object, start: object | None, stop: object | None) -> None:
        front = bytes_in("prefix", prefix)
        self.low = front if start is None else max(front, bytes_in("start", start))
        self.high = after_all_of(front)
        if stop is not None:
            bound = bytes_in("stop", stop)
            self.high = bound if self.high is None else min(self.high, bound)

    def is_below(self, key: bytes) -> bool:
        """Whether a key is below the upper bound."""
        return self.high is None or key < self.high
