"""What stands in the place of what is hidden: equal for equal, different for different, and of the same length."""

from __future__ import annotations

import re
import secrets
from functools import lru_cache
from hashlib import shake_256
from typing import Iterable

KEY_LENGTH = 32
# Up to this length strings of bytes are mostly keys, which come again; longer ones are not remembered.
LONGEST_REMEMBERED = 1024
ROUNDS = 10
LETTERS = "ABCDEFGHIJKLMNOPQRSTUVWXYZabcdefghijklmnopqrstuvwxyz0123456789-_"
GUESSED = re.compile("undone-[1-9][0-9]{0,8}")


def fresh_key() -> bytes:
    """A key that nobody has seen."""
    return secrets.token_bytes(KEY_LENGTH)


class Bytes:
    """A permutation of all byte strings of each length: each round can be undone, so that no two become one."""

    def __init__(self, key: bytes) -> None:
        self._key = key
        self._remembered = lru_cache(maxsize=65536)(self._of)

    def of(self, data: bytes) -> bytes:
        """The bytes that stand in the place of these."""
        return self._remembered(data) if len(data) <= LONGEST_REMEMBERED else self._of(data)

    def _of(self, data: bytes) -> bytes:
        half = 4 * len(data)
        whole = int.from_bytes(data, "big")
        # As divmod, which takes seconds for long ones.
        left, right = whole >> half, whole & ((1 << half) - 1)
        for number in range(ROUNDS):
            left, right = right, left ^ self._drawn(number, len(data), right)
        return (left << half | right).to_bytes(len(data), "big")

    def _drawn(self, number: int, length: int, right: int) -> int:
        """As many bits as half of the bytes have, that hang on the key, the round, the length and the other half."""
        width = (length + 1) // 2
        told = self._key + b"bytes" + bytes([number]) + length.to_bytes(4, "big") + right.to_bytes(width, "big")
        return int.from_bytes(shake_256(told).digest(width), "big") & ((1 << 4 * length) - 1)


def texts(key: bytes, values: Iterable[str]) -> dict[str, str]:
    """Another text for each of these, of as many bytes. One that a search gives to what was undone stays as it is, and
    no other becomes one."""
    by_length: dict[int, list[str]] = {}
    for value in sorted(set(values)):
        by_length.setdefault(len(value.encode("utf-8")), []).append(value)
    found: dict[str, str] = {}
    for length, alike in by_length.items():
        found.update(_of_one_length(key, length, alike))
    return found


def is_guessed(text: str) -> bool:
    """Whether a search may give this identifier to an object whose creation was undone."""
    return GUESSED.fullmatch(text) is not None


def _of_one_length(key: bytes, length: int, values: list[str]) -> dict[str, str]:
    """Where there are letters enough, letters; else the texts themselves, each in the place of another."""
    kept = {value: value for value in values if is_guessed(value)}
    others = [value for value in values if value not in kept]
    if 2 * len(others) > len(LETTERS) ** length:
        return {**kept, **dict(zip(others, sorted(others, key=lambda value: _drawn(key, value, 0, 32))))}
    taken: set[str] = set(kept)
    found = dict(kept)
    for value in others:
        tries = 0
        while True:
            text = "".join(LETTERS[byte % len(LETTERS)] for byte in _drawn(key, value, tries, length))
            if text not in taken and not is_guessed(text):
                break
            tries += 1
        taken.add(text)
        found[value] = text
    return found


def _drawn(key: bytes, value: str, tries: int, length: int) -> bytes:
    return shake_256(key + b"texts" + tries.to_bytes(4, "big") + value.encode("utf-8")).digest(length)
