"""Whether the bytes of a key stand in a text, however they are spelled: as they are, in digits of any usual kind, with
and without prefixes and separators, escaped, from behind, or with the bytes of each group turned round."""

from __future__ import annotations

import re
from math import gcd
from typing import Iterable, Iterator

WINDOW = 8
GROUPS = (2, 4, 8)
LETTERS = "ABCDEFGHIJKLMNOPQRSTUVWXYZ"
# Of each alphabet its digits, whose numbers count from 0 on; a digit stands for as many bits as are needed for all. Of
# the first both cases mean the same.
OF_ONE_CASE = ("01", "0123456789ABCDEF", LETTERS + "234567", "0123456789" + LETTERS[:22])
OF_BOTH_CASES = (LETTERS + LETTERS.lower() + "0123456789+/", LETTERS + LETTERS.lower() + "0123456789-_")
# What stands ahead of each byte in digits, and has digits itself.
PREFIXES = re.compile(r"(?i)0x|\\u00|u\+00|\\x|\\n|\\r|\\t")
ESCAPES = re.compile(r"(?i)\\x([0-9a-f]{2})|%([0-9a-f]{2})|\\u00([0-9a-f]{2})|&#x([0-9a-f]{1,2});|=([0-9a-f]{2})"
                     r"|\\([0-7]{3})|\\([0-7]{1,2})|&#([0-9]{1,3});|\\(.)")
BASES = (16, 16, 16, 16, 16, 8, 8, 10)
ORDERS = {"a": 7, "b": 8, "t": 9, "n": 10, "v": 11, "f": 12, "r": 13, "e": 27}
LONGEST_DECIMAL = 2_500


class Leaks:
    """All windows of so many bytes in secrets."""

    def __init__(self, secrets: Iterable[bytes]) -> None:
        self._windows: set[bytes] = set()
        for secret in secrets:
            self._windows.update(_windows(secret))

    def __bool__(self) -> bool:
        return bool(self._windows)

    def shows(self, text: str) -> bool:
        """Whether a window of a secret stands in a text."""
        if not self._windows:
            return False
        return any(window in self._windows for read in _readings(text) for turned in _turned(read)
                   for window in _windows(turned))


def _windows(data: bytes) -> Iterator[bytes]:
    return (data[place:place + WINDOW] for place in range(len(data) - WINDOW + 1))


def _turned(data: bytes) -> Iterator[bytes]:
    """The bytes; from behind; and with the bytes of each group turned round, wherever the groups begin."""
    if len(data) < WINDOW:
        return
    yield data
    yield data[::-1]
    for size in GROUPS:
        for start in range(size):
            yield b"".join([data[place:place + size][::-1] for place in range(start, len(data), size)])


def _readings(text: str) -> Iterator[bytes]:
    """The bytes that a text may be read as."""
    yield text.encode("utf-8", "replace")
    yield text.encode("latin-1", "ignore")
    yield text.encode("utf-16-be", "replace")
    yield _without_escapes(text)
    bare = PREFIXES.sub("", text)
    for way in (bare, bare[::-1]):
        for alphabet in OF_ONE_CASE:
            yield from _in_digits(way.upper(), alphabet)
        for alphabet in OF_BOTH_CASES:
            yield from _in_digits(way, alphabet)
    yield from _in_decimals(text)


def _without_escapes(text: str) -> bytes:
    """The text with the letters that escapes stand for."""
    def letter(found: re.Match[str]) -> str:
        for group, base in zip(found.groups(), BASES):
            if group is not None:
                return chr(int(group, base) & 0xFF)
        return chr(ORDERS[found[9]]) if found[9] in ORDERS else found[9]

    return ESCAPES.sub(letter, text).encode("latin-1", "ignore")


def _in_digits(text: str, alphabet: str) -> Iterator[bytes]:
    """The bytes that the digits of an alphabet in a text say, whatever stands between them, from each of the first
    digits on."""
    width = (len(alphabet) - 1).bit_length()
    if len(text) * width < 8 * WINDOW:
        return
    bits: dict[str, str] = {digit: f"{number:0{width}b}" for number, digit in enumerate(alphabet)}
    told = "".join([bits[digit] for digit in text if digit in bits])
    for start in range(0, 8 * width // gcd(8, width), width):
        length = (len(told) - start) // 8
        if length >= WINDOW:
            yield int(told[start:start + 8 * length], 2).to_bytes(length, "big")


def _in_decimals(text: str) -> Iterator[bytes]:
    """The bytes that numbers in a text are: one a byte, with and without a sign, or three digits a byte, or one number
    for all."""
    for pattern in (r"\d+", r"-?\d+"):
        yield from _of_bytes([int(told) if len(told) < 5 else 256 for told in re.findall(pattern, text, re.ASCII)])
    digits = re.sub(r"\D", "", text, flags=re.ASCII)
    for start in range(3):
        yield from _of_bytes([int(digits[place:place + 3]) for place in range(start, len(digits) - 2, 3)])
    for found in re.findall(r"\d{17,}", text, re.ASCII):
        if len(found) < LONGEST_DECIMAL:
            number = int(found)
            yield number.to_bytes(number.bit_length() // 8 + 1, "big")


def _of_bytes(numbers: list[int]) -> Iterator[bytes]:
    """The runs of numbers that are bytes, with or without a sign."""
    run = bytearray()
    for number in [*numbers, 256]:
        if -128 <= number < 256:
            run.append(number & 0xFF)
        else:
            yield bytes(run)
            run.clear()
