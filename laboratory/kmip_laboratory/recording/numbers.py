"""Numbers and versions as people write them, and the words that take them."""

from __future__ import annotations

import argparse
import re

from ..transcript import MOST_CALLS
from ..versions import JUDGED, TRANSLATED, Version


def read_seconds(words: str) -> float:
    """The number of seconds that these words are."""
    try:
        seconds = float(words)
    except ValueError:
        seconds = -1
    if not 0 <= seconds < 86_400:
        raise argparse.ArgumentTypeError(f"{words!r} is no number of seconds from 0 to a day")
    return seconds


def read_milliseconds(words: str) -> int:
    """The number of milliseconds that these words are."""
    if not (words.isascii() and words.isdigit() and int(words) <= 10_000):
        raise argparse.ArgumentTypeError(f"{words!r} is no number of milliseconds from 0 to 10000")
    return int(words)


def read_count(words: str) -> int:
    """The number that these words are, of calls or of connections."""
    if not (words.isascii() and words.isdigit() and 0 < int(words) <= MOST_CALLS):
        raise argparse.ArgumentTypeError(f"{words!r} is no number from 1 to {MOST_CALLS}")
    return int(words)


def read_head(words: str) -> str:
    """The head that these words are, in small digits."""
    if not re.fullmatch("[0-9A-Fa-f]{64}", words):
        raise argparse.ArgumentTypeError(f"{words!r} is no head, which has 64 hexadecimal digits")
    return words.lower()


def read_version(words: str) -> Version:
    """The version that these words are, where a server can be asked in it."""
    versions = {str(version): version for version in (*TRANSLATED, JUDGED)}
    if words not in versions:
        raise argparse.ArgumentTypeError(f"{words!r} is none of the versions {', '.join(versions)}")
    return versions[words]


def add_segment_words(word: argparse.ArgumentParser) -> None:
    """Adds the words that say when a new file is to begin."""
    word.add_argument("--segment-calls", type=read_count, metavar="N", help="begin a new file after so many calls")
    word.add_argument("--segment-seconds", type=read_seconds, metavar="S", help="begin a new file after so long")
