"""Texts from outside (certificates, messages, file names) as a terminal, a page or a log may have them: on one line,
and without letters that order anything."""

from __future__ import annotations


def plain(words: str) -> str:
    """A text on one line. A letter that is not printable stands as its number: controls of both kinds (ESC, line feed,
    C1), those that turn the direction of writing round, and halves of letters. Done twice it is the same."""
    if words.isprintable():
        return words
    return "".join(letter if letter.isprintable() else f"\\u{{{ord(letter):x}}}" for letter in words)


def plain_lines(words: str) -> str:
    """The same of a text of several lines, which stay lines."""
    return "\n".join(map(plain, words.split("\n")))
