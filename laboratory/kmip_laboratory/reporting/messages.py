"""The messages of a transcript as `kmip_audit show` prints them, without what may be a key."""

from __future__ import annotations

import re
from typing import NamedTuple, Optional

from ..auditor import Auditor
from ..hiding import CONTAINERS, is_shown
from ..ttlv import Kind

MARK = re.compile(r"5400(?P<side>[12])0 - Structure")
CALL = re.compile(r"  540011 - Integer (?P<call>-?\d+)")
MESSAGE = "    "
# An item: how far in it stands, its tag and name, its type, and its value where it has one.
ITEM = re.compile(r"(?P<head>(?P<level> *)(?P<tag>[0-9A-F]{6}) [^\"]*? ?(?P<kind>Structure|Text|Bytes|BigInteger|"
                  r"LongInteger))(?: (?P<value>.*))?")
KINDS = {"Structure": Kind.STRUCTURE, "Text": Kind.TEXT, "Bytes": Kind.BYTES, "BigInteger": Kind.BIG_INTEGER,
         "LongInteger": Kind.LONG_INTEGER}
WITH_LENGTH = (Kind.BYTES, Kind.BIG_INTEGER)


class Messages(NamedTuple):
    """Each line once, and of each call the numbers of the lines of its request and of its response."""

    lines: list[str]
    of_call: dict[int, tuple[list[int], list[int]]]


class Hiding:
    """Hides what may be a key, line by line; `with_keys` lets all be seen."""

    def __init__(self, with_keys: bool) -> None:
        self._with_keys = with_keys
        self._container: Optional[int] = None

    def line(self, line: str) -> str:
        """The line, without its value where that is hidden."""
        found = ITEM.fullmatch(line)
        level = len(line) - len(line.lstrip(" "))
        if self._container is not None and level <= self._container:
            self._container = None
        if found is None or self._with_keys:
            return line
        tag, kind, value = int(found["tag"], 16), KINDS[found["kind"]], found["value"] or ""
        if kind is Kind.STRUCTURE:
            if tag in CONTAINERS and self._container is None:
                self._container = level
            return line
        if is_shown(tag, kind, value[1:-1] if kind is Kind.TEXT else value, self._container is not None):
            return line
        length = f"{len(value) // 2} bytes, " if kind in WITH_LENGTH else ""
        return f"{found['head']} ({length}hidden)"


def read_messages(auditor: Auditor, transcript: str, with_keys: bool = False) -> Messages:
    """What the auditor shows of a transcript's messages, without what may be a key unless it is asked for."""
    hiding = Hiding(with_keys)
    known: dict[str, int] = {}
    of_call: dict[int, tuple[list[int], list[int]]] = {}
    side, into = 0, []
    for line in auditor.show_each(transcript, "--messages", "--notes"):
        mark, call = MARK.fullmatch(line), CALL.fullmatch(line)
        if mark:
            side = int(mark["side"]) - 1
        elif call:
            into = of_call.setdefault(int(call["call"]), ([], []))[side]
        elif line.startswith(MESSAGE):
            into.append(known.setdefault(hiding.line(line[len(MESSAGE):]), len(known)))
    return Messages(list(known), of_call)
