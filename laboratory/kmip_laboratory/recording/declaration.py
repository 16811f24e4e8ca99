"""The word `declare`: which objects the server holds at the start, and by which rules it goes."""

from __future__ import annotations

from enum import IntEnum
from typing import NamedTuple, Optional

from .. import ttlv
from ..files import write_file
from ..transcript import VERSION
from .rules import Rules, Visibility, spelled

HEADER = 0x540030
UNIQUE_NAMES = 0x540031
ROW = 0x540032
CAUSE = 0x540033
ENTRY = 0x540034
UNJUDGED = 0x540035
TOLERANCE = 0x540036
VISIBILITY = 0x540037
ALLOW_LINE = 0x540038
ACT = 0x540039
ALLOW = 0x54003A
OWN_LINE = 0x54003B
OWNER = 0x54003C
ASIDE_ENTRY = 0x54003D
RESULT_REASON = 0x42007E
STATE = 0x42008D
UNIQUE_IDENTIFIER = 0x420094
ATTRIBUTE_REFERENCE = 0x42013B


class Unjudged(IntEnum):
    """What becomes of what isn't judged: it ends the audit; it is set aside; and so is whatever isn't declared."""

    REFUSED = 1
    SET_ASIDE = 2
    UNKNOWN = 3


class Entry(NamedTuple):
    """An object: what its entry has ahead of its owner, and whose it is, where that is known."""

    children: bytes
    owner: Optional[str] = None


class Held(NamedTuple):
    """What the server held: objects, identifiers that are set aside, and what becomes of what isn't judged."""

    entries: list[Entry]
    aside: list[str] = []
    unjudged: Unjudged = Unjudged.REFUSED


def run(rules: Rules, held: Held, out: str, force: bool) -> str:
    """Writes the declaration, and answers the line that tells of it."""
    records = [
        ttlv.structure(ROW, ttlv.enumeration(RESULT_REASON, row.reason), ttlv.enumeration(CAUSE, row.cause))
        for row in rules.rows
    ]
    records += [
        ttlv.structure(ALLOW_LINE, ttlv.enumeration(ACT, line.act), ttlv.enumeration(STATE, line.state),
                       ttlv.enumeration(ALLOW, line.allow))
        for line in rules.allow_lines
    ]
    records += [ttlv.structure(OWN_LINE, ttlv.enumeration(ATTRIBUTE_REFERENCE, own)) for own in rules.own]
    records += map(_spelled, held.entries)
    records += [ttlv.structure(ASIDE_ENTRY, ttlv.text(UNIQUE_IDENTIFIER, identifier)) for identifier in held.aside]
    write_file(out, _header(rules, held) + b"".join(records), force)
    return ", ".join(_told(rules, held))


def _header(rules: Rules, held: Held) -> bytes:
    """The header of version 1 where that says all of it."""
    unique = ttlv.boolean(UNIQUE_NAMES, rules.unique_names)
    owned = any(entry.owner is not None for entry in held.entries)
    unjudged = _unjudged(rules, held)
    if rules.allow_lines or rules.own or rules.tolerance or owned or unjudged != Unjudged.REFUSED:
        return ttlv.structure(HEADER, ttlv.integer(VERSION, 2), unique, ttlv.enumeration(UNJUDGED, unjudged),
                              ttlv.integer(TOLERANCE, rules.tolerance), ttlv.enumeration(VISIBILITY, rules.visibility))
    return ttlv.structure(HEADER, ttlv.integer(VERSION, 1), unique)


def _unjudged(rules: Rules, held: Held) -> Unjudged:
    """What becomes of what isn't judged: who sees what is judged only where that doesn't end the audit."""
    if rules.visibility != Visibility.everyone and held.unjudged == Unjudged.REFUSED:
        return Unjudged.SET_ASIDE
    return held.unjudged


def _told(rules: Rules, held: Held) -> list[str]:
    """The parts of the line that tells of a declaration."""
    owned = sum(entry.owner is not None for entry in held.entries)
    told = [f"{len(rules.rows)} rows", f"{len(held.entries)} entries"]
    told += [f"{len(held.aside)} set aside"] if held.aside else []
    told += [f"{len(rules.allow_lines)} allow lines"] if rules.allow_lines else []
    told += [f"{len(rules.own)} own lines"] if rules.own else []
    told += [f"{owned} owners"] if owned else []
    told += [f"a tolerance of {rules.tolerance} s"] if rules.tolerance else []
    told += [f"visibility {spelled(rules.visibility)}"] if rules.visibility != Visibility.everyone else []
    told += ["what isn't judged is set aside"] if _unjudged(rules, held) != held.unjudged else []
    told += ["nothing is known of what isn't declared"] if held.unjudged == Unjudged.UNKNOWN else []
    return told


def _spelled(entry: Entry) -> bytes:
    owner = [] if entry.owner is None else [ttlv.text(OWNER, entry.owner)]
    return ttlv.structure(ENTRY, entry.children, *owner)
