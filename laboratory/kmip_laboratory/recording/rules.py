"""Rules of a server: which reasons have a cause, whether names are unique, what a state allows, what the server itself
gives an object at birth, how far moments may be from Time Stamps, and who sees whose objects.

A file of rules says one a line, as the words of `declare` do, without their dashes: `unique-names`,
`reason 0x37=NotFound`, `allow Destroy,Active=not`, `own ActivationDate`, `tolerance 1`, `visibility may-hide`. What
stands behind `#` is for whoever reads it.
"""

from __future__ import annotations

import argparse
from enum import IntEnum
from pathlib import Path
from typing import NamedTuple

from ..trouble import Trouble


class Cause(IntEnum):
    """The causes of the auditor's table."""

    NotFound = 1
    WrongState = 2
    TakenName = 3


class Act(IntEnum):
    """The rows of the auditor's table of states."""

    Get = 1
    GetAttributes = 2
    Activate = 3
    RevokeCompromised = 4
    RevokeOther = 5
    Destroy = 6


class State(IntEnum):
    """The states of an object."""

    PreActive = 1
    Active = 2
    Deactivated = 3
    Compromised = 4
    Destroyed = 5
    DestroyedCompromised = 6


class Allow(IntEnum):
    """What a state says of an operation: it succeeds, it may, or it can't."""

    must = 1
    may = 2
    # `not` is a word of Python
    never = 3


class Own(IntEnum):
    """What a server may give an object by itself at birth, by its tag."""

    Name = 0x420053
    CryptographicAlgorithm = 0x420028
    CryptographicLength = 0x42002A
    CryptographicUsageMask = 0x42002C
    ActivationDate = 0x420001
    DeactivationDate = 0x42002F


class Visibility(IntEnum):
    """Who sees whose objects: each client sees all; the server may hide those of others; or it has to."""

    everyone = 1
    may_hide = 2
    must_hide = 3


NEVER = "not"
LONGEST_TOLERANCE = 86_400
GONE = (State.Destroyed, State.DestroyedCompromised)
# The cells of the auditor's table that no rule frees.
FIXED = {
    Act.Get: GONE,
    Act.GetAttributes: (),
    Act.Activate: tuple(it for it in State if it != State.PreActive),
    Act.RevokeCompromised: (),
    Act.RevokeOther: (State.PreActive, State.Compromised, *GONE),
    Act.Destroy: GONE,
}


class Row(NamedTuple):
    """A refusal with this Result Reason is founded only where this cause holds, or that of another row with it."""

    reason: int
    cause: Cause


class AllowLine(NamedTuple):
    """The server's own word for a cell of the table of states."""

    act: Act
    state: State
    allow: Allow


class Rules(NamedTuple):
    """The rules of a server."""

    unique_names: bool
    rows: list[Row]
    allow_lines: list[AllowLine]
    # How many seconds a moment may be away from the stamp of its answer.
    tolerance: int = 0
    # What the server itself may give an object at birth.
    own: tuple[Own, ...] = ()
    visibility: Visibility = Visibility.everyone


def read_row(words: str) -> Row:
    """The row that NUMBER=CAUSE says; the number is decimal, or hexadecimal behind 0x."""
    number, _, cause = words.partition("=")
    try:
        row = Row(int(number, 0), Cause[cause])
    except (ValueError, KeyError):
        row = Row(-1, Cause.NotFound)
    if not 0 <= row.reason < 2**32:
        causes = ", ".join(cause.name for cause in Cause)
        raise argparse.ArgumentTypeError(f"{words!r} is no NUMBER=CAUSE, as 1=NotFound is one; causes are {causes}")
    return row


def read_allow_line(words: str) -> AllowLine:
    """The line that OPERATION,STATE=WORD says."""
    cell, _, word = words.partition("=")
    act, _, state = cell.partition(",")
    try:
        line = AllowLine(Act[act], State[state], Allow.never if word == NEVER else Allow[word])
    except KeyError:
        acts, states = (", ".join(it.name for it in each) for each in (Act, State))
        raise argparse.ArgumentTypeError(f"{words!r} is no OPERATION,STATE=WORD, as Destroy,Active=not is one; "
                                         f"operations are {acts}; states are {states}; words are must, may, "
                                         "not") from None
    if line.state in FIXED[line.act]:
        raise argparse.ArgumentTypeError(f"{words!r}: an object in state {state} is never open to {act}, and no rule "
                                         "changes that: leave the line out")
    return line


def read_own(words: str) -> Own:
    """What a server may give by itself, by its name."""
    try:
        return Own[words]
    except KeyError:
        raise argparse.ArgumentTypeError(f"{words!r} is nothing that a server gives by itself: that is one of "
                                         f"{', '.join(it.name for it in Own)}") from None


def read_tolerance(words: str) -> int:
    """The seconds that a moment may be away from its stamp."""
    seconds = int(words) if words.isascii() and words.isdecimal() and len(words) < 6 else -1
    if not 0 <= seconds <= LONGEST_TOLERANCE:
        raise argparse.ArgumentTypeError(f"{words!r} is no number of seconds from 0 to {LONGEST_TOLERANCE}")
    return seconds


def spelled(visibility: Visibility) -> str:
    """Who sees whose objects, as a word of `declare` says it."""
    return visibility.name.replace("_", "-")


def read_visibility(words: str) -> Visibility:
    """Who sees whose objects, by that word."""
    for one in Visibility:
        if spelled(one) == words:
            return one
    raise argparse.ArgumentTypeError(f"{words!r} doesn't say who sees whose objects: that is one of "
                                     f"{', '.join(map(spelled, Visibility))}")


def read_file(path: str) -> Rules:
    """The rules that the lines of a file say."""
    try:
        lines = Path(path).read_text("utf-8").splitlines()
    except OSError as error:
        raise Trouble(f"{path} can't be read: {error.strerror}; name a file of rules") from None
    except UnicodeDecodeError:
        raise Trouble(f"{path} is no text in UTF-8: name a file of rules") from None
    unique_names, rows, allow_lines, own, tolerances, visibility = False, [], [], [], [], Visibility.everyone
    for place, line in enumerate(lines, 1):
        word, _, said = line.partition("#")[0].strip().partition(" ")
        try:
            if word == "unique-names" and not said:
                unique_names = True
            elif word == "reason":
                rows.append(read_row(said.strip()))
            elif word == "allow":
                allow_lines.append(read_allow_line(said.strip()))
            elif word == "own":
                own.append(read_own(said.strip()))
            elif word == "tolerance":
                tolerances.append(read_tolerance(said.strip()))
            elif word == "visibility":
                visibility = read_visibility(said.strip())
            elif word:
                raise argparse.ArgumentTypeError(f"{line.strip()!r} is no rule: a line says unique-names, reason "
                                                 "NUMBER=CAUSE, allow OPERATION,STATE=WORD, own ATTRIBUTE, tolerance "
                                                 "SECONDS or visibility WORD")
        except argparse.ArgumentTypeError as trouble:
            raise Trouble(f"{path}, line {place}: {trouble}") from None
    return Rules(unique_names, rows, allow_lines, max(tolerances, default=0), tuple(own), visibility)


def together(files: list[str], said: Rules) -> Rules:
    """The rules of files and of words. A cell has one word, and so has who sees whose objects: two that differ are
    refused. The longest tolerance holds."""
    every = [*map(read_file, files), said]
    lines = [line for rules in every for line in rules.allow_lines]
    cells = {(line.act, line.state): line for line in lines}
    for line in lines:
        if cells[line.act, line.state] != line:
            raise Trouble(f"{line.act.name} in state {line.state.name} has two words: leave one of them away")
    hides = {rules.visibility for rules in every} - {Visibility.everyone}
    if len(hides) > 1:
        raise Trouble("the server may hide objects, and has to: leave one of these words away")
    return Rules(any(rules.unique_names for rules in every), [row for rules in every for row in rules.rows],
                 list(cells.values()), max(rules.tolerance for rules in every),
                 tuple(dict.fromkeys(one for rules in every for one in rules.own)),
                 max(hides, default=Visibility.everyone))
