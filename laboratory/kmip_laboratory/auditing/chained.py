"""What `kmip_audit chain` prints (docs/DAYS.md), apart by the files of the folder that it tells of."""

from __future__ import annotations

import re
from typing import Iterable, NamedTuple, Optional

from ..verdicts import Outcome, Verdict, read_verdict

SEGMENT = re.compile(r"transcript(.*)\.ttlv")
FILE = re.compile(r"(?:transcript|declaration).*\.ttlv")
# What stands behind the last file, or in the place of all.
OF_THE_WHOLE = ("chain: ", "sealed: ", "gap: ")
FITS, DIFFERS = "fits: ", "differs: "


class Told(NamedTuple):
    """What is said of one file: its name, and the lines."""

    name: str
    lines: list[str]

    @property
    def verdict(self) -> Optional[Verdict]:
        """The verdict that these lines are; a declaration that fits has none."""
        if self.lines[0].startswith(FITS):
            return None
        if self.lines[0].startswith(DIFFERS):
            return Verdict(Outcome.DIFFERS, self.lines, 1)
        return read_verdict("\n".join(self.lines), 0)


def of_segment(name: str) -> Optional[str]:
    """What stands between the first word of a segment's name and its ending; None of another file's name."""
    found = SEGMENT.fullmatch(name)
    return found[1] if found else None


def read_chain(printed: str, names: Iterable[str]) -> list[Told]:
    """What is said of each of the files with these names, in the order of the lines."""
    files = [name for name in names if FILE.fullmatch(name)]
    told: list[Told] = []
    for line in printed.splitlines():
        name = next((name for name in files if line.startswith(f"{name}: ")), None)
        if name is not None:
            told.append(Told(name, [line[len(name) + 2:]]))
        elif told and not line.startswith(OF_THE_WHOLE):
            told[-1].lines.append(line)
    return told
