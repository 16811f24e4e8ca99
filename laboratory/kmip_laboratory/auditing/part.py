"""A part of a recording: calls that no order explains, in a folder of their own."""

from __future__ import annotations

from pathlib import Path
from typing import NamedTuple, Optional

from ..calls import Transcript
from ..files import write_file
from ..origin import origin_files
from ..recordings import TRANSCRIPT
from ..reporting.judging import Asking, Judged, judge
from .finding import Found

PART = "part"
# Of so many findings, the first ones, a part is looked for.
MOST_FINDINGS = 5


class Part(NamedTuple):
    """Calls that convict by themselves: their folder, their numbers, and the number of the finding that they are of; 0
    where they are of none alone. Where nothing is declared, also what was found in them."""

    folder: Path
    calls: list[int]
    finding: int = 0
    found: Optional[Found] = None

    def looked_at(self, asking: Asking) -> Judged:
        """The same as the report shows it."""
        return self.found.looked_at(asking) if self.found else judge(str(self.folder), asking)


def folder_of(folder: Path, finding: int) -> Path:
    """Where the part of a finding stands."""
    return folder / f"{PART}-{finding}"


def name_source(part: Path, folder: Path, transcript: Transcript) -> None:
    """Says of a part of a sealed transcript, in a file beside it, what it was drawn from."""
    for path, data in origin_files(str(part / TRANSCRIPT), str(folder / TRANSCRIPT), transcript.chain):
        write_file(path, data)
