"""What the auditor finds in a recording: each answer that is impossible, with all set aside that no rule judges."""

from __future__ import annotations

import time
from pathlib import Path
from typing import NamedTuple, Union

from ..auditor import Auditor
from ..judgement import Judgement
from ..recordings import DECLARATION, TRANSCRIPT, WITNESS
from ..reporting.found import Files
from ..reporting.judging import Asking, Judged, judged_of
from ..verdicts import Verdict

# The declaration that was used, where another one was given.
USED = "used.ttlv"


class Found(NamedTuple):
    """What was found, the files of it, and how long that took."""

    files: Files
    said: Union[Judgement, Verdict]
    seconds: float

    def told(self) -> list[str]:
        """The lines that tell it, and where to look."""
        if isinstance(self.said, Verdict):
            return self.said.printed
        witness = self.files.witness
        return [*self.said.lines, *([f"{witness} is the order that this is told of"] if witness.exists() else [])]

    def looked_at(self, asking: Asking) -> Judged:
        """The same as the report shows it."""
        folder = str(self.files.transcript.parent)
        return judged_of(folder, self.said, self.files, asking)._replace(seconds=self.seconds)


def files_in(folder: Path) -> Files:
    """The files of a recording in a folder. Where none is declared, the declaration that is used is put there."""
    declaration = folder / DECLARATION
    given = declaration if declaration.exists() else None
    return Files(folder / TRANSCRIPT, given, folder / USED if given else declaration, folder / WITNESS)


def find(files: Files, auditor: Auditor, budget: int) -> Found:
    """What is found in a recording. Its witness and the declaration that was used are put beside it."""
    started = time.monotonic()
    said = auditor.judge(str(files.transcript), str(files.declaration) if files.declaration else None,
                         str(files.witness), str(files.used), budget)
    return Found(files, said, time.monotonic() - started)
