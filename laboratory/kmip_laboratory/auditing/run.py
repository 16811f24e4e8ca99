"""What the word `audit` does: it gathers, judges, looks for the few calls that convict, and reports."""

from __future__ import annotations

import os
from pathlib import Path
from typing import Callable, NamedTuple

from ..auditor import Auditor
from ..blinding.words import blind
from ..judgement import Judgement, Sort
from ..recordings import DECLARATION, TRANSCRIPT, WITNESS
from ..reporting.judging import Asking, Judged
from ..reporting.words import Outputs, make_reports_of
from ..trouble import Trouble, say
from .apart import convicting
from .ending import convicted, note
from .finding import Found, files_in, find
from .gather import Source, gather
from .part import Part
from .segments import audit_segments
from .shrink import shrunk_parts

REPORT, JUNIT = "report.html", "junit.xml"
BLINDED = "blinded"
CONVICTED = 1


class Asked(NamedTuple):
    """What is asked for besides the recording: the folder, the steps of each search, whether the report is printed too,
    and whether a copy is made in which keys and names are others."""

    folder: Path
    budget: int
    has_text: bool = False
    is_blinded: bool = False


def run(found: Source, asked: Asked, auditor: Auditor) -> int:
    """Everything."""
    for line in gather(found, asked.folder):
        print(line, flush=True)
    return conclude(asked, auditor)


def conclude(asked: Asked, auditor: Auditor) -> int:
    """What comes of the files in the folder. The status is 0 where every answer is explained that is judged, 1 where no
    order explains them, 4 where nothing is decided, else what the auditor ended with."""
    folder = asked.folder
    judged = find(files_in(folder), auditor, asked.budget)
    print("\n".join(judged.told()), flush=True)
    asking = Asking(asked.budget, program=auditor.program)
    parts = _parts(judged, asked, auditor)
    shown = [] if judged.said.status == CONVICTED else parts
    _report(lambda: [judged.looked_at(asking)._replace(note=note(shown)), *(part.looked_at(asking) for part in shown)],
            asked)
    if asked.is_blinded:
        print(_blinded(folder, [part.folder for part in parts] or [folder]))
    return CONVICTED if parts else judged.said.status


def _parts(judged: Found, asked: Asked, auditor: Auditor) -> list[Part]:
    """The few calls of each finding that convict by themselves, where there are such; then they are told, and have
    folders."""
    said = judged.said
    if not isinstance(said, Judgement) or said.sort in (Sort.EXPLAINED, Sort.NOTHING_JUDGED):
        return []
    of_findings = convicting if judged.files.declaration is None else shrunk_parts
    parts = of_findings(asked.folder, said, auditor, asked.budget)
    if parts:
        print("\n".join(convicted(parts)), flush=True)
    return parts


def _report(recordings: Callable[[], list[Judged]], asked: Asked) -> None:
    """Makes the page, and what else is asked for. The status is that of the audit, also where nothing can be shown."""
    outputs = Outputs(str(asked.folder / REPORT), str(asked.folder / JUNIT), asked.has_text)
    try:
        make_reports_of(recordings(), outputs)
        print(f"{outputs.page} shows it")
    except Trouble as trouble:
        say(f"no page was made of it: {trouble}")


def run_segments(folder: str, asked: Asked, auditor: Auditor) -> int:
    """The segments of a folder, judged one behind the other, with a page of the last ones where there are any."""
    asking = Asking(asked.budget, program=auditor.program)
    shown, status = audit_segments(folder, asked.folder, asking, asked.budget)
    if shown:
        _report(lambda: shown, asked)
    return status


def _blinded(folder: Path, shown: list[Path]) -> str:
    """Makes the copy of what is to be looked at, the folder or its parts, and answers the line that tells of it."""
    copy = folder / BLINDED
    copy.mkdir(mode=0o700)
    files: list[tuple[str, str]] = []
    for each in shown:
        target = copy / each.relative_to(folder)
        target.mkdir(mode=0o700, exist_ok=True)
        files += [(str(each / name), str(target / name)) for name in (TRANSCRIPT, DECLARATION, WITNESS)
                  if (each / name).exists()]
    told = blind([source for source, _ in files], [target for _, target in files])
    return f"{told}; {copy} has it"


def has_segments(recording: str) -> bool:
    """Whether this is a folder of segments, and not of one recording."""
    if not os.path.isdir(recording) or os.path.exists(os.path.join(recording, TRANSCRIPT)):
        return False
    return any(name.startswith("transcript") and name.endswith(".ttlv") for name in os.listdir(recording))
