"""The calls of a finding by themselves, where nothing is declared.

Of a recording in which much goes on at once the auditor suspects what it can't exclude to have come in another order.
Of the few calls about one object it mostly decides.
"""

from __future__ import annotations

import shutil
from pathlib import Path
from typing import Optional

from ..auditor import Auditor
from ..calls import Call, Transcript, read_transcript
from ..files import write_file
from ..judgement import Judgement, Sort
from ..recordings import TRANSCRIPT
from .about import about, without_others
from .finding import Found, files_in, find
from .part import MOST_FINDINGS, Part, folder_of, name_source

# No more calls than these are judged by themselves.
MOST_CALLS = 2_000


def convicting(folder: Path, found: Judgement, auditor: Auditor, budget: int) -> list[Part]:
    """For the first findings in the folder's recording the calls about each of which the auditor decides by themselves
    that no order explains them; a folder in it gets them. Calls that are those of another finding stand there once."""
    transcript = read_transcript(str(folder / TRANSCRIPT))
    parts: list[Part] = []
    tried: list[list[Call]] = []
    looked_at = 0
    for place, finding in enumerate(found.findings, 1):
        calls = about(finding, transcript.calls)
        if calls is None or looked_at == MOST_FINDINGS:
            continue
        choices = [each for each in (without_others(finding, found.findings, calls), calls)
                   if len(each) <= MOST_CALLS and each not in tried]
        tried += choices
        looked_at += bool(choices)
        made = (_judged(folder_of(folder, place), transcript, each, auditor, budget) for each in choices)
        decided = next((each for each in made if each), None)
        if decided:
            name_source(folder_of(folder, place), folder, transcript)
            parts.append(Part(folder_of(folder, place), decided[0], place, decided[1]))
    return parts


def _judged(folder: Path, transcript: Transcript, calls: list[Call], auditor: Auditor,
            budget: int) -> Optional[tuple[list[int], Found]]:
    """These calls in a new folder, with what is found in them, where they convict by themselves."""
    marks = [(call.begin, call.marks[0]) for call in calls]
    marks += [(call.end, call.marks[1]) for call in calls if call.end is not None]
    folder.mkdir(mode=0o700)
    files = files_in(folder)
    write_file(str(files.transcript), transcript.header + b"".join(mark for _, mark in sorted(marks)))
    found = find(files, auditor, budget)
    if isinstance(found.said, Judgement) and found.said.sort is Sort.CONVICTED:
        return [call.number for call in calls], found
    shutil.rmtree(folder)
    return None
