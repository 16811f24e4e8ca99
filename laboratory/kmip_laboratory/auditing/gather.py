"""The files of an audit, put into a new folder: what was recorded, in the version that is judged, and what the server
is said to have held."""

from __future__ import annotations

from pathlib import Path
from typing import NamedTuple, Optional

from ..files import write_file
from ..recording import declaration, rules
from ..recordings import DECLARATION, TRANSCRIPT
from ..records import read_file
from ..transcript import Reading
from ..translation import run as translation
from ..trouble import Trouble
from ..untranslated import Untranslated


class Source(NamedTuple):
    """What is to be audited: the transcript, and the declaration; or the rules of a server that held nothing. Where
    neither is there nothing is known of the server."""

    transcript: str
    declaration: Optional[str]
    rules: Optional[rules.Rules]


def source(recording: str, declared: Optional[str], is_empty: bool, said: rules.Rules) -> Source:
    """What a transcript is, or the folder of a recording."""
    folder = Path(recording)
    transcript = str(folder / TRANSCRIPT) if folder.is_dir() else recording
    beside = folder / DECLARATION
    if declared is None and not is_empty and folder.is_dir() and beside.is_file():
        declared = str(beside)
    return Source(transcript, declared, said if is_empty else None)


def gather(found: Source, folder: Path) -> list[str]:
    """Makes the folder with its transcript and its declaration, if one is known, and answers the lines that tell of
    them. The files that they come from stay as they are."""
    told: list[str] = []
    data = read_file(found.transcript)
    declared = None if found.declaration is None else read_file(found.declaration)
    try:
        folder.mkdir(mode=0o700)
    except OSError as error:
        raise Trouble(f"{folder} can't be made: {error.strerror}; give --out another name") from None
    if is_older(found.transcript):
        told.append(translation.run(found.transcript, str(folder / TRANSCRIPT)))
    else:
        write_file(str(folder / TRANSCRIPT), data)
    if declared is not None:
        write_file(str(folder / DECLARATION), declared)
    elif found.rules is not None:
        nothing = declaration.Held([])
        told.append(f"declaration: {declaration.run(found.rules, nothing, str(folder / DECLARATION), False)}")
    return told


def is_older(transcript: str) -> bool:
    """Whether a transcript has messages of versions that are translated. One that is malformed has none: what is wrong
    with it the auditor says."""
    seen = Untranslated(transcript)
    try:
        for mark, _ in Reading(transcript).marks():
            seen.take(mark.message)
    except Trouble:
        return False
    return seen.has_some
