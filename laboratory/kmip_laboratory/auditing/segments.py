"""The segments of a folder, judged one behind the other as `kmip_audit chain` does, with a page of them."""

from __future__ import annotations

import os
import shutil
import tempfile
from pathlib import Path
from typing import Iterator, NamedTuple, Optional

from ..auditor import Auditor
from ..files import write_file
from ..paths import quoted
from ..recordings import DECLARATION, TRANSCRIPT, WITNESS
from ..records import read_file
from ..reporting.judging import Asking, Judged, judge, unread
from .chained import Told, of_segment, read_chain

WITNESSES = "witnesses"
# So many are shown: those that come last, since the first that is no yes ends a chain.
MOST_SHOWN = 10
NOT_SHOWN = "The {} segments ahead of this one are each a yes, and are not shown."


class Segment(NamedTuple):
    """A segment as it is shown: what the chain said of it, the folder with its files, and from which moment on its
    stamps may be."""

    told: Told
    folder: Path
    since: Optional[str]


def audit_segments(folder: str, made: Path, asking: Asking, budget: int) -> tuple[list[Judged], int]:
    """Judges the segments, prints what the chain prints, and answers those that are shown, with the status. What is
    made goes into the new folder; where no segment was judged there is none."""
    made.mkdir(mode=0o700)
    try:
        witnesses = made / WITNESSES
        witnesses.mkdir(mode=0o700)
        printed, status = Auditor(asking.program).chain(folder, budget, str(witnesses))
        print(printed, end="", flush=True)
        return _shown(Path(folder), made, read_chain(printed, os.listdir(folder)), asking), status
    finally:
        if not any(path.name != WITNESSES for path in made.iterdir()):
            shutil.rmtree(made)


def _shown(folder: Path, made: Path, told: list[Told], asking: Asking) -> list[Judged]:
    """The last of these, and of a declaration that ended the chain what was said of it."""
    segments = [each for each in told if of_segment(each.name) is not None]
    shown = [_judged(segment, asking) for segment in _segments(folder, made, segments, Auditor(asking.program))]
    if len(segments) > len(shown) and shown:
        shown[0] = shown[0]._replace(note=NOT_SHOWN.format(len(segments) - len(shown)))
    ending = told[-1].verdict if told and told[-1] not in segments else None
    if ending:
        words = ["kmip_audit", "chain", quoted(str(folder))]
        shown.append(unread(str(folder / told[-1].name), ending, words, asking))
    return shown


def _segments(folder: Path, made: Path, told: list[Told], auditor: Auditor) -> Iterator[Segment]:
    """The last segments, each with its files in a folder of its own. The declaration of each but the first is what
    those ahead of it leave."""
    with tempfile.TemporaryDirectory(prefix="kmip_record-audit-") as name:
        declaration: Path = folder / DECLARATION
        since: Optional[str] = None
        for place, each in enumerate(told):
            witness = _witness(folder, made / WITNESSES, each.name)
            if place >= len(told) - MOST_SHOWN:
                copied = _copied(made / Path(each.name).stem, folder / each.name, declaration, witness)
                yield Segment(each, copied, since)
            if witness is None:
                return
            left = Path(name, f"left-{place}.ttlv")
            since = auditor.left(str(folder / each.name), str(declaration), str(witness), str(left))
            if since is None:
                return
            declaration = left


def _witness(folder: Path, found: Path, name: str) -> Optional[Path]:
    """The witness of a segment: the one by which it is a yes, or else the one that was given."""
    own = WITNESS.replace(".", f"{of_segment(name)}.")
    return next((path for path in (found / own, folder / own) if path.is_file()), None)


def _copied(made: Path, transcript: Path, declaration: Path, witness: Optional[Path]) -> Path:
    """A new folder with these files, by the names that a recording has."""
    made.mkdir(mode=0o700)
    for name, path in ((TRANSCRIPT, transcript), (DECLARATION, declaration), (WITNESS, witness)):
        if path is not None:
            write_file(str(made / name), read_file(str(path)))
    return made


def _judged(segment: Segment, asking: Asking) -> Judged:
    """A segment as the report shows it. By itself it may be a yes where the chain says no, since its stamps run back
    behind those of the segment ahead of it."""
    judged = judge(str(segment.folder), asking)
    chained = segment.told.verdict
    if chained is None or chained.outcome is judged.verdict.outcome or segment.since is None:
        return judged
    words = [word for word in judged.words if word != "--explain"]
    return judged._replace(verdict=chained, words=[*words, "--not-before", segment.since])
