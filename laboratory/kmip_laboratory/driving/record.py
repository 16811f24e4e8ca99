"""The folder of a recording: a transcript, and a declaration of what the server held at the start."""

from __future__ import annotations

import shutil
from contextlib import contextmanager
from pathlib import Path
from typing import Iterator

from ..recording import declaration, rules
from ..recording.resealing import new_chain
from ..recordings import DECLARATION, TRANSCRIPT
from ..transcript_writer import TranscriptWriter
from ..trouble import Trouble, say
from .drive import JUDGED
from .messages import Version


@contextmanager
def recording(folder: Path, version: Version, is_sealed: bool) -> Iterator[TranscriptWriter]:
    """A transcript in a new folder, which is not left there where no call was recorded."""
    try:
        folder.mkdir(parents=True)
    except FileExistsError:
        raise Trouble(f"{folder} is there already, and recorded calls can't be had again: name a new folder") from None
    except OSError as error:
        raise Trouble(f"{folder} can't be made: {error.strerror}; name another folder") from None
    if version != JUDGED:
        say(f"version {version[0]}.{version[1]} is written as 2.1 in the transcript: what is judged then is not quite "
            "what was said")
    transcript = TranscriptWriter(str(folder / TRANSCRIPT), chain=new_chain() if is_sealed else None)
    try:
        with transcript:
            yield transcript
    except BaseException:
        if transcript.calls == 0:
            shutil.rmtree(folder)
        raise


def declare(folder: Path, unique_names: bool, rows: list[rules.Row]) -> None:
    """A declaration that the server was empty."""
    declaration.run(rules.Rules(unique_names, rows, []), declaration.Held([]), str(folder / DECLARATION), False)
