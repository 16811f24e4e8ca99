"""The files that a run makes, held against those that it reads, ahead of all work."""

from __future__ import annotations

import os
from typing import Iterable, Optional, Sequence

from .trouble import WrongWords


def see_apart(outputs: Sequence[str], inputs: Iterable[Optional[str]]) -> None:
    """Refuses an output that is one of the inputs or another output, by its name, behind a link, or as the same file by
    another name. Whoever names one so has mistaken the words, and would lose what can't be had again."""
    read = [path for path in inputs if path]
    for place, output in enumerate(outputs):
        for path in read:
            if _are_one(output, path):
                by = "" if output == path else f", as {path}"
                raise WrongWords(f"{output} is an input too{by}, and would be lost: give the output another name")
        for other in outputs[:place]:
            if _are_one(output, other):
                by = "" if output == other else f", as {other} too"
                raise WrongWords(f"{output} is named for two outputs{by}: give one of them another name")


def _are_one(one: str, other: str) -> bool:
    """Whether these name one file, which is there or would be made."""
    if os.path.realpath(one) == os.path.realpath(other):
        return True
    try:
        return os.path.samefile(one, other)
    except OSError:
        return False
