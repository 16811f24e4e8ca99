"""Files that are made anew: all of them whole, or none; nothing that is there is written over."""

from __future__ import annotations

import os

from .files import see_that_free, write_file

HINT = "move it away, or give another name"


def refuse_present(paths: list[str]) -> None:
    """Refuses names under which something is there."""
    for path in paths:
        see_that_free(path, hint=HINT)


def write_all(files: list[tuple[str, bytes]]) -> None:
    """Makes these files; where one can't be made, none is."""
    refuse_present([path for path, _ in files])
    made: list[str] = []
    try:
        for path, data in files:
            write_file(path, data, hint=HINT)
            made.append(path)
    except BaseException:
        for path in made:
            os.remove(path)
        raise
