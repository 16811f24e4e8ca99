"""Names of files as people are told them, and as a shell takes them: also those that are no UTF-8."""

from __future__ import annotations

import os
import shlex
import stat

from .trouble import Trouble


def shown(path: str) -> str:
    """The name as a text; bytes of it that are no UTF-8 stand as `\\xNN`."""
    return os.fsencode(path).decode("utf-8", "backslashreplace")


def quoted(word: str) -> str:
    """The word as bash takes it."""
    if shown(word) == word:
        return shlex.quote(word)
    letters = word.replace("\\", "\\\\").replace("'", "\\'")
    return f"$'{shown(letters)}'"


def see_plain(path: str) -> None:
    """Refuses what is no plain file, where something is there: a pipe would be waited for, and is read once alone."""
    try:
        mode = os.stat(path).st_mode
    except OSError:
        return
    if not stat.S_ISREG(mode):
        raise Trouble(f"{shown(path)} is no plain file: put the file itself there")
