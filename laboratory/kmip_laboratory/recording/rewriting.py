"""A new transcript of an old one, mark by mark; the old one is read alone, and the new one is whole or not there.

Both versions are read; version 1 is written, and a file beside it names a sealed one that it came from.
"""

from __future__ import annotations

from typing import Callable, Optional

from ..files import new_file, write_file
from ..origin import origin_files
from ..transcript import FILE_HEADER, Mark, Reading, spelled


def rewrite(source: str, target: str, change: Callable[[Mark], Optional[Mark]]) -> None:
    """Writes what `change` makes of each mark; nothing where it makes none."""
    reading = Reading(source)
    with new_file(target) as file:
        file.write(FILE_HEADER)
        for mark, record in reading.marks():
            made = change(mark)
            if made is not None:
                file.write(record if made is mark else spelled(made))
        for path, data in origin_files(target, source, reading.chain):
            write_file(path, data)
