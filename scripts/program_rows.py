"""Runs the built program on rows, for the scripts beside it: each has its words, the files that they name, and what is to come of it."""
import os
import subprocess
import sys
import tempfile
from pathlib import Path
from typing import Iterable, NamedTuple

# How many rows that fail are told.
TOLD = 20


class Row(NamedTuple):
    """A run: its name, the words, the files in the folder it runs in, what it prints, its status, and the content of the file `made`, if it makes that.
    More may be printed behind, where only its beginning is looked at."""

    name: str
    words: list[str]
    files: dict[str, bytes]
    printed: str
    status: int
    made: bytes | None = None
    begins: bool = False


def wrong_with(program: str, row: Row) -> str:
    """What is wrong with the program's answer to a row, or nothing."""
    with tempfile.TemporaryDirectory() as folder:
        for name, content in row.files.items():
            Path(folder, name).write_bytes(content)
        done = subprocess.run([program, *row.words], cwd=folder, stdin=subprocess.DEVNULL, capture_output=True)
        left = sorted(set(os.listdir(folder)) - set(row.files))
        made = Path(folder, "made").read_bytes() if left == ["made"] else None
    printed = done.stdout.decode(errors="replace")
    as_wanted = printed.startswith(row.printed) if row.begins else printed == row.printed
    if not as_wanted or done.returncode != row.status:
        return f"{row.name}: printed {printed!r} with status {done.returncode}, in place of {row.printed!r} with {row.status}"
    if made != row.made or left != ["made"] * (row.made is not None):
        return f"{row.name}: left {left}, with another content than wanted"
    return ""


def run_rows(usage: str, rows: Iterable[Row]) -> int:
    """Runs the program that the command line names on each row, or behind -k on those whose names have a text in them; tells those that
    differ and the counts, and answers the status."""
    wanted = sys.argv[3].lower() if len(sys.argv) == 4 and sys.argv[2] == "-k" else ""
    if len(sys.argv) != (4 if wanted else 2) or not os.access(sys.argv[1], os.X_OK):
        print(usage, file=sys.stderr)
        return 64
    program = os.path.abspath(sys.argv[1])
    told = [wrong_with(program, row) for row in rows if wanted in row.name.lower()]
    wrong = [line for line in told if line]
    print("".join(f"{line}\n" for line in wrong[:TOLD]), end="")
    print(f"{len(told) - len(wrong)} passed, {len(wrong)} failed")
    return 1 if wrong or not told else 0
