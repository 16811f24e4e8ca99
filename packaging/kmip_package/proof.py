"""Whether the check passed the program that is built.

Two things say so, and nothing else does:

- `rt ci` proved every crate from nothing. It leaves nothing beside the program that says so, so the gate notes it, by
  `scripts/package --passed` and what `rt ci` printed: the note has digests of what was proved and of what was built,
  and the lines with which `rt ci` closed each crate.
- `rt run` proves, builds and runs the program. It leaves a stamp, by which it tells at once that nothing has changed;
  where something has, it proves that first, and what it says is shown.
"""

from __future__ import annotations

import hashlib
import json
import os
import re
import subprocess
import sys
from pathlib import Path

from . import repository
from .repository import TOP
from .trouble import Trouble

CRATE = "kmip_audit"
FOLDER = TOP / "crates" / CRATE
PROGRAM = FOLDER / "out" / CRATE
NOTE, STAMP = FOLDER / "out" / "passed", FOLDER / "out" / f"{CRATE}.stamp"
# Where the kit is, if its command is not on the path.
USUAL_PLACE = "/opt/rattle/bin"
PASSED = re.compile(r"(\d+) passed, 0 failed")
WELL = "rt: ok; handles allowed: "
# How rt begins what it prints of a crate or of its tests, and its own lines; what rattle says last of a crate, and rt.
OF_RT, SAID, CLOSED = ("== ", "rt: "), "logic=", re.compile(r"rt: (\w+) (?:proved|is kept: .*)")
HOW = f"run .ci/run at the top, or `rt run` in crates/{CRATE}"


def rt(*words: str, folder: Path = TOP, shown: bool = False) -> str:
    """What the kit's command prints, which has to succeed; or nothing, where it is shown on standard error."""
    path = os.pathsep.join([os.environ.get("PATH", os.defpath), USUAL_PLACE])
    try:
        done = subprocess.run(["rt", *words], cwd=folder, env={**os.environ, "PATH": path}, stdin=subprocess.DEVNULL,
                              stdout=sys.stderr if shown else subprocess.PIPE, text=True, errors="replace", check=False)
    except FileNotFoundError:
        raise Trouble("the kit's command rt is not on the path: packages are made where the program is "
                      "proved") from None
    if done.returncode != 0:
        raise Trouble(f"rt {' '.join(words)} ended with status {done.returncode}, so nothing is packaged")
    return done.stdout or ""


def kit() -> str:
    """The line that names the kit."""
    return rt("version").strip()


def note(said: Path) -> None:
    """Notes beside the program that `rt ci`, which printed this, passed it."""
    lines = said.read_text("utf-8", "replace").splitlines()
    if not lines or not PASSED.fullmatch(lines[-1]) or not any(line.startswith(WELL) for line in lines):
        raise Trouble(f"{said} does not end as `rt ci` does where everything passed")
    _see_that_nothing_changed()
    NOTE.write_text(json.dumps({**_standing(), "closing": closing_lines(lines)}, indent=1) + "\n", "utf-8")


def closing_lines(printed: list[str]) -> dict[str, list[str]]:
    """Of each crate the lines with which `rt ci` closed it: rattle's of its proofs, if this run made them, and rt's."""
    found: dict[str, list[str]] = {}
    said: list[str] = []
    for line in printed:
        ends = CLOSED.fullmatch(line)
        if ends:
            found[ends[1]] = [*said, line]
        if line.startswith(OF_RT):
            said = []
        elif line.startswith(SAID):
            said = [line]
    return found


def closing() -> dict[str, list[str]]:
    """These lines as they are noted beside the program; none where no run of the gate is noted that was of it."""
    noted = _noted()
    lines = noted.get("closing")
    return lines if isinstance(lines, dict) and _is_of_this(noted) else {}


def see_that_passed() -> None:
    """Refuses a program that nothing says the check passed."""
    _see_that_nothing_changed()
    if PROGRAM.exists() and _is_of_this(_noted()):
        return
    if not STAMP.exists():
        raise Trouble(f"nothing says that the check passed {PROGRAM.relative_to(TOP)} as it stands, made of this "
                      f"commit: {HOW}")
    rt("run", "--", "--version", folder=FOLDER, shown=True)


def _see_that_nothing_changed() -> None:
    changed: list[str] = repository.changed()
    if changed:
        raise Trouble(f"the working tree is not as the commit has it ({changed[0].strip()}): commit first, since a "
                      "package is of a commit")


def _standing() -> dict[str, object]:
    """What a note has: what the proofs are of, by which kit, and the program."""
    return {"sources": repository.proved_sources(), "kit": kit(), "program": digest(PROGRAM.read_bytes())}


def _noted() -> dict[str, object]:
    """What the note says; nothing where there is none, or none that can be read."""
    try:
        noted = json.loads(NOTE.read_text("utf-8"))
    except (OSError, ValueError):
        return {}
    return noted if isinstance(noted, dict) else {}


def _is_of_this(noted: dict[str, object]) -> bool:
    """Whether a note is of the sources, the kit and the program as they are."""
    return bool(noted) and all(noted.get(name) == it for name, it in _standing().items())


def digest(data: bytes) -> str:
    """SHA-256, in hexadecimal digits."""
    return hashlib.sha256(data).hexdigest()
