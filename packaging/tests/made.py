"""What the tests share: packages of the program that is tried, made twice."""

from __future__ import annotations

import os
import subprocess
import sys
import tempfile
from pathlib import Path

TOP = Path(__file__).resolve().parents[2]
PACKAGE = TOP / "scripts/package"
PROGRAM = Path(os.environ["KMIP_AUDIT"])
# The program that the check passes; any other is packaged as one that is not proved.
BUILT = TOP / "crates/kmip_audit/out/kmip_audit"
IS_BUILT = PROGRAM.resolve() == BUILT.resolve()
COMMANDS = ("kmip_audit", "kmip_record", "kmip_drive", "kmip_report")
SECONDS = 900

for _folder in ("laboratory", "packaging"):
    sys.path.insert(0, str(TOP / _folder))


def run(*words: object, **more: object) -> subprocess.CompletedProcess[str]:
    """Runs these words to their end; what they print is kept together."""
    return subprocess.run([str(word) for word in words], stdin=subprocess.DEVNULL, stdout=subprocess.PIPE,
                          stderr=subprocess.STDOUT, text=True, errors="replace", timeout=SECONDS, check=False, **more)


class Packages:
    """Two folders of packages, made one after the other."""

    def __init__(self) -> None:
        self._folder = tempfile.TemporaryDirectory(prefix="packages-")
        self.folders = [Path(self._folder.name, name) for name in ("one", "two")]
        how: list[object] = [] if IS_BUILT else ["--unproved", PROGRAM]
        self.said = [run(PACKAGE, folder, *how) for folder in self.folders]

    def close(self) -> None:
        """Removes them."""
        self._folder.cleanup()

    def files(self) -> list[str]:
        """The names of what was made."""
        return sorted(path.name for path in self.folders[0].iterdir())

    def the(self, suffix: str) -> Path:
        """The one file whose name ends so."""
        found, = self.folders[0].glob(f"*{suffix}")
        return found


_made: list[Packages] = []


def packages() -> Packages:
    """The packages, which are made once for all tests."""
    if not _made:
        _made.append(Packages())
    return _made[0]


def shown(path: Path, *places: tuple[str, ...]) -> str:
    """The text of a file."""
    return path.joinpath(*places).read_text("utf-8")
