"""The words of scripts/package, and what is done at each."""

from __future__ import annotations

import argparse
import subprocess
import time
from pathlib import Path
from typing import Optional

from kmip_laboratory.front import Parser, run
from kmip_laboratory.trouble import WrongWords

from . import contents, debian, proof, repository, statement
from .archives import deb, gzipped, sums, tar
from .contents import Made
from .trouble import Trouble

ABOUT = """\
Makes packages of the program that is built, where the check passed it: a Debian package, a tar archive, what was
proved, and the SHA-256 of each. The same commit gives the same bytes.
"""


def main(arguments: Optional[list[str]] = None) -> int:
    """Does what the words say, and answers the status."""
    parser = Parser(prog="scripts/package", description=ABOUT)
    parser.add_argument("folder", nargs="?", type=Path, metavar="OUT", help="a new folder for the packages")
    parser.add_argument("--passed", type=Path, metavar="LOG", help="makes none: notes beside the program that `rt ci`, "
                        "which printed LOG, has just passed it, for a later run")
    parser.add_argument("--unproved", type=Path, metavar="PROGRAM", help="for tests alone: packages this program, and "
                        "says that it is NOT PROVED")
    parser.set_defaults(run=_package)
    return run(parser, arguments)


def _package(said: argparse.Namespace) -> None:
    if (said.folder is None) == (said.passed is None) or (said.passed and said.unproved):
        raise WrongWords("give a folder, or --passed and what `rt ci` printed")
    if said.passed:
        proof.note(said.passed)
        return
    for line in make(said.folder, said.unproved):
        print(line)


def make(folder: Path, unproved: Optional[Path]) -> list[str]:
    """Makes the packages, and answers the lines that tell of them."""
    if unproved is None:
        proof.see_that_passed()
    program = (unproved or proof.PROGRAM).resolve()
    version = contents.version()
    _see_that_version(program, version)
    files = _packages(program, version if unproved is None else f"{version}~unproved", unproved is None)
    try:
        folder.mkdir(parents=True)
    except FileExistsError:
        raise Trouble(f"{folder} is there already: name a new folder") from None
    for name, data in files.items():
        (folder / name).write_bytes(data)
    return [f"{len(data):>12,}  {folder / name}" for name, data in files.items()]


def _see_that_version(program: Path, version: str) -> None:
    """Refuses a program of another version than docs/CHANGES.md has on top."""
    try:
        told = subprocess.run([str(program), "--version"], stdout=subprocess.PIPE, stdin=subprocess.DEVNULL, text=True,
                              check=False, errors="replace").stdout
    except OSError as error:
        raise Trouble(f"{program} can't be run: {error.strerror}") from None
    if told.split()[:2] != ["kmip_audit", version]:
        raise Trouble(f"{program} calls itself {told.strip()[:80]!r}, and docs/CHANGES.md begins with {version}")


def _packages(program: Path, version: str, proved: bool) -> dict[str, bytes]:
    """All files that are made, by their names."""
    commit, built = repository.commit(), program.read_bytes()
    binary = statement.with_commit(built, commit.name)
    closing = proof.closing() if proved else None
    stated = statement.text(version, commit, proof.kit(), statement.Program(binary, built), closing)
    day = time.strftime("%Y-%m-%d", time.gmtime(commit.moment))
    made = Made(version, day, binary, stated, list(contents.completions_of(program)))
    of_debian, of_archive = contents.files(made, of_debian=True), contents.files(made, of_debian=False)
    name = f"kmip-audit_{version}_{debian.ARCHITECTURE}"
    placed = [file._replace(path=f"usr/{file.path}") for file in of_debian]
    found = {f"{name}.deb": deb(debian.control(version, of_debian, binary, proved), placed, commit.moment),
             f"{name}.tar.gz": gzipped(tar(of_archive, commit.moment, f"kmip-audit-{version}")),
             "STATEMENT": stated.encode()}
    return {**found, "SHA256SUMS": sums(list(found.items()), "sha256")}
