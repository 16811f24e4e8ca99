"""What is in a package, and where: paths below `usr` on Debian, and below one folder in the tar archive."""

from __future__ import annotations

import re
from pathlib import Path, PurePosixPath
from typing import Iterator, NamedTuple, Sequence

from . import completions, repository
from .archives import PROGRAM, File, gzipped
from .repository import TOP
from .trouble import Trouble

LIBRARY, SHARED, DOCUMENTS = "lib/kmip-audit", "share/kmip-audit", "share/doc/kmip-audit"
LABORATORY = ("kmip_record", "kmip_drive", "kmip_report")
COMMANDS = ("kmip_audit", *LABORATORY)
MIXES = "laboratory/kmip_laboratory/mixes"
# The word that is meant where none is given.
USUAL_WORDS = {"kmip_drive": "drive"}
# Where zsh looks for the completions of packages on Debian, and for those of the machine elsewhere.
ZSH_OF_DEBIAN, ZSH = "share/zsh/vendor-completions", "share/zsh/site-functions"
OF_SYSTEM, ON_PATH = b"#!/usr/bin/python3\n", b"#!/usr/bin/env python3\n"


class Completion(NamedTuple):
    """What bash and zsh are told of a program."""

    name: str
    bash: str
    zsh: str


class Made(NamedTuple):
    """What is packaged beside the repository's files. `day` is that of the commit, as manuals have it."""

    version: str
    day: str
    program: bytes
    statement: str
    completions: list[Completion]


def files(made: Made, of_debian: bool) -> list[File]:
    """All files of a package."""
    return [*_programs(made, of_debian), *_manuals(made), *_completions(made, of_debian), *_documents(made),
            *_examples(), *_beside("pykmip"), *_beside("rules")]


def _read(path: str) -> bytes:
    return (TOP / path).read_bytes()


def _programs(made: Made, of_debian: bool) -> Iterator[File]:
    yield File("bin/kmip_audit", made.program, PROGRAM)
    for name in LABORATORY:
        yield File(f"bin/{name}", link=f"../{LIBRARY}/{name}")
        text = _read(f"laboratory/{name}")
        yield File(f"{LIBRARY}/{name}", text.replace(ON_PATH, OF_SYSTEM, 1) if of_debian else text, PROGRAM)
    for path in repository.files_below("laboratory/kmip_laboratory"):
        yield File(f"{LIBRARY}/{PurePosixPath(path).relative_to('laboratory')}", _read(path))


def _manuals(made: Made) -> Iterator[File]:
    for name in COMMANDS:
        text = _read(f"packaging/man/{name}.1")
        text = text.replace(b"@VERSION@", made.version.encode()).replace(b"@DATE@", made.day.encode())
        yield File(f"share/man/man1/{name}.1.gz", gzipped(text))


def _completions(made: Made, of_debian: bool) -> Iterator[File]:
    for each in made.completions:
        yield File(f"share/bash-completion/completions/{each.name}", each.bash.encode())
        yield File(f"{ZSH_OF_DEBIAN if of_debian else ZSH}/_{each.name}", each.zsh.encode())


def _documents(made: Made) -> Iterator[File]:
    yield File(f"{DOCUMENTS}/STATEMENT", made.statement.encode())
    for path in ("README.md", "SECURITY.md", *repository.files_below("docs")):
        yield File(f"{DOCUMENTS}/{path}", _read(path))
    yield File(f"{DOCUMENTS}/changelog.gz", gzipped(_read("docs/CHANGES.md")))


def _examples() -> Iterator[File]:
    """The examples, where a system that leaves documents out keeps them; the documents lead there."""
    yield File(f"{DOCUMENTS}/examples", link=f"../../{SHARED.rpartition('/')[2]}/examples")
    for path in repository.files_below("examples"):
        yield File(f"{SHARED}/{path}", _read(path))


def _beside(folder: str) -> Iterator[File]:
    """A folder of the laboratory that the documents name: what PyKMIP lacks, with a server of it to try things on; rules that are ready."""
    yield File(f"{DOCUMENTS}/{folder}", link=f"../../{SHARED.rpartition('/')[2]}/{folder}")
    for path in repository.files_below(f"laboratory/{folder}"):
        yield File(f"{SHARED}/{PurePosixPath(path).relative_to('laboratory')}", _read(path))


def completions_of(program: Path) -> Iterator[Completion]:
    """Those of this auditor, and of the laboratory's programs."""
    with completions.Asked() as asked:
        faults = asked.printed(TOP / "laboratory/kmip_drive", "faults").splitlines()
        mixes = [PurePosixPath(path).stem for path in repository.files_below(MIXES)]
        known: dict[str, Sequence[str]] = {"--fault": [line.partition(":")[0] for line in faults], "--mix": mixes}
        for name in COMMANDS:
            said = asked.said(TOP / "laboratory" / name if name in LABORATORY else program)
            words = name, said, known, USUAL_WORDS.get(name, "")
            yield Completion(name, completions.bash(*words), completions.zsh(*words))


def version() -> str:
    """The version on top of docs/CHANGES.md."""
    found = re.search(r"^## (\d+(?:\.\d+)+)$", _read("docs/CHANGES.md").decode(), re.MULTILINE)
    if found is None:
        raise Trouble("docs/CHANGES.md has no heading of a version, as `## 0.1.0`")
    return found[1]
