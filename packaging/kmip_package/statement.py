"""The statement that goes with a package: what was proved, of which commit, by which kit."""

from __future__ import annotations

import re
import time
from typing import Iterator, NamedTuple, Optional

from . import repository
from .proof import CRATE, digest
from .repository import TOP, Commit
from .trouble import Trouble

FUNCTION = re.compile(r"^ *(?:pub(?:\(\w+\))? )?(?:const )?(?:unsafe )?fn \w", re.MULTILINE)
UNPROVED = """\
NOT PROVED. This package was made to try how packages are made and installed, with a program of which nothing says
that the check passed it. What it prints means nothing. Do not use it.
"""
PROVED = """\
The kit's compiler builds a crate only where it proves that each of its functions is safe, ends, and meets its contract:
what holds of what it is given, and of what it answers. It did so for all crates of which the program is made, as this
commit has them, and the program of this package is what it built of them.
"""
CLOSED = "What the gate printed of each of them at its end, word for word:"
NOT_CLOSED = """\
No run of the gate is noted of this program: `rt run` built it, which proves each crate ahead of that.
"""
REST = """\
What the contracts promise is said in docs/PROOFS.md, and what a yes means in README.md, each in
/usr/share/doc/kmip-audit. Trusted are the kit and the statements of its own crates, the C compiler, the C library, and
that the definitions say what is meant. Nothing is proved of kmip_record, kmip_drive and kmip_report: each verdict that
they tell is the program's.
"""


# What the program tells in the place of its commit, which it can't know while it is built: as long as a commit's name.
NO_COMMIT = b"unknown, since this build has no package"


class Program(NamedTuple):
    """The program as it is packaged, and as it was built, without its commit."""

    packaged: bytes
    built: bytes


class Crate(NamedTuple):
    """A crate, and how many functions its source has."""

    name: str
    functions: int


def with_commit(built: bytes, commit: str) -> bytes:
    """The program that was built, with this commit in the place that it has for it."""
    found = built.count(NO_COMMIT)
    if found > 1 or len(commit) != len(NO_COMMIT):
        raise Trouble(f"the program has {found} places for a commit of {len(NO_COMMIT)} characters, and {commit} is the commit")
    return built.replace(NO_COMMIT, commit.encode())


def text(version: str, commit: Commit, kit: str, program: Program, closing: Optional[dict[str, list[str]]]) -> str:
    """The whole statement; with the lines with which the gate closed each crate, or None where nothing was proved."""
    crates = list(crates_of_program())
    moment = time.strftime("%Y-%m-%dT%H:%M:%SZ", time.gmtime(commit.moment))
    head = [f"kmip-audit {version}: {'NOT PROVED' if closing is None else 'what was proved'}", "",
            f"commit   {commit.name}, of {moment}", f"kit      {kit}",
            f"program  kmip_audit, SHA-256 {digest(program.packaged)}",
            f"built    SHA-256 {digest(program.built)}, without the commit that --version tells", ""]
    rows = [f"  {crate.name:<16}{crate.functions:>6,}" for crate in crates]
    total = sum(crate.functions for crate in crates)
    body = [PROVED, "Crates, with the functions that are written in each:", "", *rows,
            f"  {'together':<16}{total:>6,}", ""]
    lines = [f"  {line}" for crate in crates for line in (closing or {}).get(crate.name, [])]
    body += [CLOSED, "", *lines, ""] if lines else [NOT_CLOSED]
    return "\n".join([*head, *([UNPROVED] if closing is None else body), REST])


def crates_of_program() -> Iterator[Crate]:
    """The program's crate, and all below it, in the order of crates.txt."""
    named = _dependencies()
    needed: set[str] = set()
    waiting = [CRATE]
    while waiting:
        name = waiting.pop()
        if name in named and name not in needed:
            needed.add(name)
            waiting += named[name]
    for name in named:
        if name in needed:
            yield Crate(name, _functions(name))


def _dependencies() -> dict[str, list[str]]:
    """Of each crate those that its line in crates.txt names."""
    lines = (TOP / "crates.txt").read_text("utf-8").splitlines()
    pairs = (line.partition("#")[0].partition(":") for line in lines)
    return {name.split()[0]: rest.split() for name, _, rest in pairs if name.strip()}


def _functions(crate: str) -> int:
    sources = [path for path in repository.files_below(f"crates/{crate}/src") if path.endswith(".rt")]
    return sum(len(FUNCTION.findall((TOP / path).read_text("utf-8"))) for path in sources)
