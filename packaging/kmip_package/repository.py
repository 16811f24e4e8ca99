"""What git says of the repository: its commit, whether that is all that is there, and its files."""

from __future__ import annotations

import subprocess
from pathlib import Path
from typing import NamedTuple

from .trouble import Trouble

TOP = Path(__file__).resolve().parents[2]
# What the proofs are of.
PROVED = ("crates", "crates.txt", "HANDLES")


class Commit(NamedTuple):
    """A commit: its name, and when it was made, in seconds of 1970."""

    name: str
    moment: int


def git(*words: str) -> str:
    """What git prints."""
    try:
        done = subprocess.run(["git", *words], cwd=TOP, capture_output=True, text=True, check=True)
    except FileNotFoundError:
        raise Trouble("git is needed, and is not there") from None
    except subprocess.CalledProcessError as error:
        raise Trouble(f"git {' '.join(words)} did not work: {error.stderr.strip()}") from None
    return done.stdout


def commit() -> Commit:
    """The commit that is checked out."""
    name, moment = git("show", "--no-patch", "--format=%H %ct", "HEAD").split()
    return Commit(name, int(moment))


def changed() -> list[str]:
    """What is not as the commit has it, and what is no part of it; what git is told to pass over counts as nothing."""
    return git("status", "--porcelain").splitlines()


def proved_sources() -> list[str]:
    """Names of all that the proofs are of, by what it is: two commits with the same have the same proofs."""
    return [git("rev-parse", f"HEAD:{path}").strip() for path in PROVED]


def files_below(*paths: str) -> list[str]:
    """The files of the commit below these paths."""
    return git("ls-files", "-z", "--", *paths).rstrip("\0").split("\0")
