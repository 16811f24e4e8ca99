"""Which wrong bodies were judged before, of the same crate over the same crates, tool and kit; the file scripts/judged tells it.

It has a line a crate: its name, how many of its bodies were refused, what that took of a processor in seconds, and a digest of all that the
judgement rests on. A crate whose digest differs is judged again, and so is one in twenty of the bodies of the others, picked by the commit.
Of the crates below a crate that is what they state, since a proof knows nothing else of them: not the bodies of their functions, nor the proofs of these.
"""
from __future__ import annotations

import hashlib
import subprocess
from dataclasses import dataclass
from pathlib import Path

from edit_checks import PARTS, Crate, kit_folder
from edit_files import functions_of

NAME = "scripts/judged"
# Of the bodies of a crate that was judged, one in so many is judged again.
ONE_IN = 20
TOOL = ("wrong-bodies", "edit_checks.py", "edit_files.py")
# Files of a function's own proof, which no other proof can name.
OWN_PROOF = ("Answers.antt", "Invariants.antt", "Proof.antt")
HEAD = "# Wrong bodies that were refused, crate by crate; scripts/wrong-bodies --note writes it.\n"


@dataclass(frozen=True)
class Judged:
    """What is noted of a crate: how many bodies were refused, in how many seconds of a processor, and the digest of what that rests on."""

    bodies: int
    seconds: int
    digest: str


def read_judged(root: Path) -> dict[str, Judged]:
    """What the file of a repository tells, by crate; nothing where there is none."""
    file = root / NAME
    lines = file.read_text(encoding="utf-8").splitlines() if file.is_file() else []
    rows = [it.split() for it in lines if it and not it.startswith("#")]
    return {name: Judged(int(bodies), int(seconds), digest) for name, bodies, seconds, digest in rows}


def write_judged(root: Path, judged: dict[str, Judged]) -> None:
    """Writes the file, a line a crate, by name."""
    lines = [f"{name} {it.bodies} {it.seconds} {it.digest}\n" for name, it in sorted(judged.items())]
    (root / NAME).parent.mkdir(exist_ok=True)
    (root / NAME).write_text(HEAD + "".join(lines), encoding="utf-8")


def digest_of(crate: Crate) -> str:
    """The digest of all that the judgement of a crate's bodies rests on: its files, what the crates below it state, the tool, the kit."""
    here, kit = Path(__file__).resolve().parent, kit_folder()
    told = hashlib.sha256((kit / "KIT-ID").read_bytes())
    for name in TOOL:
        told.update((here / name).read_bytes())
    for it in [*crate.all_below(), crate]:
        told.update(f"\n{it.name}: {' '.join([*sorted(one.name for one in it.below), *sorted(it.of_kit)])}\n".encode())
        parts = [*PARTS, "wrong-bodies"] if it is crate else PARTS
        for file in sorted(one for part in parts for one in (it.folder / part).rglob("*") if one.is_file()):
            path = file.relative_to(it.folder).as_posix()
            if it is crate or file.name not in OWN_PROOF:
                told.update(f"{path}\n".encode())
                told.update(hashlib.sha256(file.read_bytes() if it is crate else stated_in(file, path)).digest())
    return told.hexdigest()


def stated_in(file: Path, path: str) -> bytes:
    """What a file of a crate, at this path below it, states for the crates above: a source without the bodies of its functions, else all of it."""
    if file.suffix != ".rt":
        return file.read_bytes()
    text = file.read_text(encoding="utf-8")
    lines = text.split("\n")
    for it in reversed(functions_of(text, path)):
        del lines[it.body + 1 : it.last]
    return "\n".join(lines).encode()


def picked_again(root: Path, crate: Crate) -> list[str]:
    """The bodies of a crate that was judged which are judged again: one in twenty, picked by the commit."""
    words = ["git", "-C", str(root), "rev-parse", "HEAD"]
    commit = subprocess.run(words, stdout=subprocess.PIPE, stderr=subprocess.DEVNULL, check=False).stdout.decode().strip()
    names = sorted(it.stem for it in (crate.folder / "wrong-bodies").glob("*.edit"))
    return [it for it in names if hashlib.sha256(f"{commit} {crate.name}/{it}".encode()).digest()[0] % ONE_IN == 0]
