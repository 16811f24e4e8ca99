"""Mixes: small text files that say how often each thing is asked. the folder mixes has five."""

from __future__ import annotations

from dataclasses import dataclass
from pathlib import Path

from ..trouble import Trouble

FOLDER = Path(__file__).resolve().parents[1] / "mixes"
SUFFIX = ".mix"

KINDS = ("create", "register-key", "register-secret", "locate", "get", "get-attributes", "activate", "revoke",
         "destroy")
COUNTS: dict[str, int] = {"hot": 4, "names": 4}
SHARES: dict[str, float] = {
    "batch": 0.1,       # of the calls: with several items
    "story": 0.4,       # of the batches: one object from its birth, or one object's life
    "undo": 0.0,        # of the batches: under Undo
    "continue": 0.4,    # of the batches: under Continue
    "unordered": 0.0,   # of the batches: with Batch Order Option False
    "named": 0.6,       # of the new objects: with a name, and of the Locates: by name
    "dated": 0.1,       # of the new objects: with an Activation Date or a Deactivation Date
    "unknown": 0.03,    # of the identifiers: such as no object has
    "gone": 0.08,       # of the identifiers: of destroyed objects
    "old": 0.1,         # of the identifiers: of objects that are not hot
    "all": 0.25,        # of the Get Attributes: without references
    "referenced": 0.8,  # of the attributes that are asked by reference: dates among them
}


@dataclass(frozen=True)
class Mix:
    """The weights of what is asked, and the shares and counts beside them."""

    name: str
    weights: tuple[tuple[str, float], ...]
    shares: dict[str, float]
    counts: dict[str, int]


def there() -> list[str]:
    """The names of the mixes that are there."""
    return sorted(path.stem for path in FOLDER.glob("*" + SUFFIX))


def path_of(words: str) -> Path:
    """The file of the mix with this name, or that is named."""
    return Path(words) if words.endswith(SUFFIX) or "/" in words else FOLDER / (words + SUFFIX)


def find(words: str) -> Mix:
    """The mix with this name, or in this file."""
    path = path_of(words)
    try:
        return read(path.stem, path.read_text("utf-8"), str(path))
    except OSError as error:
        raise Trouble(f"the mix {words} can't be read: {error.strerror}; the mixes that are there: "
                      f"{', '.join(there())}; or give a file whose name ends with {SUFFIX}") from None
    except UnicodeDecodeError:
        raise Trouble(f"the mix {path} is no text in UTF-8") from None


def read(name: str, text: str, place: str) -> Mix:
    """The mix that a text says: a word and a number on each line."""
    weights: dict[str, float] = {}
    shares, counts = dict(SHARES), dict(COUNTS)
    for number, line in enumerate(text.splitlines(), 1):
        words = line.partition("#")[0].split()
        if words:
            _take(words, f"{place} line {number}", weights, shares, counts)
    if not any(weights.values()):
        raise Trouble(f"{place} gives no operation a weight: write lines as `get 20`; operations: {', '.join(KINDS)}")
    return Mix(name, tuple(weights.items()), shares, counts)


def _take(words: list[str], where: str, weights: dict[str, float], shares: dict[str, float],
          counts: dict[str, int]) -> None:
    """Takes one line."""
    try:
        word, said = words
        number = float(said)
    except ValueError:
        raise Trouble(f"{where}: {' '.join(words)!r} is not a word and a number, as `get 20` is") from None
    if word in KINDS and 0 <= number < 1_000_000:
        weights[word] = number
    elif word in SHARES and 0 <= number <= 1:
        shares[word] = number
    elif word in COUNTS and number == int(number) and 1 <= number <= 1_000:
        counts[word] = int(number)
    elif word in SHARES:
        raise Trouble(f"{where}: {word} is a share, from 0 to 1")
    elif word in (*KINDS, *COUNTS):
        raise Trouble(f"{where}: {said} is no number for {word}: weights are from 0 on, {' and '.join(COUNTS)} whole "
                      "numbers from 1 to 1000")
    else:
        known = ", ".join((*KINDS, *SHARES, *COUNTS))
        raise Trouble(f"{where}: {word!r} is no word of a mix; these are: {known}")
