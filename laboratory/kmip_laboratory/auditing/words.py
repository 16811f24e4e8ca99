"""The word `audit` on the command line, and what is done at it."""

from __future__ import annotations

import argparse
from pathlib import Path
from typing import TYPE_CHECKING, Optional

from ..auditor import Auditor
from ..files import see_that_free
from ..outputs import see_apart
from ..recording import rules
from ..trouble import Trouble, WrongWords
from .gather import source
from .run import Asked, has_segments, run, run_segments

if TYPE_CHECKING:
    from ..front import Words

HELP = "from a recording to what came out, with its page: explained, convicted by few calls, or undecided"
BUDGET = 1_000_000
ENDING = ".audit"
# The status of trouble with files, as the auditor's own.
DEVICE = 3


def add(words: Words) -> None:
    """Adds the word."""
    word = words.add_parser("audit", help=HELP, description="See docs/RECORDING.md.")
    word.add_argument("recording", metavar="RECORDING", help="a transcript, of whatever version; the folder of one "
                      "with its declaration; or a folder of segments")
    held = word.add_mutually_exclusive_group()
    held.add_argument("--declaration", metavar="FILE", help="what the server held ahead of it (the folder's own)")
    held.add_argument("--empty", action="store_true", help="the server held nothing ahead of it")
    word.add_argument("--rules", metavar="FILE", action="append", default=[], help="with --empty, a file of the "
                      "server's rules; may be repeated")
    word.add_argument("--out", metavar="FOLDER", help=f"a new folder for what is made (RECORDING{ENDING})")
    word.add_argument("--blind", action="store_true", help="make a copy besides in which keys and texts are others")
    word.add_argument("--text", action="store_true", help="print the report in 80 columns too")
    word.add_argument("--budget", type=_budget, default=BUDGET, metavar="N",
                      help=f"the most steps of a search ({BUDGET:,})")
    word.set_defaults(run=_audit, trouble=DEVICE)


def _budget(told: str) -> int:
    if not told.isdecimal() or int(told) > 4_000_000_000:
        raise argparse.ArgumentTypeError(f"{told!r} is no number of steps from 0 to 4000000000")
    return int(told)


def _audit(words: argparse.Namespace) -> int:
    auditor = Auditor()
    if has_segments(words.recording):
        return _audit_segments(words, auditor)
    if words.rules and not words.empty:
        raise WrongWords("--rules are those of a server that held nothing, with --empty: a declaration has its own")
    said = rules.together(words.rules, rules.Rules(False, [], [], 0))
    found = source(words.recording, words.declaration, words.empty, said)
    folder = _new_folder(words)
    _see_new(folder, [found.transcript, found.declaration, *words.rules])
    return run(found, Asked(folder, words.budget, words.text, words.blind), auditor)


def _audit_segments(words: argparse.Namespace, auditor: Auditor) -> int:
    """Segments have their declaration in their folder, and are blinded one by one."""
    named = [name for name in ("declaration", "empty", "rules", "blind") if getattr(words, name)]
    if named:
        raise WrongWords(f"{words.recording} is a folder of segments, which `kmip_audit chain` judges by the "
                         f"declaration in it: leave --{named[0]} away")
    folder = _new_folder(words)
    _see_new(folder, [words.recording])
    return run_segments(words.recording, Asked(folder, words.budget, words.text), auditor)


def _new_folder(words: argparse.Namespace) -> Path:
    return Path(words.out or words.recording.rstrip("/").removesuffix(".ttlv") + ENDING)


def _see_new(folder: Path, read: list[Optional[str]]) -> None:
    """Refuses a folder that is there, or that is one of the files which are read."""
    see_apart([str(folder)], read)
    try:
        see_that_free(str(folder))
    except Trouble as trouble:
        raise Trouble(f"{trouble}, by --out") from None
