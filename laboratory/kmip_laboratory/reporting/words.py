"""The command line of kmip_report."""

from __future__ import annotations

import argparse
import os
from concurrent.futures import ProcessPoolExecutor
from datetime import datetime
from functools import partial
from typing import NamedTuple, Optional

from .. import fresh
from ..auditor import Auditor
from ..files import see_that_free, write_file
from ..front import Parser, run
from ..outputs import see_apart
from ..recordings import DECLARATION, TRANSCRIPT, WITNESS
from ..trouble import hush
from . import junit, page, text
from .judging import USUAL_SECONDS, Asking, Judged, find, judge, moment_of_making

ALL_WELL, CONVICTED, TROUBLE_OF_REPORT, UNDECIDED = 0, 1, 3, 4


def main(arguments: Optional[list[str]] = None) -> int:
    """Makes the report, and answers the status."""
    return run(_parser(), arguments)


class Outputs(NamedTuple):
    """What is made of one recording: the page, a test case for JUnit where its file is named, and the text where it
    is asked for."""

    page: str
    junit: Optional[str] = None
    has_text: bool = False


def make_reports(folder: str, asking: Asking, outputs: Outputs) -> None:
    """Makes the page of one recording and what else is asked for, as new files, and prints the text."""
    make_reports_of([judge(folder, asking)], outputs)


def make_reports_of(recordings: list[Judged], outputs: Outputs) -> None:
    """The same of recordings that were judged."""
    made = moment_of_making(os.environ.get("SOURCE_DATE_EPOCH"))
    files = [(outputs.page, page.page(recordings, made).encode("utf-8"))]
    if outputs.junit:
        files.append((outputs.junit, junit.told(recordings).encode("utf-8")))
    fresh.write_all(files)
    if outputs.has_text:
        print(text.told(recordings, made))


def _report(words: argparse.Namespace) -> int:
    folders = find(words.recordings)
    _see_outputs(words, folders)
    recordings = _judged(folders, words)
    made = moment_of_making(os.environ.get("SOURCE_DATE_EPOCH"))
    _write(words, recordings, made)
    return _tell(recordings, made if words.text else None)


def _see_outputs(words: argparse.Namespace, folders: list[str]) -> None:
    """Refuses files that can't be made as they are named: over what is read, over each other, or over what is there."""
    outs = [path for path in (None if words.out == "-" else words.out, words.junit) if path]
    files = [os.path.join(folder, name) for folder in folders for name in (TRANSCRIPT, DECLARATION, WITNESS)]
    see_apart(outs, [*words.recordings, *folders, *files, Auditor().file])
    if not words.force:
        fresh.refuse_present(outs)
        return
    for path in outs:
        see_that_free(path, force=True)


def _tell(recordings: list[Judged], made: Optional[datetime]) -> int:
    """Prints what came out, in full where the moment is told, up to the last line, or as long as somebody reads it;
    answers the status."""
    yes = sum(judged.is_explained for judged in recordings)
    try:
        if made is not None:
            print(text.told(recordings, made))
        print(f"{len(recordings)} recordings: {yes} yes, {len(recordings) - yes} not", flush=True)
    except BrokenPipeError:
        hush()
    if any(judged.is_convicted for judged in recordings):
        return CONVICTED
    return ALL_WELL if yes == len(recordings) else UNDECIDED


def _parser() -> Parser:
    parser = Parser(prog="kmip_report",
                    description="What kmip_audit says of recordings, as one page: see docs/REPORT.md.")
    parser.set_defaults(run=_report, trouble=TROUBLE_OF_REPORT)
    parser.add_argument("out", metavar="OUT.html", help="the page; - for none")
    parser.add_argument("recordings", nargs="+", metavar="RECORDING",
                        help="a folder with transcript.ttlv, declaration.ttlv and, unless a search is to find one, "
                        "witness.ttlv; or a folder of such folders")
    parser.add_argument("--junit", metavar="FILE", help="write a test case for each recording, as JUnit's XML")
    parser.add_argument("--text", action="store_true", help="print the report in 80 columns too")
    parser.add_argument("--jobs", type=_jobs, default=os.cpu_count() or 1, metavar="N",
                        help="recordings judged at once")
    parser.add_argument("--force", action="store_true", help="write over files that are there")
    parser.add_argument("--keys", action="store_true", help="show keys, passwords and all other values too")
    parser.add_argument("--others", action="store_true",
                        help="search too where a witness is refused: whether another order explains the calls")
    parser.add_argument("--budget", type=int, metavar="N", help="the most steps of a search")
    parser.add_argument("--seconds", type=_seconds, default=USUAL_SECONDS, metavar="S",
                        help=f"how long each run of the auditor may take ({USUAL_SECONDS})")
    return parser


def _jobs(told: str) -> int:
    if not told.isdecimal() or int(told) < 1:
        raise argparse.ArgumentTypeError(f"{told!r} is no number of recordings at once, as 4 is one")
    return int(told)


def _seconds(told: str) -> float:
    try:
        seconds = float(told)
    except ValueError:
        seconds = 0.0
    if not 0 < seconds < 1_000_000:
        raise argparse.ArgumentTypeError(f"{told!r} is no number of seconds, as {USUAL_SECONDS} is one")
    return seconds


def _judged(folders: list[str], words: argparse.Namespace) -> list[Judged]:
    asking = Asking(words.budget, words.others, words.seconds, with_keys=words.keys)
    if len(folders) == 1:
        return [judge(folders[0], asking)]
    with ProcessPoolExecutor(min(words.jobs, len(folders))) as pool:
        return list(pool.map(partial(judge, asking=asking), folders))


def _write(words: argparse.Namespace, recordings: list[Judged], made: datetime) -> None:
    """Writes the files that are asked for: all or, where nothing may be written over, none."""
    files = []
    if words.out != "-":
        files.append((words.out, page.page(recordings, made).encode("utf-8")))
    if words.junit:
        files.append((words.junit, junit.told(recordings).encode("utf-8")))
    if not words.force:
        fresh.write_all(files)
        return
    for path, data in files:
        write_file(path, data, force=True)
