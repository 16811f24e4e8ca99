"""The word `shrink` on the command line, and what is done at it."""

from __future__ import annotations

import argparse
from typing import TYPE_CHECKING

from .. import fresh
from ..auditor import Auditor
from ..calls import Call, read_transcript
from ..origin import origin_files
from ..outputs import see_apart
from ..trouble import Trouble, say
from ..untranslated import Untranslated
from .parts import has_effect, is_plain, read_declaration
from .smallest import shrunk
from .trials import Answer, Trials

if TYPE_CHECKING:
    from ..front import Words

HELP = "find the smallest part of a transcript that no order of its calls explains"
BUDGET = 20_000
MOST_TOLD = 20


def add(words: Words) -> None:
    """Adds the word."""
    word = words.add_parser("shrink", help=HELP, description="See docs/SHRINKING.md.")
    word.add_argument("transcript", metavar="TRANSCRIPT")
    word.add_argument("source", metavar="DECLARATION")
    word.add_argument("out", metavar="OUT", help="a new file for the transcript that is left")
    word.add_argument("--declaration", metavar="OUT",
                      help="leave objects out of the declaration too, and make this file")
    word.add_argument("--budget", type=_budget, default=BUDGET, metavar="N",
                      help=f"the most steps of each search ({BUDGET:,})")
    word.set_defaults(run=run)


def _budget(told: str) -> int:
    try:
        number = int(told)
    except ValueError:
        number = -1
    if not 0 <= number <= 1_000_000_000:
        raise argparse.ArgumentTypeError(f"{told!r} is no number of steps from 0 to 1000000000")
    return number


def run(words: argparse.Namespace) -> None:
    """Shrinks a recording into new files, and tells what is left."""
    outs = [words.out] + ([words.declaration] if words.declaration else [])
    auditor = Auditor()
    see_apart(outs, [words.transcript, words.source, auditor.file])
    fresh.refuse_present(outs)
    transcript = read_transcript(words.transcript)
    _tell_untranslated(words.transcript, transcript.calls)
    declaration = read_declaration(words.source)
    with Trials(transcript, declaration, not words.declaration, words.budget, auditor) as trials:
        answer, verdict = trials.answer(transcript.calls)
        if answer is Answer.EXPLAINED:
            raise Trouble(f"an order explains {words.transcript} as it is (kmip_audit search: {verdict.text}): there "
                          "is nothing to shrink")
        found = shrunk(trials, transcript.calls)
        if found is None:
            raise Trouble(_undecided(transcript.calls, words.budget))
        fresh.write_all([*zip(outs, trials.files(found)),
                         *origin_files(words.out, words.transcript, transcript.chain)])
        say(f"{trials.asked} searches were asked for")
        print(_account(found, transcript.calls, trials))


def _tell_untranslated(path: str, calls: list[Call]) -> None:
    untranslated = Untranslated(path)
    for call in calls:
        untranslated.take(call.request)
        untranslated.take(call.response)
    untranslated.tell()


def _account(found: list[Call], calls: list[Call], trials: Trials) -> str:
    numbers = ", ".join(str(call.number) for call in found[:MOST_TOLD]) + (", .." if len(found) > MOST_TOLD else "")
    return (f"{len(found)} of {len(calls)} calls are left: {numbers}\n"
            f"no order explains them; kmip_audit search: {trials.answer(found)[1].text}")


def _undecided(calls: list[Call], budget: int) -> str:
    open_calls = [call.number for call in calls if has_effect(call) and not is_plain(call)]
    found, why = _first_of(open_calls)
    if open_calls:
        return (f"the search decides of no part of these calls: {why} {found} may have changed something, and nobody "
                "knows what; record without broken connections, or shrink a part without them")
    return f"the search decides nothing of these calls within {budget} steps; give more by --budget"


def _first_of(numbers: list[int]) -> tuple[str, str]:
    told = ", ".join(map(str, numbers[:MOST_TOLD])) + (", .." if len(numbers) > MOST_TOLD else "")
    return told, "call" if len(numbers) == 1 else "calls"
