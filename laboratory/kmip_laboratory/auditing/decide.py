"""What the auditor decides of a recording, and the few calls in it that convict."""

from __future__ import annotations

from pathlib import Path
from typing import NamedTuple, Optional

from ..auditor import Auditor
from ..calls import Call, read_transcript
from ..files import write_file
from ..recording import order
from ..recordings import DECLARATION, TRANSCRIPT, WITNESS
from ..shrinking.parts import is_plain, read_declaration
from ..shrinking.smallest import shrunk
from ..shrinking.trials import Trials
from ..verdicts import Outcome, Verdict
from .part import PART, name_source

# Calls that convict are looked for by shorter searches than that of the whole.
STEPS_OF_A_PART = 20_000
# So many of the calls that ended last are left out at most, to find an order of the others.
MOST_LEFT_OUT = 40


class Decision(NamedTuple):
    """What was decided. `line` is the auditor's on the whole, of this outcome. Of a recording that no order explains,
    `part` has the calls that none explains already, and `why` is what a check says of one order of them."""

    line: str
    outcome: Outcome
    status: int
    part: list[int]
    why: Optional[Verdict] = None

    @property
    def explained(self) -> bool:
        """A witness was found."""
        return self.status == 0

    @property
    def convicted(self) -> bool:
        """No order explains the recording."""
        return self.why is not None


def decide(folder: Path, auditor: Auditor, budget: int) -> Decision:
    """Searches an order that explains the folder's recording. Where there is none, the folder `part` in it gets the few
    calls that convict already, and the order of them that is checked. A long search comes last: where a short one finds
    no order, a few of the calls mostly convict soon."""
    short = min(budget, STEPS_OF_A_PART)
    found = auditor.search(*_files(folder), short)
    if found.outcome is not Outcome.GAVE_UP:
        return Decision(found.text, found.outcome, found.status, [])
    transcript = read_transcript(str(folder / TRANSCRIPT))
    declaration = read_declaration(str(folder / DECLARATION))
    with Trials(transcript, declaration, False, short, auditor) as trials:
        left = shrunk(trials, transcript.calls)
        if left is None and not found.decides(short) and short < budget:
            found = auditor.search(*_files(folder), budget)
        if left is None and _is_decided(found, budget, transcript.calls):
            left = transcript.calls
        if left is None:
            return Decision(found.text, found.outcome, found.status, [])
        write(folder / PART, trials, left)
        name_source(folder / PART, folder, transcript)
    numbers = [call.number for call in left]
    return Decision(found.text, found.outcome, 1, numbers, auditor.explained("check", *_files(folder / PART)))


def _is_decided(found: Verdict, budget: int, calls: list[Call]) -> bool:
    """Whether the search says that no order explains these calls."""
    return found.outcome is Outcome.GAVE_UP and found.decides(budget) and all(map(is_plain, calls))


def _files(folder: Path) -> tuple[str, str, str]:
    return str(folder / TRANSCRIPT), str(folder / DECLARATION), str(folder / WITNESS)


def write(folder: Path, trials: Trials, calls: list[Call]) -> None:
    """The recording of these calls alone, in a new folder, with an order of them."""
    folder.mkdir()
    for path, data in zip(_files(folder), (*trials.files(calls), order.witness(_order(trials, calls)))):
        write_file(path, data)


def _order(trials: Trials, calls: list[Call]) -> list[int]:
    """An order of calls that goes as far as may be: one that explains the first that ended, as many as it can, and
    behind it the others as they ended."""
    ended = sorted((call for call in calls if call.end is not None), key=lambda call: call.end or 0)
    for count in range(len(ended) - 1, max(0, len(ended) - MOST_LEFT_OUT), -1):
        explained = trials.order(ended[:count])
        if explained is not None:
            return explained + [call.number for call in ended[count:]]
    return [call.number for call in ended]
