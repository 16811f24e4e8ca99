"""The word `sift`: one pass to sort the calls, and one to write those that are kept."""

from __future__ import annotations

from typing import Optional

from ..files import see_that_free
from ..recording.calls import calls_in
from ..recording.rewriting import rewrite
from ..transcript import Begin, Mark
from ..trouble import say
from ..ttlv import NotTtlv
from ..untranslated import Untranslated
from .forgetting import places_of, request_without, response_without
from .sorting import Sorted


def table(source: str, also: frozenset[int]) -> list[str]:
    """How many calls of each sort, operation, version and client there are."""
    calls, untranslated = Sorted(also), Untranslated(source)
    for call in calls_in(source):
        untranslated.take(call.request)
        untranslated.take(call.response)
        calls.take(call, call.asked(), call.answered())
    calls.settle()
    untranslated.tell()
    return calls.table_lines() + calls.impossible_lines() + calls.unknown_lines()


class Sifting:
    """What is left out of a transcript, and what of an answer."""

    def __init__(self, source: str, also: frozenset[int], forgotten: frozenset[int]) -> None:
        self.calls = Sorted(also)
        self.changed = 0
        self._forgotten = forgotten
        self._places: dict[int, list[int]] = {}
        self.untranslated = Untranslated(source)
        for call in calls_in(source):
            self.untranslated.take(call.request)
            self.untranslated.take(call.response)
            asked, answered = call.asked(), call.answered()
            self.calls.take(call, asked, answered)
            places = [] if call.number in self.calls.dropped else places_of(asked, answered)
            if places:
                self._places[call.number] = places
        self.calls.settle()

    def mark(self, mark: Mark) -> Optional[Mark]:
        """The mark as it is to stay, if it is. A message that is no TTLV within stays, and the auditor tells it."""
        if mark.call in self.calls.dropped:
            return None
        places = self._places.get(mark.call)
        if not places:
            return mark
        without = request_without if isinstance(mark, Begin) else response_without
        try:
            made = without(mark.message, places, self._forgotten)
        except NotTtlv:
            return mark
        if made == mark.message:
            return mark
        self.changed += 1
        return mark._replace(message=made)


def run(source: str, target: str, also: frozenset[int], forgotten: frozenset[int]) -> str:
    """Writes the transcript of what is left, tells the account of it, and answers its summary."""
    see_that_free(target)
    sifting = Sifting(source, also, forgotten)
    rewrite(source, target, sifting.mark)
    sifting.untranslated.tell()
    for cause, count in sifting.calls.causes.most_common():
        say(f"left out: {count} calls, {cause}")
    if sifting.changed:
        say(f"attributes were taken out of {sifting.changed} messages of Get Attributes")
    for line in sifting.calls.impossible_lines() + sifting.calls.unknown_lines():
        say(line)
    return f"{sifting.calls.kept} calls kept, {len(sifting.calls.dropped)} left out"
