"""Faults of Locate: the list is not that of the objects that fit."""

from __future__ import annotations

from dataclasses import replace

from ..engine import Call
from ..messages import Answer, Ask, Attribute
from ..numbers import Tag
from ..store import Thing
from .base import Fault

LAG = 2


class LaggingIndex(Fault):
    """A Locate by an index that does not yet have the newest objects."""

    mix = "locate"

    def candidates(self, call: Call) -> list[Thing]:
        found = super().candidates(call)
        return found[LAG:] if found and self.strikes() else found


class StaleStateIndex(Fault):
    """A Locate by state goes by the state of the second before."""

    mix = "locate"
    rate_usual = 1.0

    def has(self, thing: Thing, filtered: Attribute, call: Call) -> bool:
        if filtered.tag is Tag.STATE and self.strikes():
            changed = max(thing.initial or 0, thing.activation or 0, thing.deactivation or 0, thing.compromised or 0)
            if changed == call.now:
                return filtered.value == 1
        return super().has(thing, filtered, call)


class MaximumIgnored(Fault):
    """A Locate lists more than Maximum Items."""

    mix = "locate"
    rate_usual = 0.5

    def locate(self, ask: Ask, call: Call) -> Answer:
        if ask.maximum is not None and self.strikes():
            ask = replace(ask, maximum=ask.maximum + 1)
        return super().locate(ask, call)


class ListedTwice(Fault):
    """A Locate lists an object twice, where a page of results begins anew."""

    mix = "locate"

    def locate(self, ask: Ask, call: Call) -> Answer:
        answer = super().locate(ask, call)
        if not answer.identifiers or not self.strikes():
            return answer
        return replace(answer, identifiers=answer.identifiers + answer.identifiers[:1])


class FilterIgnored(Fault):
    """A Locate by two filters goes by the first alone."""

    mix = "locate"

    def fits(self, thing: Thing, ask: Ask, call: Call) -> bool:
        if len(ask.attributes) > 1 and self.strikes():
            ask = replace(ask, attributes=ask.attributes[:1])
        return super().fits(thing, ask, call)


class PlaceholderOfSeveral(Fault):
    """A Locate that lists several objects sets the placeholder to the first."""

    mix = "batches"
    rate_usual = 1.0

    def locate(self, ask: Ask, call: Call) -> Answer:
        answer = super().locate(ask, call)
        if len(answer.identifiers) > 1 and self.strikes():
            call.placeholder = answer.identifiers[0]
        return answer
