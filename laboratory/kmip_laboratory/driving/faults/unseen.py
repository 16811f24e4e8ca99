"""Faults that no audit can see, since the profile leaves them out."""

from __future__ import annotations

from ..engine import Call
from ..messages import Ask, Answer, Attribute, Refused
from ..numbers import Reason, Tag
from ..store import Thing
from .base import Fault


class RefusesForNoReason(Fault):
    """A Get is refused with Permission Denied, of a client that may see the key."""

    unseen = "access rules are left out: a reason that has no row in the declaration is believed"

    def get(self, ask: Ask, call: Call) -> Answer:
        if self.strikes():
            raise Refused(Reason.PERMISSION_DENIED)
        return super().get(ask, call)


class ListsTheDestroyed(Fault):
    """A Locate lists destroyed objects too."""

    mix = "locate"
    unseen = "a destroyed object may be listed where it fits the filters"

    def candidates(self, call: Call) -> list[Thing]:
        return super().candidates(call) + (self.store.gone() if self.strikes() else [])


class LastChangeDateWrong(Fault):
    """Get Attributes shows a Last Change Date of years ago."""

    unseen = "Last Change Date is not one of the judged attributes"

    def all_of(self, thing: Thing, now: int) -> list[Attribute]:
        return super().all_of(thing, now) + [Attribute(Tag.LAST_CHANGE_DATE, 1_000_000_000)] * self.strikes()
