"""Faults of time: dates and stamps that are not of the moment at which a call is done, and effects that come late."""

from __future__ import annotations

from dataclasses import replace
from typing import Any

from ..engine import Call
from ..messages import Answer, Ask, Refused, Request
from ..numbers import ObjectType, Reason, State
from ..store import Thing
from .base import Fault


class RevokeASecondLater(Fault):
    """A Revoke takes effect a second after its answer."""

    mix = "hot-keys"
    rate_usual = 0.5

    def __init__(self, *words: Any, **more: Any) -> None:
        super().__init__(*words, **more)
        self._late: dict[str, int] = {}

    def revoke(self, ask: Ask, call: Call) -> Answer:
        answer = super().revoke(ask, call)
        if self.strikes():
            self._late[answer.identifiers[0]] = call.now
        return answer

    def state(self, thing: Thing, now: int) -> State:
        if thing.destroyed is None and self._late.get(thing.identifier, now - 1) >= now:
            return replace(thing, compromised=None, deactivation=None).state(now)
        return super().state(thing, now)


class InitialDateEarly(Fault):
    """The Initial Date of an object is a second before the answer's Time Stamp: the clock is read twice."""

    def add(self, ask: Ask, call: Call, object_type: ObjectType, value: bytes) -> Answer:
        answer = super().add(ask, call, object_type, value)
        thing = self.store.find(answer.identifiers[0])
        if thing is not None and self.strikes():
            self.store.put(replace(thing, initial=call.now - 1))
        return answer


class DateASecondEarly(Fault):
    """An Activation Date or a Deactivation Date counts from the second before its own."""

    mix = "lifecycle"
    rate_usual = 1.0

    def state(self, thing: Thing, now: int) -> State:
        return super().state(thing, now + 1 if self.strikes() else now)


class DateNotReached(Fault):
    """An Activation Date counts only from the second behind its own: above is asked for, and not at least."""

    mix = "lifecycle"
    rate_usual = 1.0

    def state(self, thing: Thing, now: int) -> State:
        return super().state(thing, now - 1 if self.strikes() else now)


class StampRunsBack(Fault):
    """One of the clocks behind the server is ten seconds late, and stamps some of the answers."""

    rate_usual = 0.05

    def stamp(self, call: Call) -> int:
        return call.now - 10 if self.strikes() else call.now


class ActivationDateOfTheRequest(Fault):
    """An Activate keeps a later Activation Date that the client gave, and the object is not active."""

    mix = "lifecycle"
    rate_usual = 1.0

    def activate(self, ask: Ask, call: Call) -> Answer:
        before = self.meant(ask, call)
        if self.state(before, call.now) is not State.PRE_ACTIVE:
            raise Refused(Reason.WRONG_STATE)
        later = before.activation is not None and before.activation > call.now
        return self.changed(ask, before) if later and self.strikes() else super().activate(ask, call)


class LateDestroy(Fault):
    """A Destroy is done by a worker that runs some calls later."""

    mix = "hot-keys"
    rate_usual = 1.0

    def __init__(self, *words: Any, **more: Any) -> None:
        super().__init__(*words, **more)
        self._waiting: list[tuple[int, Ask, Call]] = []

    def batch(self, request: Request, call: Call) -> list[Answer]:
        due = [each for each in self._waiting if each[0] <= 0]
        self._waiting = [(left - 1, ask, when) for left, ask, when in self._waiting if left > 0]
        for _, ask, when in due:
            thing = self.store.find(ask.identifier)
            if thing is not None and thing.destroyed is None:
                super().destroy(ask, when)
        return super().batch(request, call)

    def destroy(self, ask: Ask, call: Call) -> Answer:
        thing = self.meant(ask, call)
        if ask.identifier is None or not self.strikes():
            return super().destroy(ask, call)
        self._waiting.append((12, ask, call))
        return Answer(ask.operation, identifiers=(thing.identifier,))
