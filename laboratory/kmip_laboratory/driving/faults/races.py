"""Faults that need calls at once: what a server does without its lock, or ahead of its effect."""

from __future__ import annotations

import time
from dataclasses import replace
from typing import Any, Optional

from ..engine import Call, Steps
from ..messages import Answer, Name, Request, Response
from ..numbers import COMPROMISES, Operation, Option, Status
from ..store import Thing
from .base import Fault

SECONDS_OF_RACE = 0.02
CHANGES = (Operation.ACTIVATE, Operation.REVOKE, Operation.DESTROY)


class LostUpdate(Fault):
    """Two clients change one object at once, and the change of one is written over: read, then wait, then write."""

    mix = "hot-keys"
    rate_usual = 0.8

    def answer(self, request: Request, session: dict[str, Optional[str]]) -> Steps:
        if len(request.asks) == 1 and request.asks[0].operation in CHANGES:
            seen = self.store.find(request.asks[0].identifier)
            if seen is not None and seen.destroyed is None and self.strikes():
                yield SECONDS_OF_RACE
                self.store.put(seen)
        return (yield from super().answer(request, session))


class RacingNames(Fault):
    """Names are unique by a check that another Register can overtake."""

    mix = "locate"
    unique_names_usual = True
    rate_usual = 1.0

    def answer(self, request: Request, session: dict[str, Optional[str]]) -> Steps:
        names = tuple(each.value for ask in request.asks for each in ask.attributes
                      if isinstance(each.value, Name) and ask.operation in (Operation.CREATE, Operation.REGISTER))
        if len(request.asks) == 1 and names and not super().is_taken(names, Call(0, request)) and self.strikes():
            yield SECONDS_OF_RACE
            session["free"] = "yes"
        try:
            return (yield from super().answer(request, session))
        finally:
            session.pop("free", None)

    def is_taken(self, names: tuple[Name, ...], call: Call) -> bool:
        return call.session.get("free") is None and super().is_taken(names, call)


class AnswerAheadOfEffect(Fault):
    """The answer to a change goes out ahead of its effect."""

    mix = "hot-keys"
    rate_usual = 0.5

    def __init__(self, *words: Any, **more: Any) -> None:
        super().__init__(*words, **more)
        self._late: list[tuple[float, Thing, Thing]] = []

    def take(self, request: Request, session: dict[str, Optional[str]]) -> Response:
        self._catch_up()
        asked = request.asks[0]
        before = self.store.find(asked.identifier)
        response = super().take(request, session)
        alone = len(request.asks) == 1 and asked.operation in CHANGES
        if before is not None and alone and response.answers[0].status is Status.SUCCESS and self.strikes():
            after = self.store.find(asked.identifier)
            if after is not None:
                self.store.put(before)
                self._late.append((time.monotonic() + SECONDS_OF_RACE, before, after))
        return response

    def _catch_up(self) -> None:
        """The effects whose time has come, where nothing else changed the object meanwhile."""
        while self._late and self._late[0][0] <= time.monotonic():
            _, before, after = self._late.pop(0)
            if self.store.find(before.identifier) == before:
                self.store.put(after)


class MixedBatches(Fault):
    """The items of a batch mix with those of another: the lock is let go between them."""

    mix = "batches"
    rate_usual = 0.8

    def answer(self, request: Request, session: dict[str, Optional[str]]) -> Steps:
        if len(request.asks) == 1 or request.option is Option.UNDO or not self.strikes():
            return (yield from super().answer(request, session))
        call = Call(0, request, session=session)
        answers: list[Answer] = []
        for ask in request.asks:
            call.now = self.clock.now()
            answers.append(self.item(ask, call))
            if answers[-1].status is Status.FAILED and request.option is not Option.CONTINUE:
                break
            yield SECONDS_OF_RACE / 4
        return Response(request.version, self.stamp(call), tuple(answers))


class HalfARevoke(Fault):
    """A Revoke for a compromise is written in two steps, between which an object is seen that is deactivated only."""

    mix = "hot-keys"
    rate_usual = 1.0

    def answer(self, request: Request, session: dict[str, Optional[str]]) -> Steps:
        ask = request.asks[0]
        if len(request.asks) == 1 and ask.operation == Operation.REVOKE and ask.code in COMPROMISES:
            thing = self.store.find(ask.identifier)
            if thing is not None and self._is_sound(thing) and self.strikes():
                now = self.clock.now()
                self.store.put(replace(thing, activation=now, deactivation=now))
                yield SECONDS_OF_RACE
        return (yield from super().answer(request, session))

    def _is_sound(self, thing: Optional[Thing]) -> bool:
        return thing is not None and thing.destroyed is None and thing.compromised is None
