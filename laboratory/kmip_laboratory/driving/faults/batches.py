"""Faults of calls with several items: shapes, undoing, the placeholder, and what the answers echo."""

from __future__ import annotations

from dataclasses import replace
from typing import Any, Optional

from ..engine import Call
from ..messages import Answer, Ask, Request, Response
from ..numbers import Operation, Option, Status
from .base import Fault


class UndoLeavesAnObject(Fault):
    """An Undo takes changes back, and leaves the objects that the batch made."""

    mix = "batches"
    rate_usual = 1.0

    def batch(self, request: Request, call: Call) -> list[Answer]:
        before = {thing.identifier for thing in self.store.live()}
        made = []
        answers = super().batch(request, call)
        if request.option is Option.UNDO and answers[-1].status is Status.FAILED and self.strikes():
            made = [identifier for answer in answers if answer.operation in (Operation.CREATE, Operation.REGISTER)
                    for identifier in answer.identifiers if identifier not in before]
        for ask, answer in zip(request.asks, answers):
            if made and answer.identifiers and answer.identifiers[0] in made and ask.attributes:
                self._keep(ask, answer, call)
        return answers

    def _keep(self, ask: Ask, answer: Answer, call: Call) -> None:
        again = self.perform(ask, Call(call.now, call.request))
        thing = self.store.find(again.identifiers[0])
        if thing is not None:
            self.store.drop(thing.identifier)
            self.store.put(replace(thing, identifier=answer.identifiers[0]))


class UndoForgotten(Fault):
    """A batch under Undo fails, says that its items are undone, and undoes nothing."""

    mix = "batches"
    rate_usual = 1.0

    def batch(self, request: Request, call: Call) -> list[Answer]:
        if request.option is not Option.UNDO or not self.strikes():
            return super().batch(request, call)
        answers = super().batch(replace(request, option=Option.STOP), call)
        if answers[-1].status is Status.FAILED:
            answers = [self.undone(answer) for answer in answers[:-1]] + answers[-1:]
        return answers


class UndoneToldAsDone(Fault):
    """A batch under Undo is undone, and its items are answered with Success."""

    mix = "batches"

    def undone(self, answer: Answer) -> Answer:
        return answer if self.strikes() else super().undone(answer)


class GoesOnAfterAFailure(Fault):
    """A batch under Stop goes on behind the item that failed."""

    mix = "batches"

    def batch(self, request: Request, call: Call) -> list[Answer]:
        if request.option in (None, Option.STOP) and self.strikes():
            request = replace(request, option=Option.CONTINUE)
        return super().batch(request, call)


class StopsInsteadOfGoingOn(Fault):
    """A batch under Continue ends at the first item that fails."""

    mix = "batches"

    def batch(self, request: Request, call: Call) -> list[Answer]:
        if request.option is Option.CONTINUE and self.strikes():
            request = replace(request, option=Option.STOP)
        return super().batch(request, call)


class BackwardBatch(Fault):
    """The items of a batch that is in order are done the last one first."""

    mix = "batches"
    rate_usual = 1.0

    def batch(self, request: Request, call: Call) -> list[Answer]:
        if len(request.asks) < 2 or request.option is not Option.CONTINUE or not self.strikes():
            return super().batch(request, call)
        turned = replace(request, asks=request.asks[::-1])
        return super().batch(turned, call)[::-1]


class PlaceholderOutlivesTheCall(Fault):
    """The ID Placeholder of a call is still set in the next one of the connection."""

    mix = "batches"
    rate_usual = 1.0

    def batch(self, request: Request, call: Call) -> list[Answer]:
        if len(request.asks) > 1 and self.strikes():
            call.placeholder = call.session.get("placeholder")
        answers = super().batch(request, call)
        call.session["placeholder"] = call.placeholder
        return answers


class ItemNumbersSwapped(Fault):
    """The answers of a batch have the Unique Batch Item IDs of each other."""

    mix = "batches"

    def batch(self, request: Request, call: Call) -> list[Answer]:
        answers = super().batch(request, call)
        if len(answers) < 2 or not self.strikes():
            return answers
        first, second = answers[0].batch_id, answers[1].batch_id
        return [replace(answers[0], batch_id=second), replace(answers[1], batch_id=first), *answers[2:]]


class AnswerOfAnother(Fault):
    """A client gets the answer that the connection's call before got, where the operation is the same."""

    def __init__(self, *words: Any, **more: Any) -> None:
        super().__init__(*words, **more)
        self._last: dict[int, Answer] = {}

    def take(self, request: Request, session: dict[str, Optional[str]]) -> Response:
        response = super().take(request, session)
        if len(response.answers) != 1:
            return response
        answer = response.answers[0]
        last = self._last.get(answer.operation or 0)
        self._last[answer.operation or 0] = answer
        if last is None or not self.strikes():
            return response
        return replace(response, answers=(replace(last, batch_id=answer.batch_id),))
