"""Faults of the operations that change or make objects: an effect is lost, wrong, or not told."""

from __future__ import annotations

from dataclasses import replace

from ..engine import Call
from ..messages import Answer, Ask, Material, Name, Refused
from ..numbers import COMPROMISES, ObjectType, Reason, State
from ..store import Thing
from .base import Fault


class LostActivate(Fault):
    """An Activate answers Success, and the object stays as it was."""

    mix = "lifecycle"

    def activate(self, ask: Ask, call: Call) -> Answer:
        before = self.meant(ask, call)
        answer = super().activate(ask, call)
        if self.strikes():
            self.store.put(before)
        return answer


class LostRegister(Fault):
    """A Register answers Success, and the object is gone: the transaction was never committed."""

    def register(self, ask: Ask, call: Call) -> Answer:
        answer = super().register(ask, call)
        if self.strikes():
            self.store.drop(answer.identifiers[0])
        return answer


class LostDestroy(Fault):
    """A Destroy answers Success, and the object lives on."""

    def destroy(self, ask: Ask, call: Call) -> Answer:
        before = self.meant(ask, call)
        answer = super().destroy(ask, call)
        if self.strikes():
            self.store.put(before)
        return answer


class SharedIdentifier(Fault):
    """Two Registers get one identifier: a counter is read and written in two steps."""

    def new_identifier(self) -> str:
        newest = [thing.identifier for thing in self.store.live()[:1]]
        return newest[0] if newest and self.strikes() else super().new_identifier()


class IdentifierUsedAgain(Fault):
    """The identifier of a destroyed object is given to a new one: the next free row is taken."""

    mix = "lifecycle"

    def new_identifier(self) -> str:
        gone = [thing.identifier for thing in self.store.gone()[:1]]
        return gone[0] if gone and self.strikes() else super().new_identifier()


class FailureWithEffect(Fault):
    """A Destroy is answered with General Failure, and was done all the same."""

    def destroy(self, ask: Ask, call: Call) -> Answer:
        answer = super().destroy(ask, call)
        if self.strikes():
            raise Refused(Reason.GENERAL_FAILURE)
        return answer


class ActivatesTwice(Fault):
    """An Activate of an active object succeeds again."""

    mix = "lifecycle"
    rate_usual = 1.0

    def activate(self, ask: Ask, call: Call) -> Answer:
        thing = self.meant(ask, call)
        if self.state(thing, call.now) is State.ACTIVE and self.strikes():
            return self.changed(ask, replace(thing, activation=call.now))
        return super().activate(ask, call)


class RevokesThePreActive(Fault):
    """A Revoke for a reason that is no compromise succeeds on an object that never was active."""

    mix = "lifecycle"
    rate_usual = 1.0

    def revoke(self, ask: Ask, call: Call) -> Answer:
        thing = self.meant(ask, call, destroyed=True)
        state = self.state(thing, call.now)
        if ask.code not in COMPROMISES and state is State.PRE_ACTIVE and self.strikes():
            return self.changed(ask, replace(thing, deactivation=call.now))
        return super().revoke(ask, call)


class CompromiseForgotten(Fault):
    """A Revoke for a compromise deactivates only: the reason is not looked at."""

    mix = "lifecycle"
    rate_usual = 1.0

    def revoke(self, ask: Ask, call: Call) -> Answer:
        thing = self.meant(ask, call, destroyed=True)
        if ask.code in COMPROMISES and thing.destroyed is None and self.strikes():
            return self.changed(ask, replace(thing, deactivation=call.now))
        return super().revoke(ask, call)


class DeactivationMistaken(Fault):
    """A Destroy of an active object writes its Activation Date as its Deactivation Date."""

    mix = "lifecycle"
    rate_usual = 1.0

    def destroy(self, ask: Ask, call: Call) -> Answer:
        before = self.meant(ask, call)
        answer = super().destroy(ask, call)
        if self.state(before, call.now) is State.ACTIVE and self.strikes():
            self.store.put(replace(before, destroyed=call.now, value=None, deactivation=before.activation))
        return answer


class NameLost(Fault):
    """A second name that a client gives is not kept."""

    mix = "locate"
    rate_usual = 1.0

    def add(self, ask: Ask, call: Call, object_type: ObjectType, value: bytes) -> Answer:
        answer = super().add(ask, call, object_type, value)
        thing = self.store.find(answer.identifiers[0])
        if thing is not None and len(thing.names) > 1 and self.strikes():
            self.store.put(replace(thing, names=thing.names[:1]))
        return answer


class KeyMadeAnew(Fault):
    """A Get of a created key finds no bytes in its cache and makes new ones."""

    def shown(self, thing: Thing, call: Call) -> Material:
        if thing.length is None or not self.strikes():
            return super().shown(thing, call)
        anew = replace(thing, value=self.new_value(thing.length))
        self.store.put(anew)
        return super().shown(anew, call)


class NamesTwice(Fault):
    """Names are unique, says the server, and a check that looks only at the newest objects lets one through."""

    mix = "locate"
    unique_names_usual = True
    rate_usual = 1.0

    def is_taken(self, names: tuple[Name, ...], call: Call) -> bool:
        newest: list[Thing] = self.store.live()[:3]
        taken = any(name in thing.names for thing in newest for name in names)
        return taken or (super().is_taken(names, call) and not self.strikes())
