"""Faults of Get and Get Attributes: what is shown is not the object's."""

from __future__ import annotations

from dataclasses import replace
from typing import Any

from ..engine import Call
from ..messages import Answer, Ask, Attribute, Material, Refused
from ..numbers import ObjectType, Reason, State, Tag
from ..store import Thing
from .base import Fault


class StaleReadAfterDestroy(Fault):
    """A Get still shows the bytes of a key that was destroyed: a cache is not told."""

    mix = "hot-keys"
    rate_usual = 0.5

    def __init__(self, *words: Any, **more: Any) -> None:
        super().__init__(*words, **more)
        self._cache: dict[str, bytes] = {}

    def destroy(self, ask: Ask, call: Call) -> Answer:
        thing = self.meant(ask, call)
        self._cache[thing.identifier] = thing.value or b""
        return super().destroy(ask, call)

    def get(self, ask: Ask, call: Call) -> Answer:
        thing = self.meant(ask, call, destroyed=True)
        if thing.destroyed is None or thing.identifier not in self._cache or not self.strikes():
            return super().get(ask, call)
        material = Material(thing.object_type, self._cache[thing.identifier], thing.algorithm, thing.length)
        return Answer(ask.operation, identifiers=(thing.identifier,), object_type=thing.object_type, material=material)


class AnotherKeysBytes(Fault):
    """A Get shows the bytes of another object of the same size."""

    def shown(self, thing: Thing, call: Call) -> Material:
        others = [each for each in self.store.live() if each.identifier != thing.identifier
                  and (each.object_type, each.length) == (thing.object_type, thing.length)]
        if not others or not self.strikes():
            return super().shown(thing, call)
        return replace(super().shown(thing, call), value=others[0].value or b"")


class FlippedBit(Fault):
    """A Get shows the key with one bit turned, as a bad memory would."""

    rate_usual = 0.1

    def shown(self, thing: Thing, call: Call) -> Material:
        shown = super().shown(thing, call)
        if not shown.value or not self.strikes():
            return shown
        return replace(shown, value=shown.value[:-1] + bytes([shown.value[-1] ^ 1]))


class CutBytes(Fault):
    """A Get shows a secret without its last byte: a field of the database is too short."""

    def shown(self, thing: Thing, call: Call) -> Material:
        shown = super().shown(thing, call)
        if thing.object_type != ObjectType.SECRET_DATA or not self.strikes():
            return shown
        return replace(shown, value=shown.value[:-1])


class ShortKey(Fault):
    """A Create makes fewer bytes than the length asks for, and a Get shows them."""

    def create(self, ask: Ask, call: Call) -> Answer:
        answer = super().create(ask, call)
        thing = self.store.find(answer.identifiers[0])
        if thing is not None and thing.value and self.strikes():
            self.store.put(replace(thing, value=thing.value[:len(thing.value) // 2]))
        return answer


class AttributesOfAnother(Fault):
    """Get Attributes shows those of another object, under the identifier that was asked for."""

    def get_attributes(self, ask: Ask, call: Call) -> Answer:
        answer = super().get_attributes(ask, call)
        others = [each for each in self.store.live() if each.identifier != answer.identifiers[0]]
        if not others or not self.strikes():
            return answer
        told = [each for each in self.all_of(others[0], call.now)
                if not ask.references or each.tag in ask.references]
        return replace(answer, attributes=tuple(told))


class StateOfACache(Fault):
    """Get Attributes shows the state that it showed the time before: the cache is cleared too seldom."""

    mix = "hot-keys"
    rate_usual = 0.5

    def __init__(self, *words: Any, **more: Any) -> None:
        super().__init__(*words, **more)
        self._shown: dict[str, int] = {}

    def get_attributes(self, ask: Ask, call: Call) -> Answer:
        answer = super().get_attributes(ask, call)
        shown, identifier = [], answer.identifiers[0]
        for each in answer.attributes:
            if each.tag is Tag.STATE and identifier in self._shown and self.strikes():
                each = Attribute(Tag.STATE, self._shown[identifier])
            elif each.tag is Tag.STATE and isinstance(each.value, int):
                self._shown[identifier] = each.value
            shown.append(each)
        return replace(answer, attributes=tuple(shown))


class NameLeftOut(Fault):
    """Get Attributes without references leaves out the object's names."""

    rate_usual = 1.0

    def get_attributes(self, ask: Ask, call: Call) -> Answer:
        answer = super().get_attributes(ask, call)
        if ask.references or not self.strikes():
            return answer
        return replace(answer, attributes=tuple(each for each in answer.attributes if each.tag is not Tag.NAME))


class LengthInBytes(Fault):
    """Get Attributes shows the Cryptographic Length in bytes and not in bits."""

    def all_of(self, thing: Thing, now: int) -> list[Attribute]:
        told = super().all_of(thing, now)
        if not self.strikes():
            return told
        return [Attribute(each.tag, each.value // 8) if each.tag is Tag.CRYPTOGRAPHIC_LENGTH
                and isinstance(each.value, int) else each for each in told]


class ReasonThatIsNotSo(Fault):
    """A Get of a live object fails with Item Not Found: a lookup that ran out of time is told as an empty one."""

    rate_usual = 0.1

    def get(self, ask: Ask, call: Call) -> Answer:
        if self.strikes():
            raise Refused(Reason.ITEM_NOT_FOUND)
        return super().get(ask, call)


class RefusesTheActive(Fault):
    """An Activate of a Pre-Active object is refused for its state: the states are compared the wrong way round."""

    mix = "lifecycle"

    def activate(self, ask: Ask, call: Call) -> Answer:
        thing = self.meant(ask, call)
        if self.state(thing, call.now) is State.PRE_ACTIVE and self.strikes():
            raise Refused(Reason.WRONG_STATE)
        return super().activate(ask, call)
