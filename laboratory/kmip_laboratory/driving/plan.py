"""The plan of a client: what it asks, call by call, drawn from a seed alone.

Identifiers are left open, since answers tell them: a plan says which kind of object is meant, and a number that picks
one of those that are known when the call is made. So the same seed gives the same plan, whatever the server answers.
"""

from __future__ import annotations

import random
from dataclasses import dataclass, replace
from typing import Iterator, Optional

from .messages import Ask, Attribute, Material, Name
from .mixes import Mix
from .numbers import AES, ObjectType, Operation, Option, State, Tag

LENGTHS = (128, 192, 256)
# Each Revocation Reason Code: two are compromises.
CODES = (1, 2, 3, 4, 5, 6, 7)
STATES = (State.PRE_ACTIVE, State.ACTIVE, State.DEACTIVATED, State.COMPROMISED)
MOST_LOCATED = 5
DATES = (Tag.INITIAL_DATE, Tag.ACTIVATION_DATE, Tag.DEACTIVATION_DATE, Tag.DESTROY_DATE, Tag.COMPROMISE_DATE)
OTHERS = (Tag.NAME, Tag.OBJECT_TYPE, Tag.CRYPTOGRAPHIC_ALGORITHM, Tag.CRYPTOGRAPHIC_LENGTH,
          Tag.CRYPTOGRAPHIC_USAGE_MASK)
ON_OBJECTS = {"get": Operation.GET, "get-attributes": Operation.GET_ATTRIBUTES, "activate": Operation.ACTIVATE,
              "revoke": Operation.REVOKE, "destroy": Operation.DESTROY}


@dataclass(frozen=True)
class Pick:
    """Which object is meant: of which kind, and a draw from 0 to 1 among those of the kind."""

    kind: str
    draw: float


@dataclass(frozen=True)
class Planned:
    """An item: its identifier is picked when it is sent, and its dates count from the server's second then."""

    ask: Ask
    pick: Optional[Pick] = None
    dates: tuple[tuple[Tag, int], ...] = ()


@dataclass(frozen=True)
class PlannedCall:
    """A call of the plan; `luck` decides what befalls it (cuts.py), `where` at which byte, and `pause` how long the
    client waits ahead of it; all from 0 to 1."""

    items: tuple[Planned, ...]
    option: Optional[Option]
    ordered: Optional[bool]
    luck: float
    where: float
    pause: float


class Plan:
    """The calls of one client, without end."""

    def __init__(self, seed: int, client: int, mix: Mix) -> None:
        self._dice = random.Random(f"plan/{seed}/{client}")
        self._mix = mix
        self._kinds = [kind for kind, _ in mix.weights]
        self._weights = [weight for _, weight in mix.weights]

    def calls(self) -> Iterator[PlannedCall]:
        """The calls, in their order."""
        while True:
            yield self._call()

    def _happens(self, share: str) -> bool:
        return self._dice.random() < self._mix.shares[share]

    def _call(self) -> PlannedCall:
        dice = self._dice
        option, ordered = None, None
        if self._happens("batch"):
            items = self._story() if self._happens("story") else [self._item() for _ in range(dice.randint(2, 4))]
            option = self._option()
            if self._happens("unordered") and all(_is_free(item) for item in items):
                ordered = False
            items = [replace(item, ask=replace(item.ask, batch_id=bytes([place])))
                     for place, item in enumerate(items, 1)]
        else:
            items = [self._item()]
        return PlannedCall(tuple(items), option, ordered, dice.random(), dice.random(), dice.random())

    def _option(self) -> Optional[Option]:
        draw = self._dice.random()
        undo, going_on = self._mix.shares["undo"], self._mix.shares["continue"]
        if draw < undo:
            return Option.UNDO
        return Option.CONTINUE if draw < undo + going_on else self._dice.choice([None, Option.STOP])

    def _story(self) -> list[Planned]:
        """Items that belong together: an object from its birth on by the placeholder, a placeholder that
        nothing has set, what a Locate lists, or an object's life."""
        dice = self._dice
        draw = dice.random()
        if draw < 0.35:
            first = self._item(dice.choice(["create", "register-key", "register-secret"]))
            rest = [Planned(Ask(Operation.GET)), Planned(Ask(Operation.GET_ATTRIBUTES, references=(Tag.STATE,))),
                    Planned(Ask(Operation.ACTIVATE)), Planned(Ask(Operation.DESTROY))]
            return [first] + dice.sample(rest, dice.randint(1, len(rest)))
        if draw < 0.45:
            return [Planned(Ask(dice.choice([Operation.GET, Operation.GET_ATTRIBUTES]))), self._item()]
        if draw < 0.65:
            return [self._item("locate"), Planned(Ask(dice.choice([Operation.GET, Operation.GET_ATTRIBUTES])))]
        pick = self._pick()
        steps = [Ask(Operation.ACTIVATE), Ask(Operation.GET_ATTRIBUTES, references=(Tag.STATE,)), Ask(Operation.GET),
                 Ask(Operation.REVOKE, code=dice.choice(CODES)),
                 Ask(Operation.GET_ATTRIBUTES, references=(Tag.STATE,)), Ask(Operation.DESTROY), Ask(Operation.GET)]
        start = dice.randrange(3)
        return [Planned(step, pick) for step in steps[start:start + dice.randint(2, 5)]]

    def _item(self, kind: Optional[str] = None) -> Planned:
        kind = kind or self._dice.choices(self._kinds, self._weights)[0]
        if kind == "locate":
            return Planned(self._locate())
        if kind in ON_OBJECTS:
            pick = self._pick()
            return Planned(self._on_object(kind, pick.kind == "gone"), pick)
        return self._new(kind)

    def _pick(self) -> Pick:
        draw, shares = self._dice.random(), self._mix.shares
        for kind in ("unknown", "gone", "old"):
            draw -= shares[kind]
            if draw < 0:
                return Pick(kind, self._dice.random())
        return Pick("hot", self._dice.random())

    def _on_object(self, kind: str, gone: bool) -> Ask:
        """What is asked of an object; of a destroyed one mostly its dates, which is what is left of its life."""
        dice = self._dice
        references: list[Tag] = []
        if kind == "get-attributes" and not self._happens("all"):
            dated = self._happens("referenced")
            asked = DATES if dated and gone else OTHERS + DATES if dated else OTHERS
            references = [Tag.STATE] + dice.sample(asked, 3 if gone else dice.randint(0, 3))
        return Ask(ON_OBJECTS[kind], references=tuple(references), code=dice.choice(CODES))

    def _name(self) -> Attribute:
        return Attribute(Tag.NAME, Name(f"name-{self._dice.randrange(self._mix.counts['names'])}"))

    def _new(self, kind: str) -> Planned:
        """A Create or a Register."""
        dice = self._dice
        given = [self._name()] if self._happens("named") else []
        if given and dice.random() < 0.2:
            given = list(dict.fromkeys([*given, self._name()]))
        dates = [(dice.choice([Tag.ACTIVATION_DATE, Tag.DEACTIVATION_DATE]), dice.choice([-10, 1, 2, 3, 20]))]
        planned = tuple(dates) if self._happens("dated") else ()
        given.append(Attribute(Tag.CRYPTOGRAPHIC_USAGE_MASK, dice.choice([4, 8, 12])))
        if kind == "register-secret":
            size = dice.randint(8, 20)
            secret = Material(ObjectType.SECRET_DATA, dice.getrandbits(8 * size).to_bytes(size, "big"))
            return Planned(Ask(Operation.REGISTER, attributes=tuple(given), object_type=secret.object_type,
                               material=secret), dates=planned)
        length = dice.choice(LENGTHS)
        sizes = (Attribute(Tag.CRYPTOGRAPHIC_ALGORITHM, AES), Attribute(Tag.CRYPTOGRAPHIC_LENGTH, length))
        if kind == "create":
            return Planned(Ask(Operation.CREATE, attributes=(*given, *sizes), object_type=ObjectType.SYMMETRIC_KEY),
                           dates=planned)
        key = Material(ObjectType.SYMMETRIC_KEY, dice.getrandbits(length).to_bytes(length // 8, "big"), AES, length)
        return Planned(Ask(Operation.REGISTER, attributes=(*given, *sizes), object_type=key.object_type,
                           material=key), dates=planned)

    def _locate(self) -> Ask:
        """A Locate with some of the judged filters; one without a name has a maximum, so that answers stay short."""
        dice = self._dice
        filters = [self._name()] if self._happens("named") else []
        if dice.random() < 0.3:
            filters.append(Attribute(Tag.STATE, dice.choice(STATES)))
        if dice.random() < 0.2:
            filters.append(Attribute(Tag.OBJECT_TYPE, dice.choice(list(ObjectType))))
        if dice.random() < 0.15:
            filters.append(Attribute(Tag.CRYPTOGRAPHIC_LENGTH, dice.choice(LENGTHS)))
        if dice.random() < 0.1:
            filters.append(Attribute(Tag.CRYPTOGRAPHIC_ALGORITHM, AES))
        named = any(each.tag is Tag.NAME for each in filters)
        maximum = dice.randint(1, MOST_LOCATED) if not named or dice.random() < 0.3 else None
        return Ask(Operation.LOCATE, attributes=tuple(filters), maximum=maximum)


def _is_free(item: Planned) -> bool:
    """Whether the item needs no placeholder."""
    return item.pick is not None or item.ask.operation in (Operation.CREATE, Operation.REGISTER, Operation.LOCATE)
