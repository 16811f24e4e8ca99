"""The key server's rules, as docs/PROFILE.md has them: one call at a time.

Each fault of the server (faults/) is a class that stands ahead of this one and turns a method or two of it. All calls
are made by one thread; a fault that needs calls at once waits in the midst of one, while the server does others.
"""

from __future__ import annotations

import itertools
import random
from dataclasses import dataclass, field, replace
from typing import Generator, Optional

from .messages import Answer, Ask, Attribute, Material, Name, Refused, Request, Response
from .numbers import AES, COMPROMISES, ObjectType, Operation, Option, Reason, State, Status, Tag
from .store import Clock, Store, Thing

# The reason for the wrong state, by version: below 2.0 there is none of its own.
FIRST_WITH_REASONS = (2, 0)
# A call under way: it yields the seconds that it waits, and ends with its response.
Steps = Generator[float, None, Response]

# Which method does an operation.
WAYS: dict[int, str] = {
    Operation.CREATE: "create", Operation.REGISTER: "register", Operation.LOCATE: "locate", Operation.GET: "get",
    Operation.GET_ATTRIBUTES: "get_attributes", Operation.ACTIVATE: "activate", Operation.REVOKE: "revoke",
    Operation.DESTROY: "destroy", Operation.QUERY: "idle", Operation.DISCOVER_VERSIONS: "idle",
}
NAME, STATE = Tag.NAME, Tag.STATE
# What a Locate may look for besides, and where an object keeps it.
FIELDS = {Tag.OBJECT_TYPE: "object_type", Tag.CRYPTOGRAPHIC_ALGORITHM: "algorithm",
          Tag.CRYPTOGRAPHIC_LENGTH: "length"}


@dataclass
class Call:
    """One call under way: its moment, its placeholder, and what its connection remembers."""

    now: int
    request: Request
    placeholder: Optional[str] = None
    session: dict[str, Optional[str]] = field(default_factory=dict)


class Engine:
    """Answers requests. `strikes` is asked by faults alone."""

    def __init__(self, clock: Clock, unique_names: bool = False, seed: int = 1, rate: float = 0.0) -> None:
        self.store = Store()
        self.clock = clock
        self.unique_names = unique_names
        self.rate = rate
        self.dice = random.Random(f"server/{seed}")
        self.struck = 0
        self._numbers = itertools.count(1)

    def strikes(self) -> bool:
        """Whether a fault comes about, now that it could."""
        strikes = self.dice.random() < self.rate
        self.struck += strikes
        return strikes

    def answer(self, request: Request, session: dict[str, Optional[str]]) -> Steps:
        """The response to a request, whose effects are there when it is. It yields the seconds for which it lets
        other calls go ahead: none, but for faults."""
        yield from ()
        return self.take(request, session)

    def take(self, request: Request, session: dict[str, Optional[str]]) -> Response:
        """The call, done at the moment of its Time Stamp."""
        call = Call(self.clock.now(), request, session=session)
        return Response(request.version, self.stamp(call), tuple(self.batch(request, call)))

    def stamp(self, call: Call) -> int:
        """The Time Stamp of the response."""
        return call.now

    def batch(self, request: Request, call: Call) -> list[Answer]:
        """The answers to the items, in their order, up to the first that fails unless it is to go on."""
        before = self.store.snapshot() if request.option is Option.UNDO else None
        answers: list[Answer] = []
        for ask in request.asks:
            answers.append(self.item(ask, call))
            if answers[-1].status is Status.FAILED and request.option is not Option.CONTINUE:
                break
        if before is not None and answers[-1].status is Status.FAILED:
            self.store.restore(before)
            answers = [self.undone(answer) for answer in answers[:-1]] + answers[-1:]
        return answers

    def undone(self, answer: Answer) -> Answer:
        """The answer to an item that was done and undone again."""
        return replace(answer, status=Status.UNDONE)

    def item(self, ask: Ask, call: Call) -> Answer:
        """The answer to one item."""
        try:
            answer = self.perform(ask, call)
        except Refused as refused:
            answer = Answer(ask.operation, Status.FAILED, self.told(refused.reason, call))
        return answer if ask.batch_id is None else replace(answer, batch_id=ask.batch_id)

    def told(self, reason: Reason, call: Call) -> Reason:
        """The reason, as the version of the call has it."""
        older = {Reason.WRONG_STATE: Reason.PERMISSION_DENIED, Reason.NAME_NOT_UNIQUE: Reason.INVALID_FIELD}
        return reason if call.request.version >= FIRST_WITH_REASONS else older.get(reason, reason)

    def perform(self, ask: Ask, call: Call) -> Answer:
        """Does one item, or refuses it."""
        way = WAYS.get(ask.operation)
        if way is None:
            raise Refused(Reason.OPERATION_NOT_SUPPORTED)
        done: Answer = getattr(self, way)(ask, call)
        return done

    def idle(self, ask: Ask, _: Call) -> Answer:
        """Query tells nothing here, and Discover Versions what stands in every answer to it."""
        return Answer(ask.operation)

    # New objects

    def create(self, ask: Ask, call: Call) -> Answer:
        """A key with bytes that nobody knows yet."""
        length = value_of(ask, Tag.CRYPTOGRAPHIC_LENGTH) or 0
        if ask.object_type != ObjectType.SYMMETRIC_KEY or length <= 0 or length % 64:
            raise Refused(Reason.INVALID_FIELD)
        return self.add(ask, call, ObjectType.SYMMETRIC_KEY, self.new_value(length))

    def register(self, ask: Ask, call: Call) -> Answer:
        """A key or a secret that the client brings."""
        if ask.material is None or ask.material.object_type != ask.object_type:
            raise Refused(Reason.INVALID_FIELD)
        return self.add(ask, call, ObjectType(ask.object_type), ask.material.value)

    def add(self, ask: Ask, call: Call, object_type: ObjectType, value: bytes) -> Answer:
        """Keeps a new object, and answers its identifier."""
        brought = ask.material or Material(object_type, value)
        names = names_in(ask)
        algorithm = first_of(value_of(ask, Tag.CRYPTOGRAPHIC_ALGORITHM), brought.algorithm)
        length = first_of(value_of(ask, Tag.CRYPTOGRAPHIC_LENGTH), brought.length)
        if object_type is ObjectType.SYMMETRIC_KEY and algorithm == AES and length not in (None, len(value) * 8):
            raise Refused(Reason.INVALID_FIELD)
        if self.unique_names and self.is_taken(names, call):
            raise Refused(Reason.NAME_NOT_UNIQUE)
        thing = Thing(self.new_identifier(), object_type, value, names, algorithm, length,
                      value_of(ask, Tag.CRYPTOGRAPHIC_USAGE_MASK), call.now, value_of(ask, Tag.ACTIVATION_DATE),
                      value_of(ask, Tag.DEACTIVATION_DATE))
        self.store.put(thing)
        call.placeholder = thing.identifier
        return Answer(ask.operation, identifiers=(thing.identifier,), object_type=object_type)

    def is_taken(self, names: tuple[Name, ...], _: Call) -> bool:
        """Whether a live object has one of these names."""
        return any(name in thing.names for thing in self.store.live() for name in names)

    def new_identifier(self) -> str:
        """An identifier that no object ever had."""
        return f"key-{next(self._numbers)}"

    def new_value(self, length: int) -> bytes:
        """The bytes of a new key of so many bits."""
        return self.dice.getrandbits(length).to_bytes(length // 8, "big")

    # Looking

    def locate(self, ask: Ask, call: Call) -> Answer:
        """The live objects that fit, the newest first, at most as many as are wanted."""
        fitting = (thing.identifier for thing in self.candidates(call) if self.fits(thing, ask, call))
        most = ask.maximum if ask.maximum is not None and ask.maximum > 0 else None
        found = list(itertools.islice(fitting, most))
        call.placeholder = found[0] if len(found) == 1 else None
        return Answer(ask.operation, identifiers=tuple(found))

    def candidates(self, _: Call) -> list[Thing]:
        """The objects among which a Locate looks."""
        return self.store.live()

    def fits(self, thing: Thing, ask: Ask, call: Call) -> bool:
        """Whether an object fits all filters."""
        for each in ask.attributes:
            if not self.has(thing, each, call):
                return False
        return True

    def has(self, thing: Thing, filtered: Attribute, call: Call) -> bool:
        """Whether an object has the attribute that one filter asks for."""
        tag, value = filtered
        if tag is NAME:
            return value in thing.names
        if tag is STATE:
            return self.state(thing, call.now) == value
        kept = FIELDS.get(tag)
        return kept is not None and getattr(thing, kept) == value

    def get(self, ask: Ask, call: Call) -> Answer:
        """The bytes of a live object."""
        thing = self.meant(ask, call)
        return Answer(ask.operation, identifiers=(thing.identifier,), object_type=thing.object_type,
                      material=self.shown(thing, call))

    def shown(self, thing: Thing, _: Call) -> Material:
        """The object as a Get shows it."""
        return Material(thing.object_type, thing.value or b"", thing.algorithm, thing.length)

    def get_attributes(self, ask: Ask, call: Call) -> Answer:
        """The attributes that are asked for, or all; of destroyed objects too."""
        thing = self.meant(ask, call, destroyed=True)
        told = [each for each in self.all_of(thing, call.now) if not ask.references or each.tag in ask.references]
        return Answer(ask.operation, identifiers=(thing.identifier,), attributes=tuple(told))

    def all_of(self, thing: Thing, now: int) -> list[Attribute]:
        """All attributes of an object."""
        told = [Attribute(Tag.NAME, name) for name in thing.names]
        pairs = [(Tag.OBJECT_TYPE, thing.object_type), (Tag.CRYPTOGRAPHIC_ALGORITHM, thing.algorithm),
                 (Tag.CRYPTOGRAPHIC_LENGTH, thing.length), (Tag.CRYPTOGRAPHIC_USAGE_MASK, thing.mask),
                 (Tag.STATE, self.state(thing, now)), (Tag.INITIAL_DATE, thing.initial),
                 (Tag.ACTIVATION_DATE, thing.activation), (Tag.DEACTIVATION_DATE, thing.deactivation),
                 (Tag.DESTROY_DATE, thing.destroyed), (Tag.COMPROMISE_DATE, thing.compromised)]
        return told + [Attribute(tag, int(value)) for tag, value in pairs if value is not None]

    def state(self, thing: Thing, now: int) -> State:
        """The state of an object now."""
        return thing.state(now)

    # Changing

    def meant(self, ask: Ask, call: Call, destroyed: bool = False) -> Thing:
        """The object that is meant, by its identifier or by the placeholder; a destroyed one only where it may be."""
        thing = self.store.find(ask.identifier if ask.identifier is not None else call.placeholder)
        if thing is None or (thing.destroyed is not None and not destroyed):
            raise Refused(Reason.ITEM_NOT_FOUND)
        return thing

    def activate(self, ask: Ask, call: Call) -> Answer:
        """From Pre-Active alone."""
        thing = self.meant(ask, call)
        if self.state(thing, call.now) is not State.PRE_ACTIVE:
            raise Refused(Reason.WRONG_STATE)
        return self.changed(ask, replace(thing, activation=call.now))

    def revoke(self, ask: Ask, call: Call) -> Answer:
        """A compromise from every state; any other reason from Active, and once more from Deactivated."""
        compromise = ask.code in COMPROMISES
        thing = self.meant(ask, call, destroyed=compromise)
        if compromise:
            moment = call.now if thing.compromised is None else thing.compromised
            return self.changed(ask, replace(thing, compromised=moment))
        state = self.state(thing, call.now)
        if state not in (State.ACTIVE, State.DEACTIVATED):
            raise Refused(Reason.WRONG_STATE)
        return self.changed(ask, replace(thing, deactivation=call.now) if state is State.ACTIVE else thing)

    def destroy(self, ask: Ask, call: Call) -> Answer:
        """From every live state; an Active object is deactivated with it."""
        thing = self.meant(ask, call)
        active = self.state(thing, call.now) is State.ACTIVE
        return self.changed(ask, replace(thing, destroyed=call.now, value=None,
                                         deactivation=call.now if active else thing.deactivation))

    def changed(self, ask: Ask, thing: Thing) -> Answer:
        """Keeps the object as it is now, and answers its identifier."""
        self.store.put(thing)
        return Answer(ask.operation, identifiers=(thing.identifier,))


def first_of(one: Optional[int], other: Optional[int]) -> Optional[int]:
    """The first of the two that is there."""
    return other if one is None else one


def value_of(ask: Ask, tag: Tag) -> Optional[int]:
    """The number of an attribute that the client gives."""
    for each in ask.attributes:
        if each.tag == tag and isinstance(each.value, int):
            return each.value
    return None


def names_in(ask: Ask) -> tuple[Name, ...]:
    """The names that the client gives, each once."""
    return tuple(dict.fromkeys(each.value for each in ask.attributes if isinstance(each.value, Name)))
