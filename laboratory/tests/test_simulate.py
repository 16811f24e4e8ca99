"""The simulated key server, by the tables of docs/PROFILE.md, and its messages, by docs/FORMATS.md."""

from __future__ import annotations

import time
import unittest
from typing import Optional
from unittest import mock

import messages
from laboratory import FOLDER  # noqa: F401 (puts the laboratory on the path)

from kmip_laboratory.driving import requests, responses, simulate, store
from kmip_laboratory.driving.engine import Engine, Steps
from kmip_laboratory.driving.faults import races
from kmip_laboratory.driving.messages import Answer, Ask, Attribute, Material, Name, Request, Response
from kmip_laboratory.driving.numbers import Operation, Option, Reason, State, Status, Tag

NOW = 1_700_000_000
KEY = bytes(range(16))
SIZES = (Attribute(Tag.CRYPTOGRAPHIC_ALGORITHM, 3), Attribute(Tag.CRYPTOGRAPHIC_LENGTH, 128),
         Attribute(Tag.CRYPTOGRAPHIC_USAGE_MASK, 12))
CREATE = Ask(Operation.CREATE, attributes=SIZES, object_type=2)

# The table of operations: what is possible in which state, in the order of State.
TABLE: dict[str, list[str]] = {
    "get": ["must", "must", "must", "must", "not", "not"],
    "get attributes": ["must", "must", "must", "must", "may", "may"],
    "activate": ["must", "not", "not", "not", "not", "not"],
    "revoke 2": ["must", "must", "must", "may", "may", "may"],
    "revoke 1": ["not", "must", "may", "not", "not", "not"],
    "destroy": ["must", "may", "must", "must", "not", "not"],
}
ASKS = {
    "get": Ask(Operation.GET, "k"), "get attributes": Ask(Operation.GET_ATTRIBUTES, "k"),
    "activate": Ask(Operation.ACTIVATE, "k"), "revoke 2": Ask(Operation.REVOKE, "k", code=2),
    "revoke 1": Ask(Operation.REVOKE, "k", code=1), "destroy": Ask(Operation.DESTROY, "k"),
}
DATES = {
    State.PRE_ACTIVE: {}, State.ACTIVE: {"activation": NOW}, State.COMPROMISED: {"compromised": NOW},
    State.DEACTIVATED: {"activation": NOW - 5, "deactivation": NOW}, State.DESTROYED: {"destroyed": NOW},
    State.DESTROYED_COMPROMISED: {"destroyed": NOW, "compromised": NOW},
}


class Still(store.Clock):
    """A clock that stands."""

    def now(self) -> int:
        return NOW


def engine(unique_names: bool = False, **dates: int) -> Engine:
    """A server; with a key k of these dates, where some are given."""
    made = Engine(Still(), unique_names)
    value = None if "destroyed" in dates else KEY
    made.store.put(store.Thing("k", 2, value, (Name("n"),), 3, 128, 12, NOW - 9, **dates))
    return made


def begun(server: Engine, *asks: Ask, option: Optional[Option] = None) -> Steps:
    """A call under way: up to where it lets others go ahead for the first time."""
    steps = server.answer(Request((2, 1), asks, option), {})
    next(steps)
    return steps


def ended(steps: Steps) -> list[Answer]:
    """The answers to a call, once it is done."""
    try:
        while True:
            next(steps)
    except StopIteration as end:
        return list(end.value.answers)


def answers(server: Engine, *asks: Ask, option: Optional[Option] = None) -> list[Answer]:
    """The answers to one call."""
    return ended(server.answer(Request((2, 1), asks, option), {}))


class Rules(unittest.TestCase):
    """What docs/PROFILE.md says."""

    def test_each_operation_in_each_state(self) -> None:
        for name, row in TABLE.items():
            for state, may in zip(State, row):
                server = engine(**DATES[state])
                with self.subTest(operation=name, state=state.name):
                    self.assertEqual(server.store.find("k").state(NOW), state)
                    answer, = answers(server, ASKS[name])
                    if may != "may":
                        self.assertEqual(answer.status, Status.SUCCESS if may == "must" else Status.FAILED)
                    if answer.status is Status.FAILED:
                        gone = state in (State.DESTROYED, State.DESTROYED_COMPROMISED)
                        self.assertEqual(answer.reason, Reason.ITEM_NOT_FOUND if gone else Reason.WRONG_STATE)

    def test_what_a_success_leaves(self) -> None:
        for ask, before, left in (
                (Ask(Operation.ACTIVATE, "k"), {"activation": NOW + 9}, {"activation": NOW}),
                (Ask(Operation.REVOKE, "k", code=3), {}, {"compromised": NOW}),
                (Ask(Operation.REVOKE, "k", code=3), {"compromised": NOW - 3}, {"compromised": NOW - 3}),
                (Ask(Operation.REVOKE, "k", code=6), {"activation": NOW - 5, "deactivation": NOW + 9},
                 {"activation": NOW - 5, "deactivation": NOW}),
                (Ask(Operation.REVOKE, "k", code=6), {"activation": NOW - 5, "deactivation": NOW - 2},
                 {"activation": NOW - 5, "deactivation": NOW - 2}),
                (Ask(Operation.DESTROY, "k"), {"activation": NOW - 5},
                 {"activation": NOW - 5, "deactivation": NOW, "destroyed": NOW, "value": None}),
                (Ask(Operation.DESTROY, "k"), {}, {"destroyed": NOW, "value": None})):
            server = engine(**before)
            with self.subTest(ask=ask, before=before):
                answers(server, ask)
                held = server.store.find("k")
                told = {field: getattr(held, field) for field in ("activation", "deactivation", "destroyed",
                                                                  "compromised", "value")}
                self.assertEqual(told, {"activation": None, "deactivation": None, "destroyed": None,
                                        "compromised": None, "value": KEY, **left})

    def test_the_placeholder(self) -> None:
        server = engine()
        made, shown = answers(server, CREATE, Ask(Operation.GET))
        self.assertEqual(made.identifiers, shown.identifiers)
        self.assertEqual(answers(server, Ask(Operation.GET))[0].status, Status.FAILED, "it ends with its call")
        found, got = answers(server, Ask(Operation.LOCATE, attributes=(Attribute(Tag.NAME, Name("n")),)),
                             Ask(Operation.GET))
        self.assertEqual((found.identifiers, got.material), (("k",), Material(2, KEY, 3, 128)))
        self.assertEqual(answers(server, CREATE, Ask(Operation.LOCATE), Ask(Operation.GET))[2].status, Status.FAILED,
                         "a Locate that lists several empties it")

    def test_the_shapes_of_batches(self) -> None:
        absent = Ask(Operation.GET, "k9")
        for option, wanted in ((None, [0, 1]), (Option.STOP, [0, 1]), (Option.CONTINUE, [0, 1, 0]),
                               (Option.UNDO, [3, 1])):
            server = engine()
            told = answers(server, Ask(Operation.ACTIVATE, "k"), absent, Ask(Operation.GET, "k"), option=option)
            with self.subTest(option=option):
                self.assertEqual([answer.status for answer in told], wanted)
                left = State.PRE_ACTIVE if option is Option.UNDO else State.ACTIVE
                self.assertEqual(server.store.find("k").state(NOW), left)

    def test_locate(self) -> None:
        server = engine(activation=NOW)
        named, = answers(server, Ask(Operation.REGISTER, attributes=(Attribute(Tag.NAME, Name("n")),), object_type=7,
                                     material=Material(7, b"secret")))
        identifier = named.identifiers[0]
        by_name = Attribute(Tag.NAME, Name("n"))
        for filters, maximum, listed in (
                ((by_name,), None, {"k", identifier}), ((by_name,), 1, {identifier}),
                ((by_name,), 0, {"k", identifier}),
                ((by_name, Attribute(Tag.STATE, State.ACTIVE)), None, {"k"}),
                ((Attribute(Tag.OBJECT_TYPE, 7),), None, {identifier}),
                ((Attribute(Tag.CRYPTOGRAPHIC_LENGTH, 128),), None, {"k"}),
                ((Attribute(Tag.CRYPTOGRAPHIC_ALGORITHM, 4),), None, set()),
                ((Attribute(Tag.NAME, Name("n", 2)),), None, set())):
            with self.subTest(filters=filters, maximum=maximum):
                told, = answers(server, Ask(Operation.LOCATE, attributes=filters, maximum=maximum))
                self.assertEqual(set(told.identifiers), listed)

    def test_unique_names(self) -> None:
        named = Ask(Operation.CREATE, attributes=(*SIZES, Attribute(Tag.NAME, Name("n"))), object_type=2)
        server = engine(unique_names=True)
        self.assertEqual(answers(server, named)[0].reason, Reason.NAME_NOT_UNIQUE)
        answers(server, Ask(Operation.DESTROY, "k"))
        self.assertEqual(answers(server, named)[0].status, Status.SUCCESS)

    def test_a_key_of_100_bits_is_refused(self) -> None:
        sizes = (SIZES[0], Attribute(Tag.CRYPTOGRAPHIC_LENGTH, 100), SIZES[2])
        self.assertEqual(answers(engine(), Ask(Operation.CREATE, attributes=sizes, object_type=2))[0].status,
                         Status.FAILED)


class Messages(unittest.TestCase):
    """What stands on the wire; the wanted bytes are spelled by the tests' own hand."""

    def test_a_get_and_its_answer(self) -> None:
        for version in ((1, 0), (1, 4), (2, 0), (2, 1)):
            request = Request(version, (Ask(Operation.GET, "k"),))
            self.assertEqual(requests.write_request(request), messages.get("k", version))
            self.assertEqual(requests.read_request(messages.get("k", version)), request)
            refused = Answer(Operation.GET, Status.FAILED, Reason.ITEM_NOT_FOUND)
            self.assertEqual(responses.write_response(Response(version, NOW, (refused,))),
                             messages.not_found(NOW, version))

    def test_attributes_of_both_ages(self) -> None:
        ask = Ask(Operation.LOCATE, attributes=(Attribute(Tag.STATE, 2),), maximum=3)
        of_old = messages.item(0x420008, 1, messages.item(0x42000A, 7, b"State") + messages.number(0x42000B, 5, 2))
        of_now = messages.item(0x420125, 1, messages.number(0x42008D, 5, 2))
        for version, filters in (((1, 2), of_old), ((2, 1), of_now)):
            header = messages.item(0x420077, 1, messages.version(*version) + messages.number(0x42000D, 2, 1))
            payload = messages.item(0x420079, 1, messages.number(0x42004F, 2, 3) + filters)
            wanted = messages.item(0x420078, 1, header + messages.item(
                0x42000F, 1, messages.number(0x42005C, 5, 8) + payload))
            self.assertEqual(requests.write_request(Request(version, (ask,))), wanted)
            self.assertEqual(requests.read_request(wanted), Request(version, (ask,)))


class Faults(unittest.TestCase):
    """Faults that are switched on, and such that are not there."""

    def test_one_that_always_comes_about(self) -> None:
        server = simulate.make(simulate.find(["stale-read-after-destroy"]), 1, 1, 1.0, False)
        made, = answers(server, CREATE)
        before, = answers(server, Ask(Operation.GET, made.identifiers[0]))
        answers(server, Ask(Operation.DESTROY, made.identifiers[0]))
        after, = answers(server, Ask(Operation.GET, made.identifiers[0]))
        self.assertEqual((after.status, after.material), (Status.SUCCESS, before.material))
        self.assertEqual(server.struck, 1)

    def test_one_that_never_comes_about(self) -> None:
        server = simulate.make(simulate.find(["stale-read-after-destroy"]), 1, 1, 0.0, False)
        made, = answers(server, CREATE)
        answers(server, Ask(Operation.DESTROY, made.identifiers[0]))
        self.assertEqual(answers(server, Ask(Operation.GET, made.identifiers[0]))[0].status, Status.FAILED)


class Races(unittest.TestCase):
    """Faults that need calls at once: what one call does while another waits in the midst."""

    def faulty(self, *names: str) -> Engine:
        """A server with these faults, which always come about, and with the active key k."""
        made = simulate.make(simulate.find(list(names)), 1, 1, 1.0, False)
        made.store.put(store.Thing("k", 2, KEY, (Name("n"),), 3, 128, 12, NOW - 9, activation=NOW - 5))
        return made

    def state(self, server: Engine) -> State:
        """The state in which k is held."""
        return server.store.find("k").state(server.clock.now())

    def test_lost_update(self) -> None:
        server = self.faulty("lost-update")
        revoke = begun(server, Ask(Operation.REVOKE, "k", code=1))
        other = begun(server, Ask(Operation.DESTROY, "k"))
        self.assertEqual(ended(other)[0].status, Status.SUCCESS)
        self.assertEqual(self.state(server), State.DESTROYED)
        self.assertEqual(ended(revoke)[0].status, Status.SUCCESS)
        self.assertEqual(self.state(server), State.DEACTIVATED, "the Destroy is lost")

    def test_racing_names(self) -> None:
        named = Ask(Operation.CREATE, attributes=(*SIZES, Attribute(Tag.NAME, Name("new"))), object_type=2)
        server = self.faulty("racing-names")
        first, second = begun(server, named), begun(server, named)
        self.assertEqual([ended(each)[0].status for each in (first, second)], [Status.SUCCESS] * 2)
        self.assertEqual(answers(server, named)[0].reason, Reason.NAME_NOT_UNIQUE)

    def test_answer_ahead_of_effect(self) -> None:
        server, now = self.faulty("answer-ahead-of-effect"), time.monotonic()
        with mock.patch.object(races, "time", monotonic=lambda: now):
            self.assertEqual(answers(server, Ask(Operation.DESTROY, "k"))[0].status, Status.SUCCESS)
            self.assertEqual(answers(server, Ask(Operation.GET, "k"))[0].status, Status.SUCCESS)
            now += races.SECONDS_OF_RACE
            self.assertEqual(answers(server, Ask(Operation.GET, "k"))[0].status, Status.FAILED)

    def test_mixed_batches(self) -> None:
        server = self.faulty("mixed-batches")
        batch = begun(server, Ask(Operation.GET, "k"), Ask(Operation.GET, "k"))
        answers(server, Ask(Operation.DESTROY, "k"))
        self.assertEqual([answer.status for answer in ended(batch)], [Status.SUCCESS, Status.FAILED])
        with self.assertRaises(StopIteration, msg="a batch under Undo is done at once"):
            begun(server, Ask(Operation.GET_ATTRIBUTES, "k"), Ask(Operation.GET, "k"), option=Option.UNDO)

    def test_half_a_revoke(self) -> None:
        server = self.faulty("half-a-revoke")
        revoke = begun(server, Ask(Operation.REVOKE, "k", code=2))
        self.assertEqual(self.state(server), State.DEACTIVATED)
        ended(revoke)
        self.assertEqual(self.state(server), State.COMPROMISED)

    def test_several_faults_at_once(self) -> None:
        for names in (("half-a-revoke", "lost-update"), ("racing-names", "half-a-revoke")):
            server = self.faulty(*names)
            with self.subTest(names=names):
                revoke = begun(server, Ask(Operation.REVOKE, "k", code=2))
                self.assertEqual(self.state(server), State.DEACTIVATED)
                self.assertEqual(ended(revoke)[0].status, Status.SUCCESS)

    def test_a_server_without_faults_never_waits(self) -> None:
        steps = engine().answer(Request((2, 1), (Ask(Operation.GET, "k"),)), {})
        with self.assertRaises(StopIteration):
            next(steps)


if __name__ == "__main__":
    unittest.main()
