"""The word `shrink`: what is left can't be explained, is small, and of what is explained every part is explained."""

from __future__ import annotations

import random
import tempfile
import unittest
from pathlib import Path
from typing import Optional

import messages
import sessions
from laboratory import AUDITOR, FOLDER
from sessions import Server
from test_blind import record, verdict

from kmip_laboratory.auditor import Auditor
from kmip_laboratory.calls import Call, Transcript, read_transcript
from kmip_laboratory.shrinking import smallest
from kmip_laboratory.shrinking.parts import has_effect, read_declaration
from kmip_laboratory.shrinking.trials import Answer, Trials
from kmip_laboratory.transcript import read_marks
from kmip_laboratory.transcript_writer import TranscriptWriter

EXAMPLES = FOLDER.parent / "examples"
Said = tuple[bytes, Optional[bytes]]


class Shrink(unittest.TestCase):
    """Each test has a folder of its own."""

    def setUp(self) -> None:
        made = tempfile.TemporaryDirectory(prefix="shrink-")
        self.addCleanup(made.cleanup)
        self.folder = Path(made.name)
        self.transcript, self.declaration = self.folder / "t", self.folder / "d"
        self.out, self.less = self.folder / "out", self.folder / "less"

    def write(self, said: list[Said], entries: list[bytes], overlapping: int = 1) -> None:
        """A transcript of these calls, as many of them at once as are said, and its declaration."""
        self.transcript.unlink(missing_ok=True)
        with TranscriptWriter(str(self.transcript)) as writer:
            for start in range(0, len(said), overlapping):
                together = said[start:start + overlapping]
                numbers = [writer.begin("a", request) for request, _ in together]
                for number, (_, response) in zip(numbers, together):
                    if response is not None:
                        writer.end(number, response)
        self.declaration.write_bytes(sessions.declaration(*entries))

    def shrink(self, *more: object) -> list[int]:
        """The numbers of the calls that are left of what was written."""
        done = record("shrink", self.transcript, self.declaration, self.out, *more)
        self.assertEqual(done.status, 0, done.err)
        return sorted({mark.call for mark in read_marks(str(self.out))})

    def trials(self, whole: bool) -> Trials:
        """Searches of what was written."""
        return Trials(read_transcript(str(self.transcript)), read_declaration(str(self.declaration)), whole, 2_000,
                      Auditor(AUDITOR))

    def test_a_changed_answer_of_a_recording_is_two_calls(self) -> None:
        folder = EXAMPLES / "recorded" / "register_get_other_byte"
        done = record("shrink", folder / "transcript.ttlv", folder / "declaration.ttlv", self.out)
        self.assertEqual(done.status, 0, done.err)
        line = (folder / "line").read_text()
        self.assertIn("call 53 item 1 why 9", line)
        self.assertEqual(done.out, "2 of 86 calls are left: 7, 53\n"
                                   "no order explains them; kmip_audit search: gave up: 2 steps\n")
        marks = read_marks(str(folder / "transcript.ttlv"))
        self.assertEqual(read_marks(str(self.out)), [mark for mark in marks if mark.call in (7, 53)])
        self.assertEqual(verdict("search", self.out, folder / "declaration.ttlv", self.folder / "w"),
                         (4, "gave up: 2 steps\n"))

    def test_of_what_is_explained_every_part_is_explained(self) -> None:
        for seed in range(4):
            server = Server(seed)
            for _ in range(3):
                server.declare()
            self.write([server.call() for _ in range(16)], server.entries, overlapping=1 + seed % 3)
            with self.trials(whole=seed % 2 == 0) as trials:
                calls = read_transcript(str(self.transcript)).calls
                self.assertIs(trials.answer(calls)[0], Answer.EXPLAINED)
                for kept in some_parts(trials, calls, random.Random(seed)):
                    with self.subTest(seed=seed, kept=[call.number for call in kept]):
                        self.assertIs(trials.answer(kept)[0], Answer.EXPLAINED)

    def test_one_wrong_answer_of_many_is_a_few_calls(self) -> None:
        server = Server(7)
        for _ in range(3):
            server.declare()
        said = [server.call() for _ in range(150)]
        text, other = next(iter(server.keys)), bytes(16)
        said.append(server.shown(text, other))
        guilty = len(said)
        said += [server.call() for _ in range(50)]
        self.write(said, server.entries)
        left = self.shrink("--declaration", self.less)
        self.assertIn(guilty, left)
        self.assertLessEqual(len(left), 4)
        self.assertEqual(len(self.less.read_bytes()) < len(self.declaration.read_bytes()), True)
        status, line = verdict("search", self.out, self.less, self.folder / "w")
        self.assertEqual((status, line.split(":")[0]), (4, "gave up"))

    def test_a_smallest_choice(self) -> None:
        for wanted in ([], [0], [99], [3, 50, 51], list(range(100))):
            self.assertEqual(smallest.smallest(list(range(100)), lambda kept: set(wanted) <= set(kept)), wanted)

    def test_a_key_listed_though_it_was_destroyed_keeps_its_end(self) -> None:
        server = Server(1)
        server.declare()
        gone = sessions.request(sessions.DESTROY, sessions.identifier("k1"))
        done = sessions.response(sessions.DESTROY, server.stamp, sessions.identifier("k1"))
        asked = sessions.request(sessions.LOCATE, sessions.attributes(messages.number(0x42008D, 5, 1)))
        listed = sessions.response(sessions.LOCATE, server.stamp, sessions.identifier("k1"))
        self.write([server.register(), (gone, done), (asked, listed), server.register()], server.entries)
        self.assertEqual(self.shrink(), [2, 3])

    def test_a_refusal_for_a_taken_name_keeps_who_has_it(self) -> None:
        server = Server(1)
        asked, born = server.register()
        again = sessions.response(sessions.REGISTER, server.stamp, None, 0x2B)
        row = messages.item(0x540032, 1, messages.number(0x42007E, 5, 0x2B) + messages.number(0x540033, 5, 3))
        self.write([(asked, born), (asked, again), server.shown("k1", bytes(16))], [row])
        self.assertEqual(self.shrink(), [1, 3], "the refusal is founded, and is not left as the only call")

    def test_an_open_call_that_may_have_done_it_is_never_left_out(self) -> None:
        folder = EXAMPLES / "open_call_left_out"
        done = record("shrink", folder / "transcript.ttlv", folder / "declaration.ttlv", self.out)
        self.assertEqual((done.status, self.out.exists()), (1, False))
        self.assertIn("the search decides of no part of these calls: call 1 may have changed something", done.err)

    def test_an_open_call_without_effect_goes(self) -> None:
        server = Server(1)
        said: list[Said] = [server.register(), (server.shown("k1")[0], None), server.shown("k1", bytes(16))]
        self.write(said, [])
        self.assertEqual(self.shrink(), [1, 3])

    def test_what_is_explained_is_not_shrunk(self) -> None:
        folder = EXAMPLES / "register_then_get"
        done = record("shrink", folder / "transcript.ttlv", folder / "declaration.ttlv", self.out)
        self.assertEqual((done.status, self.out.exists()), (1, False))
        self.assertRegex(done.err, r"an order explains .* \(kmip_audit search: yes: 2 steps\): there is nothing to shrink")

    def test_what_is_outside_or_in_a_wrong_order_is_told(self) -> None:
        folder = EXAMPLES / "outside_version"
        done = record("shrink", folder / "transcript.ttlv", folder / "declaration.ttlv", self.out)
        self.assertEqual((done.status, len(done.err.splitlines())), (1, 2))
        self.assertIn("is not translated", done.err.splitlines()[0])
        self.assertIn((folder / "line").read_text().strip(), done.err.splitlines()[1])
        done = record("shrink", folder / "declaration.ttlv", folder / "transcript.ttlv", self.out)
        self.assertIn("is no transcript, but a declaration: give the files in their order", done.err)

    def test_nothing_is_written_over(self) -> None:
        self.out.write_text("mine")
        folder = EXAMPLES / "register_then_get_other_byte"
        done = record("shrink", folder / "transcript.ttlv", folder / "declaration.ttlv", self.out)
        self.assertEqual((done.status, self.out.read_text()), (1, "mine"))


def some_parts(trials: Trials, calls: list[Call], chance: random.Random) -> list[list[Call]]:
    """What each step may leave of these calls, some of all choices."""
    found = smallest._ends_by_stamp(calls) + smallest._ends_by_mark(calls)
    parts = sorted({part for call in calls for part in trials.parts.of(call)})
    for _ in range(4):
        staying = set(chance.sample(parts, chance.randrange(len(parts))))
        found.append([call for call in calls if trials.parts.of(call) <= staying])
        found.append([call for call in calls if has_effect(call) or chance.random() < 0.5])
    return found


if __name__ == "__main__":
    unittest.main()
