"""Calls without effect left out, and attributes forgotten: what the auditor says before and after."""

from __future__ import annotations

import shutil
import unittest

import messages
from laboratory import FOLDER, InFolder, audit, read_marks, run
from messages import asking, begin, end, number, request, response, text
from test_blind import record

from kmip_laboratory.operations import operation_name

EXAMPLE = FOLDER.parent / "examples/register_then_get"
REGISTERED, GOT = 1_700_000_000, 1_700_000_001
GET, ATTRIBUTES, REKEY, QUERY, ENCRYPT, POLL = 0x0A, 0x0B, 0x04, 0x18, 0x1F, 0x1A
DECRYPT, SIGN, SIGNATURE_VERIFY, MAC, MAC_VERIFY, EXPORT = 0x20, 0x21, 0x22, 0x23, 0x24, 0x2B
CREATE, MODIFY, ACTIVATE, REVOKE, DESTROY = 0x01, 0x0E, 0x12, 0x13, 0x14
IDENTIFIER = text(0x420094, "key-1")
INITIAL_DATE, STATE = 0x420039, 0x42008D
NAME = messages.structure(0x420053, text(0x420055, "disk key"), number(0x420054, 5, 1))


def reference(tag: int) -> bytes:
    """An Attribute Reference."""
    return number(0x42013B, 5, tag)


def told(date: int, state: int, *more: bytes) -> bytes:
    """The answer to Get Attributes that tells these."""
    return messages.answering(ATTRIBUTES, 0, IDENTIFIER, messages.structure(
        0x420125, number(0x420057, 5, 2), number(STATE, 5, state), number(INITIAL_DATE, 9, date, 8), *more))


class Sifted(InFolder):
    """The word `sift`, on the example of FORMATS.md and other calls between its two."""

    def setUp(self) -> None:
        super().setUp()
        for name in ("declaration.ttlv", "witness.ttlv"):
            shutil.copy(EXAMPLE / name, self.folder)
        data = (EXAMPLE / "transcript.ttlv").read_bytes()
        self.marks = [data[24:296 + 240], data[536:704], data[704:]]

    def between(self, *marks: bytes) -> None:
        """The transcript with these marks between the Register and the Get."""
        (self.folder / "transcript.ttlv").write_bytes(messages.transcript(self.marks[0], *marks, *self.marks[1:]))

    def sifted(self, *words: str) -> tuple[str, str]:
        """The verdict on what is left, and what was told."""
        (self.folder / "left").unlink(missing_ok=True)
        before = (self.folder / "transcript.ttlv").read_bytes()
        done = run("sift", "transcript.ttlv", "left", *words, cwd=self.folder)
        self.assertEqual(done.returncode, 0, done.stderr)
        self.assertEqual((self.folder / "transcript.ttlv").read_bytes(), before, "the input stays")
        return audit(self.folder, "left"), done.stderr + done.stdout

    def test_calls_without_effect_and_refusals_are_left_out(self) -> None:
        key = asking(ENCRYPT, text(0x420094, "key-2"))
        self.between(
            begin(3, request(key)), end(3, response(REGISTERED, messages.answering(ENCRYPT, 0))),
            begin(4, request(asking(QUERY), key)),
            end(4, response(REGISTERED, messages.answering(QUERY, 0), messages.answering(ENCRYPT, 0))),
            begin(5, request(asking(REKEY, IDENTIFIER), protocol=(1, 4))), end(5, messages.refusal(GOT, (1, 0))),
            begin(6, messages.get("key-1", (1, 2))), end(6, messages.not_found(GOT, (1, 2))),
            begin(7, request(key, protocol=(1, 2))))
        self.assertEqual(audit(self.folder), "outside: call 3 response item 1 kind 4 Operation\n")
        verdict, said = self.sifted()
        self.assertEqual(verdict, "yes\n")
        self.assertEqual((self.folder / "left").read_bytes(), (EXAMPLE / "transcript.ttlv").read_bytes())
        for line in ("left out: 2 calls, Encrypt\n", "left out: 1 calls, Encrypt, Query\n",
                     "left out: 1 calls, refused as a whole\n", "left out: 1 calls, refused in another version\n",
                     "2 calls kept, 5 left out\n"):
            self.assertIn(line, said)

    def test_what_may_have_had_an_effect_stays_and_is_told(self) -> None:
        poll, key = asking(POLL), asking(REKEY, IDENTIFIER)
        self.between(begin(3, request(key)), end(3, response(REGISTERED, messages.answering(REKEY, 0))),
                     begin(4, request(key)), end(4, response(REGISTERED, messages.answering(REKEY, 1))),
                     begin(5, request(poll)), end(5, response(REGISTERED, messages.answering(POLL, 0))),
                     begin(6, messages.get("key-1", (1, 2))), end(6, response(
                         GOT, messages.answering(GET, 0), protocol=(1, 2))))
        verdict, said = self.sifted()
        self.assertEqual(verdict, "outside: call 3 response item 1 kind 4 Operation\n")
        self.assertIn("the auditor will stop at Re-key, whose effect on what is judged is not known: 1 of them, the "
                      "first in call 3, on objects key-1\n", said)
        self.assertIn("6 calls kept, 0 left out\n", said)
        self.assertIn("5 calls kept, 1 left out\n", self.sifted("--also", "poll")[1])
        listed = run("sift", "transcript.ttlv", "--list", cwd=self.folder).stdout
        for line in ("1  judged  Get  1.2  a\n", "1  judged  Re-key  2.1  a\n", "1  unknown effect  Re-key  2.1  a\n",
                     "1  judged  Register  2.1  a\n", "1  unknown effect  Poll  2.1  a\n"):
            self.assertIn(line, listed)

    def test_a_use_of_a_key_that_can_not_be_is_kept_and_told(self) -> None:
        for uses, before, why in (
                ((ENCRYPT, DECRYPT, SIGN, MAC, MAC_VERIFY), [], "never active"),
                ((ENCRYPT, SIGN, MAC), [(ACTIVATE, 0), (REVOKE, 0)], "revoked in call 4"),
                ((ENCRYPT, DECRYPT, SIGN, SIGNATURE_VERIFY, MAC, EXPORT), [(ACTIVATE, 0), (DESTROY, 0)],
                 "destroyed in call 4")):
            for use in uses:
                with self.subTest(use=use, why=why):
                    said = self.used(use, before)
                    self.assertIn(f"that used key-1, which was {why}: a use of a key that can't be\n", said)
                    self.assertIn(f"{len(before) + 3} calls kept, 0 left out\n", said)
                    listed = record("sift", self.folder / "transcript.ttlv", "--list").out
                    self.assertRegex(listed, rf"1  impossible use  {operation_name(use)}  2.1  a\n")

    def test_a_use_that_may_be_is_left_out(self) -> None:
        for use, before in ((ENCRYPT, [(ACTIVATE, 0)]), (ENCRYPT, [(ACTIVATE, None)]), (SIGN, [(MODIFY, 0)]),
                            (DECRYPT, [(ACTIVATE, 0), (REVOKE, 0)]), (EXPORT, []), (EXPORT, [(REVOKE, 0)]),
                            (ENCRYPT, [(ACTIVATE, 0), (DESTROY, 1)]), (ENCRYPT, [(ACTIVATE, 0), (DESTROY, None)])):
            with self.subTest(use=use, before=before):
                said = self.used(use, before)
                self.assertNotIn("can't be", said)
                self.assertIn(f"{len(before) + 2} calls kept, 1 left out\n", said)
        self.assertIn("4 calls kept, 1 left out\n", self.used(ENCRYPT, [(ACTIVATE, 0), (DESTROY, 0)], 1),
                      "a use that failed is no use")

    def used(self, use: int, before: list[tuple[int, int | None]], status: int = 0) -> str:
        """What is told where key-1, registered and never active, is used behind these calls; None is without an end."""
        marks, number_of_call = [], 2
        for operation, ended in [*before, (use, status)]:
            number_of_call += 1
            marks.append(begin(number_of_call, request(asking(operation, IDENTIFIER))))
            if ended is not None:
                answer = messages.answering(operation, ended, IDENTIFIER)
                marks.append(end(number_of_call, response(REGISTERED, answer)))
        self.between(*marks)
        (self.folder / "left").unlink(missing_ok=True)
        done = record("sift", self.folder / "transcript.ttlv", self.folder / "left")
        return done.err + done.out

    def test_a_use_beside_the_call_that_forbids_it_may_be(self) -> None:
        destroy, encrypt = asking(DESTROY, IDENTIFIER), asking(ENCRYPT, IDENTIFIER)
        answers = [response(REGISTERED, messages.answering(each, 0, IDENTIFIER))
                   for each in (ACTIVATE, DESTROY, ENCRYPT)]
        self.between(begin(3, request(asking(ACTIVATE, IDENTIFIER))), end(3, answers[0]), begin(5, request(encrypt)),
                     begin(4, request(destroy)), end(4, answers[1]), end(5, answers[2]))
        self.assertNotIn("can't be", self.sifted()[1])
        batch = [asking(CREATE, number(0x420057, 5, 2)), asking(ACTIVATE), asking(DESTROY)]
        made = [messages.answering(each, 0, *more) for each, more in (
            (CREATE, [text(0x420094, "made")]), (ACTIVATE, []), (DESTROY, []))]
        use = asking(ENCRYPT, text(0x420094, "made"))
        self.between(begin(3, request(*batch)), end(3, response(REGISTERED, *made)), begin(4, request(use)),
                     end(4, response(REGISTERED, messages.answering(ENCRYPT, 0))))
        self.assertIn("used made, which was destroyed in call 3: a use", self.sifted()[1], "by the placeholder")

    def test_the_account_names_objects_of_answers_too(self) -> None:
        pair = [text(0x420066, "private-7"), text(0x42006F, "public-7")]
        self.between(begin(3, request(asking(REKEY, IDENTIFIER))), end(3, response(
            REGISTERED, messages.answering(REKEY, 0, text(0x420094, "key-9")))), begin(4, request(asking(2))),
            end(4, response(REGISTERED, messages.answering(2, 0, *pair))))
        said = self.sifted()[1]
        self.assertRegex(said, r"stop at Re-key, .* on objects key-1, key-9\n")
        self.assertRegex(said, r"stop at Create Key Pair, .* on objects private-7, public-7\n")

    def asked_for_attributes(self, *payload: bytes, answer: bytes) -> str:
        """The verdict where attributes were asked for between."""
        self.between(begin(3, request(asking(ATTRIBUTES, IDENTIFIER, *payload))), end(3, response(REGISTERED, answer)))
        (self.folder / "witness.ttlv").write_bytes(messages.witness(1, 3, 2))
        return audit(self.folder).splitlines()[0]

    def test_an_attribute_that_is_forgotten_is_not_judged_and_all_else_is(self) -> None:
        early, differs = REGISTERED - 1, "no: turn 2 call 3 item 1 why 11 AttributeDiffers"
        missing = "no: turn 2 call 3 item 1 why 12 AttributeMissing"
        for payload in ([], [reference(INITIAL_DATE)], [reference(INITIAL_DATE), reference(STATE)]):
            rest = [number(0x420028, 5, 3), number(0x42002A, 2, 128), number(0x42002C, 2, 12), NAME]
            self.assertEqual(self.asked_for_attributes(*payload, answer=told(early, 1, *rest)), differs)
            self.assertEqual(self.sifted("--forget", "initial date")[0], "yes\n")
            self.assertEqual(self.asked_for_attributes(*payload, answer=told(early, 2, *rest)), differs)
            self.assertEqual(self.sifted("--forget", "Initial Date")[0].splitlines()[0], differs, "the State is judged")
        for payload, verdict in (([], missing), ([reference(0x420028), reference(INITIAL_DATE)], missing),
                                 ([reference(INITIAL_DATE)], "yes")):
            self.asked_for_attributes(*payload, answer=told(early, 1))
            found = self.sifted("--forget", "Initial Date")[0]
            self.assertEqual(found.splitlines()[0], verdict, "what is asked for is wanted")

    def test_an_attribute_told_twice_with_one_value_is_told_once(self) -> None:
        twice = "outside: call 3 response item 1 kind 10 Attribute"
        asked = reference(STATE)
        self.assertEqual(self.asked_for_attributes(asked, answer=told(REGISTERED, 1, number(STATE, 5, 1))), twice)
        self.assertEqual(self.sifted()[0], "yes\n")
        self.assertEqual(self.asked_for_attributes(asked, answer=told(REGISTERED, 1, number(STATE, 5, 2))), twice)
        self.assertEqual(self.sifted()[0], twice + "\n")

    def test_a_message_that_is_broken_within_stays(self) -> None:
        broken = messages.item(0x42013B, 5, b"\x00\x42")[:-8] + bytes(8)
        asked = request(asking(ATTRIBUTES, IDENTIFIER, b"\x42\x01\x3b\x05\x00\x00\x0f\xff" + broken[8:]))
        self.between(begin(3, asked), end(3, response(REGISTERED, told(REGISTERED - 1, 1))))
        verdict, said = self.sifted("--forget", "Initial Date")
        self.assertTrue(verdict.startswith("outside: call 3 request "), verdict)
        self.assertIn(asked, (self.folder / "left").read_bytes())

    def test_what_can_not_be_sifted(self) -> None:
        (self.folder / "torn").write_bytes((EXAMPLE / "transcript.ttlv").read_bytes()[:-8])
        shutil.copy(EXAMPLE / "transcript.ttlv", self.folder / "transcript.ttlv")
        self.assertIn("torn has no whole record at offset 704", self.refused("sift", "torn", "left"))
        self.assertIn("witness.ttlv is no transcript", self.refused("sift", "witness.ttlv", "left"))
        self.assertIn("torn is there already", self.refused("sift", "transcript.ttlv", "torn"))
        self.assertIn("needs a new file", self.refused("sift", "transcript.ttlv"))
        self.assertEqual(len(read_marks(str(self.folder / "transcript.ttlv"))), 4)
        for words in (["--forget", "Link"], ["--also", "Re-key"]):
            self.assertEqual(run("sift", "transcript.ttlv", "left", *words, cwd=self.folder).returncode, 64)


if __name__ == "__main__":
    unittest.main()
