"""Messages of older versions said in 2.1: against PyKMIP, which writes both forms, and field by field."""

from __future__ import annotations

import shutil
import subprocess
import unittest
from collections import Counter
from pathlib import Path

import messages
from laboratory import FOLDER, PYKMIP_PYTHON, SECONDS, InFolder, audit, read_marks, run
from messages import asking, begin, end, number, request, response, structure, text

from kmip_laboratory import ttlv
from kmip_laboratory.message import Side
from kmip_laboratory.translation.messages import Translator

EXAMPLE = FOLDER.parent / "examples/register_then_get"
STAMP = 1_700_000_000
CREATE, REGISTER, LOCATE, GET, ATTRIBUTES, QUERY = 1, 3, 8, 0x0A, 0x0B, 0x18
OLDER = [(1, minor) for minor in range(5)]
# Of these PyKMIP's policy says that 2.0 has not the first, and older versions not the second.
OF_SOME_VERSIONS = {0x42005D, 0x420120}
JUDGED_CALLS = 42
OTHERS = {"get-attribute-list", "query", "discover-versions", "check", "rekey", "encrypt", "decrypt", "mac", "sign",
          "signature-verify", "derive-key", "delete-attribute"}


def translated(message: bytes, side: Side = Side.CLIENT, asked: bytes = b"") -> tuple[bytes, list[str]]:
    """What becomes of a message, and what is told."""
    told: list[str] = []
    translator = Translator(told.append)
    if side is Side.SERVER:
        translator.message(1, Side.CLIENT, asked)
    return translator.message(1, side, message), told


class AgainstPyKmip(InFolder):
    """Each call of PyKMIP's client, in each version: translated, it is byte by byte what it is in 2.0."""

    def setUp(self) -> None:
        if not PYKMIP_PYTHON:
            self.skipTest("PyKMIP is not there (Debian's package python3-pykmip)")
        super().setUp()

    def test_every_call_says_what_it_says_in_2_0(self) -> None:
        said = self.calls()
        newest = {(call, side): message for call, side, message in self.all_translated(said["2.0"], "2.0")}
        compared: Counter[str] = Counter()
        for version in ("1.0", "1.1", "1.2", "1.3", "1.4"):
            for (call, side, old), (_, _, made) in zip(said[version], self.all_translated(said[version], version)):
                with self.subTest(version=version, call=call, side=side):
                    if call in OTHERS:
                        spelled = messages.version(1, int(version[2:]))
                        self.assertEqual(made, old.replace(spelled, messages.version(2, 1), 1))
                    elif call == "get-attributes-of-all" and side == "response":
                        self.assertEqual(of_all_versions(made), of_all_versions(newest[call, side]))
                    else:
                        self.assertEqual(made, newest[call, side])
                        compared[version] += 1
        self.assertEqual(set(compared.values()), {2 * JUDGED_CALLS - 1}, "all but the answer above")

    def calls(self) -> dict[str, list[tuple[str, str, bytes]]]:
        """The messages of each version, in their order."""
        subprocess.run([PYKMIP_PYTHON, "-W", "ignore", Path(__file__).with_name("pykmip_calls.py"), self.folder],
                       capture_output=True, check=True, timeout=SECONDS * 6)
        said: dict[str, list[tuple[str, str, bytes]]] = {}
        for line in (self.folder / "calls").read_text().splitlines():
            version, call, side, message = line.split()
            said.setdefault(version, []).append((call, side, bytes.fromhex(message)))
        return said

    def all_translated(self, said: list[tuple[str, str, bytes]], version: str) -> list[tuple[str, str, bytes]]:
        """The messages of a version, translated; nothing of them may be left."""
        translator, number, made = Translator(self.fail), 0, []
        for call, side, message in said:
            number += side == "request"
            by = Side.CLIENT if side == "request" else Side.SERVER
            made.append((call, side, translator.message(number, by, message)))
        self.assertEqual(dict(translator.count), {version: len(said)})
        return made


def of_all_versions(message: bytes) -> object:
    """The message without attributes that only some versions have."""
    def kept(item: ttlv.Item) -> object:
        return (item.tag, item.kind, [kept(child) for child in item.children() if child.tag not in OF_SOME_VERSIONS]
                if item.children() else item.value)
    return kept(ttlv.read_item(message))


def attribute(name: str, value: bytes, index: int = 0) -> bytes:
    """An Attribute of the older form."""
    return structure(0x420008, text(0x42000A, name), number(0x420009, 2, index), value)


MASK, MASK_OF_OLD = number(0x42002C, 2, 12), attribute("Cryptographic Usage Mask", number(0x42000B, 2, 12))
NAME = structure(0x420055 - 2, text(0x420055, "n"), number(0x420054, 5, 1))
NAME_OF_OLD = attribute("Name", structure(0x42000B, text(0x420055, "n"), number(0x420054, 5, 1)), 1)
KIND, IDENTIFIER = number(0x420057, 5, 2), text(0x420094, "1")


class Fields(unittest.TestCase):
    """What becomes of each field, as docs/TRANSLATION.md has it."""

    def become(self, old: list[bytes], new: list[bytes], operation: int, side: Side = Side.CLIENT) -> None:
        """A payload of these fields becomes one of those, in every older version."""
        for protocol in OLDER:
            if side is Side.CLIENT:
                made, told = translated(request(asking(operation, *old), protocol=protocol))
                expected = request(asking(operation, *new))
            else:
                answer = messages.answering(operation, 0, *old)
                made, told = translated(response(STAMP, answer, protocol=protocol), side)
                expected = response(STAMP, messages.answering(operation, 0, *new))
            self.assertEqual((made, told), (expected, []))

    def test_template_attributes_become_attributes(self) -> None:
        old, new = structure(0x420091, MASK_OF_OLD, NAME_OF_OLD), structure(0x420125, MASK, NAME)
        for operation, rest in ((CREATE, []), (REGISTER, [structure(0x42008F, number(0x420042, 5, 1))])):
            self.become([KIND, old, *rest], [KIND, new, *rest], operation)
            self.become([KIND, IDENTIFIER, old], [KIND, IDENTIFIER], operation, Side.SERVER)

    def test_attributes_become_one_structure(self) -> None:
        new = structure(0x420125, MASK, NAME)
        self.become([MASK_OF_OLD, number(0x42004F, 2, 5), NAME_OF_OLD], [number(0x42004F, 2, 5), new], LOCATE)
        self.become([], [], LOCATE)
        self.become([IDENTIFIER, MASK_OF_OLD, NAME_OF_OLD], [IDENTIFIER, new], ATTRIBUTES, Side.SERVER)
        self.become([IDENTIFIER], [IDENTIFIER, structure(0x420125)], ATTRIBUTES, Side.SERVER)

    def test_names_become_references(self) -> None:
        vendor = structure(0x42013B, text(0x42009D, "x"), text(0x42000A, "color"))
        self.become([IDENTIFIER, text(0x42000A, "State"), text(0x42000A, "x-color")],
                    [IDENTIFIER, number(0x42013B, 5, 0x42008D), vendor], ATTRIBUTES)

    def test_attributes_of_vendors_stay_attributes(self) -> None:
        self.become([structure(0x420091, attribute("y-color", text(0x42000B, "red")))], [structure(0x420125, structure(
            0x420008, text(0x42009D, "y"), text(0x42000A, "color"), text(0x42000B, "red")))], CREATE)

    def test_names_that_the_standard_has_not_are_those_of_vendors(self) -> None:
        for name, vendor, own in (("Custom Attribute", "unknown", "Custom Attribute"), ("Colour", "unknown", "Colour"),
                                  ("Batch Count", "unknown", "Batch Count"), ("x-", "x", ""), ("y-x-a", "y", "x-a")):
            told = [text(0x42009D, vendor), text(0x42000A, own)]
            old, new = attribute(name, text(0x42000B, "red")), structure(0x420008, *told, text(0x42000B, "red"))
            self.become([old], [structure(0x420125, new)], LOCATE)
            self.become([IDENTIFIER, old], [IDENTIFIER, structure(0x420125, new)], ATTRIBUTES, Side.SERVER)
            self.become([IDENTIFIER, text(0x42000A, name)], [IDENTIFIER, structure(0x42013B, *told)], ATTRIBUTES)

    def test_the_answer_to_what_can_not_be_translated_stays_with_it(self) -> None:
        asked = request(asking(LOCATE, structure(0x420008)), protocol=(1, 2))
        answer = response(STAMP, messages.answering(LOCATE, 0, IDENTIFIER), protocol=(1, 2))
        told: list[str] = []
        translator = Translator(told.append)
        self.assertEqual(translator.message(1, Side.CLIENT, asked), asked)
        self.assertEqual(translator.message(1, Side.SERVER, answer), answer)
        self.assertEqual(translator.message(2, Side.SERVER, answer), response(
            STAMP, messages.answering(LOCATE, 0, IDENTIFIER)), "that of another call")
        self.assertEqual((translator.left, dict(translator.count)), (2, {"1.2": 1}))
        self.assertEqual(told, ["call 1, request, item 1, Locate: an Attribute without a name; the message is left as "
                                "it is, and its answer with it"])

    def test_an_identifier_that_means_the_placeholder_goes(self) -> None:
        placeholder, certify = number(0x420094, 5, 1), number(0x420094, 5, 2)
        for protocol in (*OLDER, (2, 0), (2, 1)):
            for operation in (GET, ATTRIBUTES, 0x12, 0x13, 0x14):
                old = request(asking(CREATE), asking(operation, placeholder), protocol=protocol)
                self.assertEqual(translated(old)[0], request(asking(CREATE), asking(operation)))
                other = request(asking(CREATE, placeholder), asking(operation, certify), protocol=protocol,
                                more=number(0x420010, 6, 1, 8))
                self.assertEqual(translated(other)[0], request(
                    asking(CREATE, placeholder), asking(operation, certify), more=number(0x420010, 6, 1, 8)))

    def test_a_batch_that_uses_the_placeholder_is_ordered(self) -> None:
        items, unordered = [asking(CREATE), asking(GET)], number(0x420010, 6, 0, 8)
        for protocol in OLDER:
            asked = request(*items, protocol=protocol)
            self.assertEqual(translated(asked)[0], request(*items))
            made = Translator(self.fail, ordered=False).message(1, Side.CLIENT, asked)
            self.assertEqual(made, request(*items, more=unordered if protocol <= (1, 2) else b""))
            said = request(*items, protocol=protocol, more=unordered)
            self.assertEqual(translated(said)[0], request(*items, more=unordered), "what is said counts")

    def test_attributes_beside_a_key(self) -> None:
        def shown(*attributes: bytes) -> bytes:
            value = structure(0x420045, messages.item(0x420043, 8, bytes(16)), *attributes)
            return structure(0x42008F, structure(0x420040, number(0x420042, 5, 1), value, number(0x420028, 5, 3)))

        old, new = shown(MASK_OF_OLD), shown(structure(0x420125, MASK))
        self.become([KIND, IDENTIFIER, old], [KIND, IDENTIFIER, new], GET, Side.SERVER)
        self.become([KIND, old], [KIND, new], REGISTER)

    def test_other_operations_keep_their_payload(self) -> None:
        for operation in (QUERY, 0x0C, 0x0D, 0x12, 0x13, 0x14, 0x1E, 0x2A):
            for side in Side:
                self.become([IDENTIFIER, MASK_OF_OLD], [IDENTIFIER, MASK_OF_OLD], operation, side)

    def test_an_answer_without_an_operation_is_read_by_its_request(self) -> None:
        answer = structure(0x42000F, number(0x42007F, 5, 0), structure(0x42007C, IDENTIFIER, MASK_OF_OLD))
        made, _ = translated(response(STAMP, answer, protocol=(1, 2)), Side.SERVER,
                             request(asking(ATTRIBUTES, IDENTIFIER), protocol=(1, 2)))
        self.assertEqual(made, response(STAMP, structure(0x42000F, number(0x42007F, 5, 0), structure(
            0x42007C, IDENTIFIER, structure(0x420125, MASK)))))

    def test_a_batch_without_a_word_on_its_order(self) -> None:
        items = [asking(GET, IDENTIFIER)] * 2
        for protocol in OLDER:
            option = number(0x420010, 6, 0, 8) if protocol <= (1, 2) else b""
            self.assertEqual(translated(request(*items, protocol=protocol))[0], request(*items, more=option))
            said = number(0x420010, 6, 1, 8)
            self.assertEqual(translated(request(*items, protocol=protocol, more=said))[0], request(*items, more=said))

    def test_what_can_not_be_translated_is_told_and_left(self) -> None:
        template = structure(0x420090)
        for operation, payload, words in (
                (CREATE, [structure(0x420091, NAME)], "Create, Template-Attribute: a Name, which stands for"),
                (CREATE, [structure(0x420091), structure(0x420091)], "Create: a second Template-Attribute"),
                (REGISTER, [template], "Register: a template as the object"),
                (LOCATE, [structure(0x420008, text(0x42000A, "State"))], "Locate, State: an Attribute without a value"),
                (LOCATE, [structure(0x420008)], "Locate: an Attribute without a name"),
                (LOCATE, [MASK_OF_OLD, structure(0x420125)], "Locate: Attributes of the older form and of the newer"),
                (ATTRIBUTES, [number(0x42000A, 5, 1)], "Get Attributes: an Attribute Name that is no text")):
            asked = request(asking(GET, IDENTIFIER), asking(operation, *payload), protocol=(1, 2))
            made, told = translated(asked)
            self.assertEqual(made, asked)
            self.assertEqual(len(told), 1)
            self.assertIn(f"call 1, request, item 2, {words}", told[0])

    def test_other_versions_stay(self) -> None:
        for protocol in ((0, 9), (1, 5), (2, 1), (2, 2), (3, 0)):
            message = request(asking(LOCATE, MASK_OF_OLD), protocol=protocol)
            self.assertEqual(translated(message), (message, []))


class Word(InFolder):
    """The word `translate`, on a transcript whose calls were said in 1.2."""

    def setUp(self) -> None:
        super().setUp()
        for name in ("declaration.ttlv", "witness.ttlv"):
            shutil.copy(EXAMPLE / name, self.folder)

    def test_a_transcript_of_1_2_is_judged(self) -> None:
        registering, registered, getting, got = [mark.message for mark in read_marks(str(EXAMPLE / "transcript.ttlv"))]
        attributes = structure(0x420125, structure(0x420053, text(0x420055, "disk key"), number(0x420054, 5, 1)), MASK)
        older = structure(0x420091, attribute("Name", structure(
            0x42000B, text(0x420055, "disk key"), number(0x420054, 5, 1))), MASK_OF_OLD)
        self.assertEqual(registering.count(attributes), 1)
        key = registering[registering.index(attributes) + len(attributes):]
        said = request(asking(REGISTER, KIND, older, key), protocol=(1, 2))
        rest = [message.replace(messages.version(2, 1), messages.version(1, 2))
                for message in (registered, getting, got)]
        (self.folder / "old").write_bytes(messages.transcript(
            begin(1, said), end(1, rest[0]), begin(2, rest[1]), end(2, rest[2])))
        self.assertEqual(audit(self.folder, "old"), "outside: call 1 request item 0 kind 2 Version\n")
        done = run("translate", "old", "new", cwd=self.folder)
        self.assertEqual((done.returncode, done.stdout), (0, "4 messages translated, 0 left as they are\n"))
        self.assertIn("version 1.2: 4 messages are written as 2.1: what is judged then is not quite what was said",
                      done.stderr)
        self.assertIn("without a place in 2.1, and left out: Attribute Index, 2 times", done.stderr)
        self.assertEqual((self.folder / "new").read_bytes(), (EXAMPLE / "transcript.ttlv").read_bytes())
        self.assertEqual(audit(self.folder, "new"), "yes\n")

    def test_a_batch_of_1_2_is_ordered_unless_that_is_not_asked_for(self) -> None:
        items = [asking(CREATE), asking(GET)]
        (self.folder / "old").write_bytes(messages.transcript(begin(1, request(*items, protocol=(1, 2)))))
        for words, more in (([], b""), (["--ordered"], b""), (["--unordered"], number(0x420010, 6, 0, 8))):
            done = run("translate", "old", "new", *words, cwd=self.folder)
            self.assertEqual(done.returncode, 0, done.stderr)
            self.assertEqual(read_marks(str(self.folder / "new"))[0].message, request(*items, more=more))
            (self.folder / "new").unlink()
        self.assertEqual(run("translate", "old", "new", "--ordered", "--unordered", cwd=self.folder).returncode, 64)

    def test_what_can_not_be_translated(self) -> None:
        (self.folder / "torn").write_bytes((EXAMPLE / "transcript.ttlv").read_bytes()[:-8])
        self.assertIn("torn has no whole record at offset 704", self.refused("translate", "torn", "new"))
        self.assertIn("torn is there already", self.refused("translate", EXAMPLE / "transcript.ttlv", "torn"))
        self.assertIn("nothing can't be read", self.refused("translate", "nothing", "new"))
        self.assertIn("nowhere/new can't be written", self.refused(
            "translate", EXAMPLE / "transcript.ttlv", "nowhere/new"))


if __name__ == "__main__":
    unittest.main()
