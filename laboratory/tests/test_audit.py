"""The word `audit`: from what was recorded to what came out, with its page, its status, and nothing written over."""

from __future__ import annotations

import os
import shutil
import unittest
from pathlib import Path
from typing import Optional
from xml.etree import ElementTree

import sessions
from laboratory import AUDITOR, FOLDER, InFolder, run
from messages import item, number, version

from kmip_laboratory.auditing.about import about
from kmip_laboratory.auditing.apart import convicting
from kmip_laboratory.auditing.part import MOST_FINDINGS
from kmip_laboratory.auditor import Auditor
from kmip_laboratory.calls import read_transcript
from kmip_laboratory.judgement import Finding, Judgement, Sort
from kmip_laboratory.transcript_writer import TranscriptWriter

EXAMPLES = FOLDER.parent / "examples"
SAID = "transcript.ttlv"


class Audit(InFolder):
    """Each test has a folder of its own."""

    def setUp(self) -> None:
        super().setUp()
        self.addCleanup(os.environ.__setitem__, "KMIP_AUDIT", os.environ.get("KMIP_AUDIT", AUDITOR))
        os.environ["KMIP_AUDIT"] = AUDITOR

    def recording(self, name: str) -> Path:
        """The folder of a recording: an example's transcript and declaration."""
        folder = self.folder / name
        folder.mkdir()
        for file in (SAID, "declaration.ttlv"):
            shutil.copy(EXAMPLES / name / file, folder / file)
        return folder

    def audited(self, *words: object, status: int = 0) -> list[str]:
        """The lines of an audit that ends with this status."""
        done = run("audit", *words, cwd=self.folder)
        self.assertEqual(done.returncode, status, done.stderr)
        return done.stdout.splitlines()

    def test_what_an_order_explains(self) -> None:
        """The first line is the auditor's, and the folder has the order, the page and the file for JUnit."""
        before = sorted(os.listdir(self.recording("activated_while_read")))
        lines = self.audited("activated_while_read")
        self.assertEqual(lines[0], "explained")
        made = self.folder / "activated_while_read.audit"
        self.assertEqual(sorted(os.listdir(made)),
                         ["declaration.ttlv", "junit.xml", "report.html", SAID, "used.ttlv", "witness.ttlv"])
        self.assertEqual(sorted(os.listdir(self.folder / "activated_while_read")), before)
        suite = ElementTree.parse(made / "junit.xml").getroot()
        self.assertEqual([case.tag for case in suite.iter("failure")], [])
        self.audited(made / SAID, "--declaration", made / "declaration.ttlv", "--out", "again")

    def test_what_no_order_explains(self) -> None:
        """It ends with status 1, and tells the answer that convicts, and the calls that are left; a blinded copy has no
        key."""
        self.recording("register_then_get_other_byte")
        lines = self.audited("register_then_get_other_byte", "--blind", "--out", "made", status=1)
        self.assertIn("no order explains what was recorded", lines)
        self.assertEqual(lines[:2], ["convicted: 1 findings", "finding 1: turn 2 call 2 item 1 why 9 BytesDiffer"])
        self.assertIn("of finding 1 already these 2 calls can't be explained: 1, 2; they are in made/part-1", lines)
        self.assertTrue((self.folder / "made/part-1/witness.ttlv").is_file())
        failures = list(ElementTree.parse(self.folder / "made/junit.xml").getroot().iter("failure"))
        self.assertEqual(len(failures), 1)
        shown = (EXAMPLES / "register_then_get_other_byte" / SAID).read_bytes()
        key = shown[shown.index(bytes.fromhex("4200430800000010")) + 8:][:16]
        blinded = (self.folder / "made/blinded/part-1" / SAID).read_bytes()
        self.assertIn(key, shown)
        self.assertNotIn(key, blinded)

    def test_the_report_is_printed_where_that_is_asked(self) -> None:
        """With --text the report stands among the lines."""
        self.recording("activated_while_read")
        self.assertTrue(any("kmip_report" in line for line in self.audited("activated_while_read", "--text")))

    def test_older_versions_are_translated(self) -> None:
        """A transcript of 1.2 is said in 2.1 first, and its own file stays."""
        answer = item(0x42007B, 1, item(0x42007A, 1, version(1, 2) + number(0x420092, 9, 1_700_000_000, 8)
                                        + number(0x42000D, 2, 1))
                      + item(0x42000F, 1, number(0x42005C, 5, 0x0A) + number(0x42007F, 5, 1) + number(0x42007E, 5, 1)))
        asked = item(0x420078, 1, item(0x420077, 1, version(1, 2) + number(0x42000D, 2, 1))
                     + item(0x42000F, 1, number(0x42005C, 5, 0x0A) + item(0x420079, 1, sessions.identifier("k"))))
        said = self.write(asked, answer)
        before = said.read_bytes()
        lines = self.audited(said, "--empty")
        self.assertEqual(lines[:3], ["2 messages translated, 0 left as they are", "declaration: 0 rows, 0 entries",
                                     "explained"])
        self.assertEqual(said.read_bytes(), before)

    def test_rules_go_with_a_server_that_held_nothing(self) -> None:
        """They make its declaration; with one that is given they are refused."""
        said = self.write(sessions.request(sessions.GET, sessions.identifier("k")),
                          sessions.response(sessions.GET, 1_700_000_000, None, sessions.NOT_FOUND))
        rules = FOLDER / "rules/standard-2.1.rules"
        lines = self.audited(said, "--empty", "--rules", rules, "--out", "made")
        self.assertRegex(lines[0], r"\Adeclaration: [1-9]\d* rows, 0 entries")
        made = self.folder / "made/declaration.ttlv"
        self.audited(said, "--declaration", made, "--rules", rules, "--out", "other", status=64)

    def test_where_nothing_is_known_of_the_server_nothing_is_assumed(self) -> None:
        """A key that is asked for may be there or not: nothing about it is judged, and the status says so."""
        said = self.write(sessions.request(sessions.GET, sessions.identifier("k")),
                          sessions.response(sessions.GET, 1_700_000_000, None, sessions.NOT_FOUND))
        lines = self.audited(said, "--out", "made", status=4)
        self.assertEqual(lines[:2], ["nothing judged", "assumed: nothing is declared"])
        self.assertIn("judged: 0 of 1 items; set aside: 0 by request, 0 by answer, 0 by witness, 1 by object", lines)
        self.assertEqual(lines[-2:], ["made/witness.ttlv is the order that this is told of",
                                      "made/report.html shows it"])
        self.assertEqual(sorted(os.listdir(self.folder / "made")),
                         ["declaration.ttlv", "junit.xml", "report.html", SAID, "witness.ttlv"])
        failures = list(ElementTree.parse(self.folder / "made/junit.xml").getroot().iter("failure"))
        self.assertEqual([failure.get("type") for failure in failures], ["nothing judged"])

    def test_findings_where_nothing_is_known_of_the_server(self) -> None:
        """A key that a recorded call brought is judged, and each answer that is impossible is found."""
        lines = self.audited(self.brought(bytes(15) + b"\x01", bytes(15) + b"\x02"), "--out", "made", status=1)
        self.assertEqual(lines[0], "convicted: 2 findings")
        self.assertIn("finding 1: turn 2 call 2 item 1 why 9 BytesDiffer", lines)
        self.assertIn("finding 2: turn 3 call 3 item 1 why 9 BytesDiffer", lines)
        self.assertIn("judged: 1 of 3 items; set aside: 0 by request, 0 by answer, 2 by witness, 0 by object", lines)
        failure = next(ElementTree.parse(self.folder / "made/junit.xml").getroot().iter("failure"))
        self.assertEqual(failure.get("type"), "convicted")
        self.assertTrue((failure.get("message") or "").startswith("convicted: 2 findings. Convicted: no order "))
        page = (self.folder / "made/report.html").read_text("utf-8")
        for place in (1, 2):
            self.assertIn(f'id="finding-1-{place}"', page)
            self.assertIn(f'href="#story-1-{place}"', page)
        self.assertEqual(self.audited(self.brought(bytes(16)), "--out", "right")[0], "explained")

    def test_what_is_not_judged_is_set_aside(self) -> None:
        """A search says that a call is outside, and all others are judged then, by the same declaration."""
        certificate = sessions.request(sessions.REGISTER, number(0x420057, 5, 1))
        said = self.brought(bytes(16), first=(certificate, sessions.identifier("c")))
        lines = self.audited(said, "--empty", "--out", "made")
        self.assertEqual(lines[:2], ["declaration: 0 rows, 0 entries", "explained"])
        self.assertIn("judged: 2 of 3 items; set aside: 1 by request, 0 by answer, 0 by witness, 0 by object", lines)
        page = (self.folder / "made/report.html").read_text("utf-8")
        self.assertIn("Objects that are set aside", page)
        self.assertIn("object c is set aside since call 1 item 1 Register", page)
        self.assertIn('"aside":[0,-1,-1]', page)

    def test_what_is_suspected_is_convicted_by_its_own_calls(self) -> None:
        """Two clients are at work at once, so that another order isn't excluded of all calls: it is of those about one
        object."""
        path, stamp, key = self.folder / "said.ttlv", 1_700_000_000, sessions.key(bytes(16))
        register = number(0x420057, 5, 2) + sessions.attributes(number(0x42002C, 2, 12)) + key
        told = number(0x420057, 5, 2) + sessions.identifier("k") + sessions.key(bytes(15) + b"\x01")
        with TranscriptWriter(str(path)) as writer:
            other = writer.begin("b", sessions.request(sessions.LOCATE, b""))
            call = writer.begin("a", sessions.request(sessions.REGISTER, register))
            writer.end(call, sessions.response(sessions.REGISTER, stamp, sessions.identifier("k")))
            writer.end(other, sessions.response(sessions.LOCATE, stamp, b""))
            call = writer.begin("a", sessions.request(sessions.GET, sessions.identifier("k")))
            writer.end(call, sessions.response(sessions.GET, stamp, told))
        lines = self.audited(path, "--out", "made", status=1)
        self.assertEqual(lines[0], "suspected: 1 findings")
        self.assertIn("of finding 1 already these 2 calls can't be explained: 2, 3; they are in made/part-1", lines)
        page = (self.folder / "made/report.html").read_text("utf-8")
        self.assertLess(page.index("made/part-1: convicted: 9 BytesDiffer"),
                        page.index("made: suspected: 9 BytesDiffer"))
        self.assertIn("already the few calls in made/part-1 can&#x27;t be explained", page)

    def test_each_of_the_first_findings_has_a_part_of_its_own(self) -> None:
        """A part has the answer of its finding and none of the others': the auditor finds that alone in it."""
        shown = [bytes(15) + bytes([number]) for number in range(1, MOST_FINDINGS + 2)]
        said = self.brought(*shown)
        for words, name in (((), "apart"), (("--empty",), "shrunk")):
            lines = self.audited(said, *words, "--out", name, "--blind", status=1)
            self.assertIn(f"convicted: {MOST_FINDINGS + 1} findings", lines)
            told = [line for line in lines if line.startswith("of finding ")]
            self.assertEqual(told, [f"of finding {place} already these 2 calls can't be explained: 1, {place + 1}; they "
                                    f"are in {name}/part-{place}" for place in range(1, MOST_FINDINGS + 1)])
            parts = [f"part-{place}" for place in range(1, MOST_FINDINGS + 1)]
            made = self.folder / name
            self.assertEqual(sorted(each for each in os.listdir(made) if each.startswith("part")), parts)
            self.assertEqual(sorted(os.listdir(made / "blinded")), parts)
            for place, part in enumerate(parts, 2):
                found = Auditor(AUDITOR).judge(str(made / part / SAID), None, str(made / "other"), None, 100)
                self.assertEqual([(finding.call, finding.name) for finding in found.findings], [(place, "BytesDiffer")])

    def test_where_no_finding_has_a_part_the_whole_has(self) -> None:
        """Of a Time Stamp that runs back two calls are to blame, which have no object in common."""
        register = number(0x420057, 5, 2) + sessions.attributes(number(0x42002C, 2, 12)) + sessions.key(bytes(16))
        said = self.transcript(*((sessions.request(sessions.REGISTER, register), sessions.response(
            sessions.REGISTER, 1_700_000_000 - place, sessions.identifier(name))) for place, name in enumerate("kl")))
        lines = self.audited(said, "--empty", "--out", "made", status=1)
        self.assertIn("finding 1: turn 2 call 2 item 0 why 2 StampRunsBack", lines)
        self.assertIn("already these 2 calls can't be explained: 1, 2; they are in made/part", lines)

    def test_calls_that_may_have_changed_anything_stay_with_the_others(self) -> None:
        """What is left out does something to what it names alone: a call that may do more stays, and so does one whose
        object nobody knows."""
        # Behind two Gets a Re-key, and one of PKCS#11's functions; and at last bytes that are no message.
        asked = {"k": sessions.GET, "m": sessions.GET, "r": 0x04, "p": 0x33}
        path, stamp = self.folder / "said.ttlv", 1_700_000_000
        with TranscriptWriter(str(path)) as writer:
            for name, operation in asked.items():
                call = writer.begin("a", sessions.request(operation, sessions.identifier(name)))
                writer.end(call, sessions.response(operation, stamp, sessions.identifier(name)))
            writer.end(writer.begin("a", b"?"), sessions.response(sessions.GET, stamp, b""))
        calls = read_transcript(str(path)).calls
        finding = Finding("", 1, 1, 1, 9, "BytesDiffer", "")
        self.assertEqual([call.number for call in about(finding, calls) or []], [1, 3, 4, 5])

    def test_what_is_explained_is_explained_in_each_of_its_parts(self) -> None:
        """Of three clients at once each object but one is right: the calls about it convict nobody."""
        transcript = read_transcript(str(EXAMPLES / "recorded/three_clients" / SAID))
        last = {name: (call.number, place) for call in transcript.calls for place, piece in enumerate(call.pieces, 1)
                for name in piece.identifiers | piece.answered if len(piece.identifiers | piece.answered) == 1}
        self.assertGreater(len(last), 15)
        for name, (call, item) in last.items():
            found = Judgement(Sort.SUSPECTED, [], 4, [Finding("", 1, call, item, 9, "BytesDiffer", "")])
            folder = self.folder / name
            folder.mkdir()
            shutil.copy(EXAMPLES / "recorded/three_clients" / SAID, folder / SAID)
            parts = convicting(folder, found, Auditor(AUDITOR), 100_000)
            self.assertEqual(bool(parts), name == "13", name)
            self.assertEqual((folder / "part-1").exists(), name == "13")

    def test_nothing_is_written_over(self) -> None:
        """A folder that is there stays as it is."""
        self.recording("activated_while_read")
        (self.folder / "made").mkdir()
        done = run("audit", "activated_while_read", "--out", "made", cwd=self.folder)
        self.assertEqual(done.returncode, 3)
        self.assertIn("made is there already", done.stderr)
        self.assertEqual(os.listdir(self.folder / "made"), [])

    def test_what_is_malformed_the_auditor_tells(self) -> None:
        """Its line and its status are the auditor's."""
        said = self.folder / "torn.ttlv"
        said.write_bytes((EXAMPLES / "activated_while_read" / SAID).read_bytes()[:-8])
        lines = self.audited(said, "--empty", status=2)
        self.assertTrue(any(line.startswith("malformed: transcript offset ") for line in lines), lines)

    def write(self, request: bytes, response: Optional[bytes]) -> Path:
        """A transcript of one call."""
        return self.transcript((request, response))

    def brought(self, *shown: bytes, first: Optional[tuple[bytes, bytes]] = None) -> Path:
        """A transcript in which a key of zeros is registered, and got as often as something is shown of it; ahead of
        that, where it is given, a request to register and what its answer shows."""
        stamp, key = 1_700_000_000, sessions.key(bytes(16))
        register = number(0x420057, 5, 2) + sessions.attributes(number(0x42002C, 2, 12)) + key
        calls = [(first[0], sessions.response(sessions.REGISTER, stamp, first[1]))] if first else []
        calls += [(sessions.request(sessions.REGISTER, register),
                   sessions.response(sessions.REGISTER, stamp, sessions.identifier("k")))]
        for data in shown:
            told = number(0x420057, 5, 2) + sessions.identifier("k") + sessions.key(data)
            asked = sessions.request(sessions.GET, sessions.identifier("k"))
            calls.append((asked, sessions.response(sessions.GET, stamp, told)))
        return self.transcript(*calls)

    def transcript(self, *calls: tuple[bytes, Optional[bytes]]) -> Path:
        """A transcript of calls of one client, one behind the other."""
        path = self.folder / "said.ttlv"
        path.unlink(missing_ok=True)
        with TranscriptWriter(str(path)) as writer:
            for request, response in calls:
                call = writer.begin("a", request)
                if response is not None:
                    writer.end(call, response)
        return path


if __name__ == "__main__":
    unittest.main()
