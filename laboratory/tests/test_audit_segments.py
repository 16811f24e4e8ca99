"""The word `audit` on a folder of segments: the lines and the status of `kmip_audit chain`, and a page of the segments."""

from __future__ import annotations

import os
import shutil
import unittest
from pathlib import Path
from xml.etree import ElementTree

import messages
import sessions
from laboratory import AUDITOR, FOLDER, InFolder, run

from kmip_laboratory.auditing.chained import read_chain
from kmip_laboratory.auditing.segments import MOST_SHOWN
from kmip_laboratory.auditor import Auditor
from kmip_laboratory.transcript_writer import TranscriptWriter
from kmip_laboratory.verdicts import Outcome

CHAIN = FOLDER.parent / "examples/chain"
STAMP = 1_700_000_000


class Segments(InFolder):
    """Each test has a folder of its own."""

    def setUp(self) -> None:
        super().setUp()
        self.addCleanup(os.environ.__setitem__, "KMIP_AUDIT", os.environ.get("KMIP_AUDIT", AUDITOR))
        os.environ["KMIP_AUDIT"] = AUDITOR

    def audited(self, folder: Path, *words: object, status: int = 0) -> list[str]:
        """The lines of an audit of this folder into the folder `made`, which ends with this status."""
        done = run("audit", folder, "--out", "made", *words, cwd=self.folder)
        self.assertEqual(done.returncode, status, done.stderr)
        return done.stdout.splitlines()

    def cases(self) -> list[tuple[str, list[str]]]:
        """The cases of what is made for JUnit, each with what it says that is no success."""
        suite = ElementTree.parse(self.folder / "made/junit.xml").getroot()
        return [(case.get("name", ""), [f"{part.tag}: {part.get('type')}" for part in case
                                        if part.tag in ("failure", "error")]) for case in suite.iter("testcase")]

    def days(self, *stamps: int) -> Path:
        """A folder of segments of one call each, which is answered at this Time Stamp."""
        folder = self.folder / "days"
        folder.mkdir()
        (folder / "declaration.ttlv").write_bytes(sessions.declaration())
        for number, stamp in enumerate(stamps, 1):
            with TranscriptWriter(str(folder / f"transcript-{number:04}.ttlv"), next_call=number) as writer:
                call = writer.begin("a", sessions.request(sessions.GET, sessions.identifier("k")))
                writer.end(call, sessions.response(sessions.GET, stamp, None, sessions.NOT_FOUND))
        return folder

    def test_each_segment_is_on_the_page(self) -> None:
        """The lines are those of the chain. Each segment has its files in a folder, by which its verdict is repeated."""
        before = sorted(os.listdir(CHAIN))
        lines = self.audited(CHAIN)
        told = Auditor(AUDITOR).chain(str(CHAIN), 100, str(self.folder))[0].splitlines()
        self.assertEqual(lines, [*told, "made/report.html shows it"])
        self.assertEqual(self.cases(), [("made/transcript-0001", []), ("made/transcript-0002", [])])
        self.assertEqual(sorted(os.listdir(CHAIN)), before)
        made = self.folder / "made"
        self.assertEqual(sorted(os.listdir(made / "witnesses")), ["witness-0001.ttlv", "witness-0002.ttlv"])
        for number in (1, 2):
            files = [str(made / f"transcript-000{number}" / name)
                     for name in ("transcript.ttlv", "declaration.ttlv", "witness.ttlv")]
            self.assertEqual(Auditor(AUDITOR).check(*files).outcome, Outcome.YES)

    def test_a_server_that_tells_something_else_of_its_objects_is_convicted(self) -> None:
        """What it was asked for in between stands on the page beside the segment ahead of it."""
        folder = self.folder / "days"
        shutil.copytree(CHAIN, folder)
        shutil.copy(folder / "declaration.ttlv", folder / "declaration-0002.ttlv")
        self.assertIn("declaration-0002.ttlv: differs: ", self.audited(folder, status=1)[1])
        self.assertEqual(self.cases(), [("made/transcript-0001", []),
                                        (str(folder / "declaration-0002.ttlv"), ["failure: differs"])])
        page = (self.folder / "made/report.html").read_text("utf-8")
        self.assertIn("Another inventory: the server tells something else of its objects", page)

    def test_the_verdict_is_that_of_the_chain(self) -> None:
        """A segment whose stamps run back behind those of the one ahead is a yes by itself, and a no in the chain."""
        folder = self.days(STAMP + 5, STAMP)
        for number, name in enumerate(("0001", "0002"), 1):
            (folder / f"witness-{name}.ttlv").write_bytes(messages.witness(number))
        lines = self.audited(folder, status=1)
        self.assertIn("transcript-0002.ttlv: no: turn 1 call 2 item 0 why 2 StampRunsBack", lines)
        self.assertEqual(self.cases()[1], ("made/transcript-0002", ["failure: no: 2 StampRunsBack"]))
        page = (self.folder / "made/report.html").read_text("utf-8")
        self.assertIn("--not-before 2023-11-14T22:13:25Z", page)

    def test_the_last_segments_are_shown(self) -> None:
        """Those ahead of them are told to be explained."""
        folder = self.days(*range(STAMP, STAMP + MOST_SHOWN + 2))
        self.assertTrue(self.audited(folder)[-2].startswith(f"chain: {MOST_SHOWN + 2} segments, "))
        self.assertEqual([name for name, _ in self.cases()],
                         [f"made/transcript-{number:04}" for number in range(3, MOST_SHOWN + 3)])
        page = (self.folder / "made/report.html").read_text("utf-8")
        self.assertIn("The 2 segments ahead of this one are each a yes", page)

    def test_where_nothing_is_judged_nothing_is_made(self) -> None:
        """A gap is told in the place of all verdicts, and so is a file that is missing."""
        self.assertTrue(self.audited(CHAIN.parent / "chains/seals_end", status=2)[0].startswith("gap: "))
        self.assertFalse((self.folder / "made").exists())
        folder = self.days(STAMP)
        (folder / "declaration.ttlv").unlink()
        self.assertEqual(self.audited(folder, status=3), ["device"])
        self.assertFalse((self.folder / "made").exists())

    def test_a_torn_segment_ends_the_page(self) -> None:
        """What is malformed is an error there."""
        self.audited(CHAIN.parent / "chains/fault_in_turn", status=2)
        self.assertEqual(self.cases(), [("made/transcript-0001", []),
                                        ("made/transcript-0002", ["error: malformed: 12 Seal"])])

    def test_words_of_a_single_recording_are_refused(self) -> None:
        """Segments have their declaration with them."""
        for word in (("--empty",), ("--blind",), ("--declaration", "d")):
            done = run("audit", CHAIN, *word, cwd=self.folder)
            self.assertEqual(done.returncode, 64)
            self.assertIn(f"leave {word[0]} away", done.stderr)

    def test_lines_are_told_apart_by_the_names_of_the_files(self) -> None:
        """A line without a name goes with the file ahead of it."""
        printed = ("transcript-1.ttlv: no: turn 1 call 1 item 1 why 9 BytesDiffer\nat 2023-11-14T22:13:20Z\n"
                   "chain: 1 segments, 1 calls\nsealed: x\n")
        (told,) = read_chain(printed, ["transcript-1.ttlv", "lines", "witness-1.ttlv"])
        self.assertEqual((told.name, len(told.lines)), ("transcript-1.ttlv", 2))
        self.assertEqual((told.verdict.outcome, told.verdict.number), (Outcome.NO, 9))


if __name__ == "__main__":
    unittest.main()
