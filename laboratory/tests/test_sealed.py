"""Transcripts of version 2: their bytes, what `verify` finds in them, `seal`, and what the passes make of them."""

from __future__ import annotations

import hashlib
import os
import re
import shutil
import subprocess
import sys
import threading
import unittest
from pathlib import Path

import messages
import sealed_files
from laboratory import FOLDER, InFolder, audit, run, run_apart
from sealed_files import MOMENT, RECORDING, begin, close, end, header, note, sealed

from kmip_laboratory.recording.verifying import verify
from kmip_laboratory.transcript import Taken, read_marks
from kmip_laboratory.trouble import Trouble

STAMP = 1_700_000_000
EXAMPLES = FOLDER.parent / "examples" / "recorded"
# The first segment of recording 7b0c: a note of the operator's at the first moment of 2001, and a microsecond later the
# close.
SPELLED = """54000101 00000058
    54000202 00000004 00000002 00000000 54000407 00000004 37623063 00000000
    54000502 00000004 00000001 00000000
    54000608 00000020 0000000000000000 0000000000000000 0000000000000000 0000000000000000
54002101 00000058
    54001605 00000004 00000005 00000000 54001707 00000002 68690000 00000000
    5400140B 00000008 000379C3E5232000 54001508 00000020"""


def call(number: int) -> list[tuple[int, bytes]]:
    """A whole call."""
    return [begin(number, messages.get("k")), end(number, messages.not_found(STAMP))]


class Sealed(InFolder):
    """A folder with sealed files."""

    def put(self, name: str, *pieces: bytes) -> Path:
        """Makes a file."""
        (self.folder / name).write_bytes(b"".join(pieces))
        return self.folder / name

    def verified(self, *words: object) -> str:
        """What `verify` prints of files that are as they should be."""
        done = run("verify", *words, cwd=self.folder)
        self.assertEqual((done.returncode, done.stderr), (0, ""))
        return done.stdout

    def fault(self, *words: object) -> str:
        """What it tells of others."""
        done = run("verify", *words, cwd=self.folder)
        self.assertEqual((done.returncode, done.stderr.count("\n")), (1, 1), done.stderr)
        return done.stderr


class Bytes(Sealed):
    """The format to the byte."""

    def test_a_note_and_a_close(self) -> None:
        ahead = bytes.fromhex(re.sub(r"\s", "", SPELLED))
        first, noted = ahead[:96], ahead[96:]
        seal = hashlib.sha256(hashlib.sha256(first).digest() + noted).digest()
        closing = bytes.fromhex("5400220100000048" "54001802000000040000000100000000" "5400140B00000008000379C3E5232001"
                                "5400150800000020")
        head = hashlib.sha256(seal + closing).digest()
        path = self.put("t", first, noted, seal, closing, head)
        self.assertEqual(self.verified("t"), f"t: recording 7b0c segment 1 records 1 head {head.hex()}\n")
        moment = 978_307_200_000_000
        self.assertEqual(path.read_bytes(), b"".join(sealed(header(), [note(5, "hi"), close(1)], [moment, moment + 1])))


class Verify(Sealed):
    """What is wrong is told, with its place."""

    def test_what_is_changed_left_out_doubled_moved_or_behind_the_close(self) -> None:
        whole = sealed(header(), [*call(1), *call(2), close(4)])
        self.put("t", *whole)
        self.assertIn(" records 4 head " + whole[-1][-32:].hex(), self.verified("t"))
        place = sum(map(len, whole[:3]))
        for name, pieces, offset in (
                ("turned", [*whole[:3], whole[3][:60] + bytes([whole[3][60] ^ 1]) + whole[3][61:], *whole[4:]], place),
                ("left out", [*whole[:3], *whole[5:]], place), ("doubled", [*whole[:3], *whole[2:]], place),
                ("moved", [*whole[:3], whole[4], whole[3], whole[5]], place),
                ("of another", [*whole[:3], *sealed(header(recording="x"), call(2))[1:], whole[5]], place),
                ("behind", [*whole, whole[5]], sum(map(len, whole)))):
            with self.subTest(name):
                self.put("t", *pieces)
                self.assertIn(f"t is broken at offset {offset}: ", self.fault("t"))

    def test_each_bit_counts(self) -> None:
        data = b"".join(sealed(header(), [*call(1), note(2, "b"), close(3)]))
        path = self.put("t", data)
        for place in range(len(data)):
            path.write_bytes(data[:place] + bytes([data[place] ^ 1 << place % 8]) + data[place + 1:])
            with self.subTest(place=place), self.assertRaises(Trouble):
                list(verify([str(path)], None, None))
        for length in range(len(data)):
            path.write_bytes(data[:length])
            with self.subTest(length=length), self.assertRaises(Trouble):
                list(verify([str(path)], None, None))

    def test_what_is_sealed_and_wrong(self) -> None:
        for words, records, moments in (
                ("the close does not tell the number of records ahead of it, which is 2", [*call(1), close(3)], ()),
                ("a moment, 1, is below the one before, 2", [*call(1), close(2)], (2, 1, 3)),
                ("neither a mark nor a note nor a close", [note(6, "x"), close(1)], ()),
                ("a second begin mark of call 1", [*call(1), *call(1), close(4)], ()),
                ("an end mark of a call that is not under way", [call(1)[1], close(1)], ()),
                ("with other fields or padding", [(0x540010, call(1)[0][1] + call(1)[0][1]), close(1)], ())):
            with self.subTest(words):
                self.put("t", *sealed(header(), records, moments))
                self.assertIn(words, self.fault("t"))

    def test_no_close(self) -> None:
        whole = sealed(header(), call(1))
        self.put("t", *whole)
        self.assertIn(f"t has no close behind its 2 records, at offset {sum(map(len, whole))}: its recorder was killed, or "
                      f"its end was cut off. Up to there it is unbroken, and its head is {whole[-1][-32:].hex()}",
                      self.fault("t"))
        self.put("t", messages.transcript())
        self.assertIn("t is not sealed: it is of version 1", self.fault("t"))

    def test_a_head(self) -> None:
        whole = sealed(header(), [*call(1), close(2)])
        self.put("t", *whole)
        head = whole[-1][-32:].hex()
        self.verified("t", "--head", head.upper())
        self.assertIn(f"the head of t is {head}, and not {'0' * 64}", self.fault("t", "--head", "0" * 64))
        self.assertEqual(run("verify", "t", "--head", "0" * 63, cwd=self.folder).returncode, 64)

    def test_heads_that_were_written_down(self) -> None:
        whole = sealed(header(), [*call(1), close(2)])
        self.put("t", *whole)
        lines = [f"recording {RECORDING} segment 1 records {count} moment 2026-11-28T02:41:36.000001Z head {seal.hex()}\n"
                 for count, seal in ((1, whole[1][-32:]), (2, whole[2][-32:]), (2, whole[3][-32:]))]
        (self.folder / "heads").write_text("".join(lines))
        self.verified("t", "--heads", "heads")
        (self.folder / "heads").write_text("".join(lines).replace("records 1", "records 9"))
        self.assertIn(f"1 heads of heads stand in none of these files, first {whole[1][-32:].hex()} behind 9 records of "
                      f"segment 1 of recording {RECORDING}", self.fault("t", "--heads", "heads"))
        (self.folder / "heads").write_text("head\n")
        self.assertIn("heads has a line that is no head: 'head'", self.fault("t", "--heads", "heads"))

    def test_segments_go_on_behind_each_other(self) -> None:
        first = sealed(header(), [*call(1), begin(2, messages.get("k")), close(3)])
        second = sealed(header(2, first[-1][-32:]), [*call(3), close(2)], [MOMENT + 9] * 3)
        third = sealed(header(3, second[-1][-32:]), [*call(4), close(2)], [MOMENT + 9] * 3)
        for name, pieces in (("1", first), ("2", second), ("3", third)):
            self.put(name, *pieces)
        self.assertEqual(self.verified("1", "2", "3").count("\n"), 3)
        self.assertIn("2: recording", self.verified("2"), "one alone says which it is")
        for words in (("1", "3"), ("2", "1"), ("1", "2", "2", "3"), ("1", "1")):
            self.assertIn(f"{words[-1] if words[2:3] != ('2',) else '2'} does not go on where the file before it ends: it "
                          "is segment ", self.fault(*words))
        for name, records, moments, told in (
                ("twice", [*call(1), close(2)], [MOMENT + 9] * 3, "a second begin mark of call 1"),
                ("late", [end(2, messages.not_found(STAMP)), close(1)], [MOMENT + 9] * 2, "a call that is not under way"),
                ("early", [*call(3), close(2)], [MOMENT + 1] * 3, f"is below the one before, {MOMENT + 3}")):
            with self.subTest(name):
                self.put("2", *sealed(header(2, first[-1][-32:]), records, moments))
                self.assertIn(told, self.fault("1", "2"))
        for segment, previous in ((1, b"\1" * 32), (2, bytes(32)), (0, bytes(32))):
            self.put("2", *sealed(header(segment, previous), [close(0)]))
            self.assertIn("2 is no transcript: its header ", self.fault("2"))


class Numbers(unittest.TestCase):
    """Numbers of calls that are taken."""

    def test_each_that_was_taken_and_no_other(self) -> None:
        taken = Taken()
        for numbers in ([1, 2, 5], [3, 9, -4], [4]):
            taken.add(numbers)
        self.assertEqual([number for number in range(-5, 11) if taken.has(number)], [-4, 1, 2, 3, 4, 5, 9])


class Seal(Sealed):
    """The word `seal`."""

    def test_an_old_file_is_sealed_and_says_that_it_was_later(self) -> None:
        marks = [messages.begin(1, messages.get("k")), messages.end(1, messages.not_found(STAMP))]
        old = self.put("old", messages.transcript(*marks))
        done = run("seal", "old", "new", cwd=self.folder)
        self.assertEqual((done.returncode, done.stderr), (0, ""))
        self.assertEqual(self.verified("new"), f"new: {done.stdout}")
        self.assertIn(b"sealed later, of old: ", (self.folder / "new").read_bytes())
        self.assertEqual(read_marks(str(self.folder / "new")), read_marks(str(old)))
        self.assertIn("new is sealed already", self.refused("seal", "new", "newer"))
        self.assertIn("new is there already", self.refused("seal", "old", "new"))
        self.put("torn", messages.transcript(*marks)[:-8])
        self.assertIn("torn has no whole record at offset", self.refused("seal", "torn", "newer"))
        self.assertEqual(run("seal", "old", "old", cwd=self.folder).returncode, 64)


class Passes(Sealed):
    """Each pass reads a sealed transcript as it reads one of version 1, and says what it made its file of."""

    def setUp(self) -> None:
        super().setUp()
        calls = [*call(1), begin(2, messages.get("j")), *call(3)]
        self.plain = messages.transcript(*(sealed_files.structure(tag, fields) for tag, fields in calls))
        self.put("plain", self.plain)
        pieces = sealed(header(), [note(1, "n"), *calls, close(6)])
        self.head = pieces[-1][-32:].hex()
        self.put("sealed", *pieces)
        self.put("torn", *pieces[:-1])
        self.put("turned", *pieces[:-2], pieces[-1])

    def test_what_they_make_is_the_same_and_has_its_origin_beside_it(self) -> None:
        words = {"translate": [], "sift": [], "cut": ["--calls", "1-3"], "blind": ["--key", "key", "--keep", "identifiers"]}
        for word, more in words.items():
            with self.subTest(word):
                made = []
                for source in ("plain", "sealed"):
                    done = run(word, source, f"{word}-{source}", *more, cwd=self.folder)
                    self.assertEqual(done.returncode, 0, done.stderr)
                    made.append((self.folder / f"{word}-{source}").read_bytes())
                self.assertEqual(made[0], made[1])
                self.see_origin(f"{word}-sealed")
                self.assertFalse((self.folder / f"{word}-plain.origin").exists())

    def see_origin(self, made: str) -> None:
        """Sees the file beside what was made of the sealed one."""
        self.assertEqual((self.folder / f"{made}.origin").read_text(), (
            f"This was drawn from sealed, and is no evidence itself: keep that.\nrecording {RECORDING} segment 1 records 6 "
            f"head {self.head}\nIt was closed.\n1 notes of it are left out.\n"))

    def test_files_of_a_folder_orders_and_lists(self) -> None:
        run("cut", "sealed", "folder", "--segment-calls", "1", cwd=self.folder)
        self.assertEqual(b"".join(path.read_bytes()[24:] for path in sorted((self.folder / "folder").iterdir())),
                         self.plain[24:])
        self.see_origin("folder")
        for _ in range(2):
            done = run("order", "sealed", "--out", "order", "--force", cwd=self.folder)
            self.assertEqual(done.stdout, "2 turns\n", done.stderr)
        self.see_origin("order")
        for words in (("list",), ("list", "--call", "1"), ("sift", "--list")):
            told = [run(words[0], source, *words[1:], cwd=self.folder).stdout for source in ("sealed", "plain")]
            self.assertEqual(told[0], told[1])
            self.assertGreater(told[0].count("\n"), 0)

    def test_a_pipe_is_read_once(self) -> None:
        os.mkfifo(self.folder / "pipe")
        writing = threading.Thread(target=(self.folder / "pipe").write_bytes, args=((self.folder / "sealed").read_bytes(),))
        writing.start()
        done = run_apart("blind", "pipe", "blinded", cwd=self.folder)
        writing.join()
        self.assertEqual((done.returncode, done.stderr), (0, ""))
        self.assertEqual(len(read_marks(str(self.folder / "blinded"))), 5)

    def test_what_is_broken_is_refused_and_what_has_no_close_is_said_to_have_none(self) -> None:
        for word, more in (("translate", []), ("sift", []), ("blind", []), ("cut", ["--calls", "1-3"]),
                           ("cut", ["--segment-calls", "1"])):
            self.assertIn("turned is broken at offset ", self.refused(word, "turned", "new", *more))
        self.assertIn("turned is broken at offset ", self.refused("order", "turned", "--out", "new"))
        self.assertEqual(run("translate", "torn", "new", cwd=self.folder).returncode, 0)
        self.assertIn("It has no close: ", (self.folder / "new.origin").read_text())

    def test_an_origin_that_is_there_is_not_written_over(self) -> None:
        (self.folder / "new.origin").write_text("mine")
        self.assertIn("new.origin is there already", self.refused("translate", "sealed", "new"))
        self.assertEqual((self.folder / "new.origin").read_text(), "mine")

    def convicted(self) -> tuple[Path, str]:
        """A folder with a recorded lie, whose transcript is sealed, and the auditor's line on it."""
        folder = self.folder / "lie"
        shutil.copytree(EXAMPLES / "register_get_other_byte", folder)
        (folder / "transcript.ttlv").rename(folder / "old")
        self.assertEqual(run("seal", "old", "transcript.ttlv", cwd=folder).returncode, 0)
        return folder, (folder / "line").read_text()

    def test_a_report_judges_a_sealed_one_as_it_is(self) -> None:
        folder, line = self.convicted()
        done = subprocess.run([sys.executable, FOLDER / "kmip_report", self.folder / "page.html", folder, "--text"],
                              capture_output=True, text=True, timeout=120, check=False)
        self.assertEqual((done.returncode, done.stderr), (1, ""))
        told = re.sub(r" *\\\n *| +", " ", done.stdout)
        self.assertIn(line.strip(), told)
        self.assertIn(hashlib.sha256((folder / "transcript.ttlv").read_bytes()).hexdigest(), told)
        self.assertIn(f"$ kmip_audit check {folder}/transcript.ttlv {folder}/declaration.ttlv {folder}/witness.ttlv", told)
        data = bytearray((folder / "transcript.ttlv").read_bytes())
        data[-100] ^= 1
        (folder / "transcript.ttlv").write_bytes(data)
        done = subprocess.run([sys.executable, FOLDER / "kmip_report", "-", folder, "--text"], capture_output=True, text=True,
                              timeout=120, check=False)
        self.assertEqual((done.returncode, done.stderr), (4, ""))
        self.assertRegex(done.stdout, r"malformed: transcript offset \d+ kind 12 Seal")

    def test_a_sealed_one_is_shrunk(self) -> None:
        folder, _ = self.convicted()
        done = run("shrink", "transcript.ttlv", "declaration.ttlv", "out", cwd=folder)
        self.assertEqual(done.stdout, "2 of 86 calls are left: 7, 53\nno order explains them; kmip_audit search: gave up: 2 "
                         "steps\n", done.stderr)
        self.assertIn("This was drawn from transcript.ttlv, ", (folder / "out.origin").read_text())

    def test_the_auditor_judges_what_was_drawn(self) -> None:
        self.put("answered", *sealed(header(), [*call(1), close(2)]))
        run("translate", "answered", "transcript.ttlv", cwd=self.folder)
        run("declare", "--empty", "--out", "declaration.ttlv", cwd=self.folder)
        run("order", "answered", "--out", "witness.ttlv", cwd=self.folder)
        self.assertEqual(audit(self.folder), "yes\n")


if __name__ == "__main__":
    unittest.main()
