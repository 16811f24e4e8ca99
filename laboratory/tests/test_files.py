"""The bytes of the files, against those that docs/FORMATS.md and the standard's encoding spell."""

from __future__ import annotations

import contextlib
import io
import os
import stat
import unittest
from pathlib import Path
from unittest import mock

import messages
from laboratory import InFolder, Laboratory, run

from kmip_laboratory import certificate, ttlv
from kmip_laboratory.files import write_file
from kmip_laboratory.recording.words import main
from kmip_laboratory.transcript_writer import TranscriptWriter
from kmip_laboratory.trouble import Trouble

HEADER = "54000101 00000010 54000202 00000004 00000001 00000000"
REQUEST = """42007801 00000070 42007701 00000038 42006901 00000020
42006A02 00000004 00000002 00000000 42006B02 00000004 00000001 00000000
42000D02 00000004 00000001 00000000 42000F01 00000028
42005C05 00000004 0000000A 00000000 42007901 00000010
42009407 00000002 6B310000 00000000"""
BEGIN_MARK = """54001001 000000A0 54001102 00000004 00000001 00000000
54001207 00000001 61000000 00000000 54001308 00000078"""
EMPTY = """54003001 00000020 54000202 00000004 00000001 00000000
54003106 00000008 00000000 00000000"""
UNIQUE = EMPTY[:-1] + "1"
ROWS = """54003201 00000020 42007E05 00000004 00000001 00000000 54003305 00000004 00000001 00000000
54003201 00000020 42007E05 00000004 0000000C 00000000 54003305 00000004 00000002 00000000"""
WITNESS = """54004001 00000010 54000202 00000004 00000001 00000000
54004101 00000010 54001102 00000004 00000002 00000000
54004101 00000010 54001102 00000004 00000001 00000000"""


class Files(Laboratory):
    """Transcript, declaration and witness."""

    def test_a_begin_mark(self) -> None:
        path = self.folder / "transcript.ttlv"
        with TranscriptWriter(str(path)) as transcript:
            transcript.begin("a", bytes.fromhex(REQUEST))
            self.assertEqual(transcript.summary(), "1 calls, 1 open calls, 192 bytes")
        self.assertEqual(path.read_bytes(), bytes.fromhex(HEADER + BEGIN_MARK + REQUEST))
        self.assertEqual(path.stat().st_mode & 0o777, 0o600, "it has the bytes of keys in it")

    def test_an_empty_declaration(self) -> None:
        self.assertEqual(self.declared("--empty"), bytes.fromhex(EMPTY))

    def test_rows_and_unique_names(self) -> None:
        words = ["--empty", "--unique-names", "--reason", "1=NotFound", "--reason", "0x0C=WrongState"]
        self.assertEqual(self.declared(*words), bytes.fromhex(UNIQUE + ROWS))

    def declared(self, *words: str) -> bytes:
        path = self.folder / "declaration.ttlv"
        done = run("declare", *words, "--out", path)
        self.assertEqual((done.returncode, done.stderr), (0, ""))
        return path.read_bytes()

    def test_an_order_by_stamps_and_then_by_ends(self) -> None:
        path = self.folder / "transcript.ttlv"
        with TranscriptWriter(str(path)) as transcript:
            first, second, third = (transcript.begin("a", messages.get(name)) for name in ("1", "2", "3"))
            transcript.end(second, messages.not_found(1_700_000_000))
            transcript.end(first, messages.not_found(1_700_000_000))
            self.assertEqual(third, 3)
        done = run("order", path, "--out", self.folder / "witness.ttlv")
        self.assertEqual((done.returncode, done.stdout), (0, "2 turns\n"))
        self.assertIn("this order is a guess", done.stderr)
        self.assertEqual((self.folder / "witness.ttlv").read_bytes(), bytes.fromhex(WITNESS))

    def test_a_transcript_has_no_more_calls_than_the_auditor_reads(self) -> None:
        path = self.folder / "transcript.ttlv"
        with TranscriptWriter(str(path)) as transcript, mock.patch("kmip_laboratory.transcript_writer.MOST_CALLS", 1):
            transcript.begin("a", messages.get("1"))
            with self.assertRaisesRegex(Trouble, "record what follows into another file"):
                transcript.begin("a", messages.get("2"))
            self.assertTrue(transcript.summary().startswith("1 calls, 1 open calls, "))

    def test_stamps_come_ahead_of_ends(self) -> None:
        path = self.folder / "transcript.ttlv"
        with TranscriptWriter(str(path)) as transcript:
            first, second = (transcript.begin("a", messages.get(name)) for name in ("1", "2"))
            transcript.end(first, messages.not_found(1_700_000_001))
            transcript.end(second, messages.not_found(1_700_000_000))
        run("order", path, "--out", self.folder / "witness.ttlv")
        self.assertEqual((self.folder / "witness.ttlv").read_bytes(), bytes.fromhex(WITNESS))


class Making(InFolder):
    """How files are made, whole or not at all."""

    def test_what_a_killed_run_left_hinders_no_other_and_stays(self) -> None:
        source, new = self.folder / "t", self.folder / "new"
        with TranscriptWriter(str(source)) as transcript:
            transcript.begin("a", bytes.fromhex(REQUEST))
        left = self.folder / f"new.{os.getpid()}.part"
        for words in (["order", source, "--out", new], ["order", source, "--out", new, "--force"],
                      ["declare", "--empty", "--out", new], ["translate", source, new], ["sift", source, new],
                      ["blind", source, new], ["cut", source, new, "--segment-calls", 1]):
            for is_folder in (False, True):
                with self.subTest(words[0], is_folder=is_folder):
                    self.leave(left, is_folder)
                    with contextlib.redirect_stdout(io.StringIO()), contextlib.redirect_stderr(io.StringIO()) as said:
                        status = main(list(map(str, words)))
                    self.assertEqual((status, said.getvalue().count("already")), (0, 0), said.getvalue())
                    self.assertEqual(sorted(path.name for path in self.folder.iterdir()), ["new", left.name, "t"])
                    self.clear(left, is_folder)
                    for path in [*new.iterdir(), new] if new.is_dir() else [new]:
                        path.rmdir() if path.is_dir() else path.unlink()

    def leave(self, left: Path, is_folder: bool) -> None:
        """Something of a run that was killed, or of somebody else."""
        if is_folder:
            left.mkdir()
        (left / "mine" if is_folder else left).write_bytes(b"mine")

    def clear(self, left: Path, is_folder: bool) -> None:
        """Takes it away again; it has to be as it was."""
        mine = left / "mine" if is_folder else left
        self.assertEqual(mine.read_bytes(), b"mine")
        mine.unlink()
        if is_folder:
            left.rmdir()

    def test_what_can_not_be_written_whole_leaves_what_was_there(self) -> None:
        (self.folder / "old").write_bytes(b"mine")
        with mock.patch("os.fchmod", side_effect=OSError(28, "No space left on device")):
            with self.assertRaisesRegex(Trouble, "old can't be written: No space left on device; give it another name"):
                write_file(str(self.folder / "old"), b"other", force=True)
        self.assertEqual([path.read_bytes() for path in self.folder.iterdir()], [b"mine"])

    @unittest.skipUnless(os.geteuid() == 0, "needs root, which may give a file to others")
    def test_what_is_written_over_keeps_its_owner_where_that_may_be(self) -> None:
        old = self.folder / "old"
        for may, owner, before, mode in ((True, (1234, 2345), 0o664, 0o664), (False, (0, 0), 0o664, 0o644),
                                         (False, (0, 0), 0o640, 0o600), (False, (0, 0), 0o644, 0o644)):
            old.write_bytes(b"mine")
            os.chown(old, 1234, 2345)
            old.chmod(before)
            refusing = contextlib.nullcontext() if may else mock.patch("os.fchown", side_effect=PermissionError)
            with self.subTest(may=may, before=before), refusing:
                write_file(str(old), b"other", force=True)
                there = old.stat()
                self.assertEqual((old.read_bytes(), (there.st_uid, there.st_gid)), (b"other", owner))
                self.assertEqual(stat.S_IMODE(there.st_mode), mode, "another group may do what everybody may")


class Items(unittest.TestCase):
    """Bytes that are no item."""

    def test_what_is_no_item_is_told_with_its_place(self) -> None:
        for spelled, words in {
                "42001006 00000008 00000000 00000002": "neither 0 nor 1 at offset 8",
                "42009407 00000001 FF000000 00000000": "not UTF-8 at offset 8",
                "4200940C 00000000": "unknown type 0C at offset 0",
                "42000D02 00000008 00000000 00000001": "type 02 with the length 8 at offset 0",
                "54000101 00000008 54000202 00000004": "runs past its structure at offset 8",
                "42007801 00000070 42007701": "an item of 120 bytes, in 12"}.items():
            with self.subTest(spelled), self.assertRaisesRegex(ttlv.NotTtlv, words):
                ttlv.read_item(bytes.fromhex(spelled))

    def test_sixteen_levels_and_no_more(self) -> None:
        nested = b""
        for _ in range(16):
            nested = messages.item(0x540001, 1, nested)
        ttlv.read_item(nested)
        with self.assertRaisesRegex(ttlv.NotTtlv, "more than 16 levels at offset 128"):
            ttlv.read_item(messages.item(0x540001, 1, nested))

    def test_padding_may_be_anything(self) -> None:
        self.assertEqual(ttlv.read_item(bytes.fromhex("42009407 00000002 6B31FFFF FFFFFFFF")).value, "k1")

    def test_every_kind_is_spelled_as_it_was_read(self) -> None:
        children = ("42000102 00000004 FFFFFFFF 00000000 42000103 00000008 FFFFFFFF FFFFFFFE 42000104 00000008 00000000"
                    "00000001 42000105 00000004 80000001 00000000 42000106 00000008 00000000 00000001 42000107 00000001"
                    "61000000 00000000 42000108 00000003 01020300 00000000 42000109 00000008 00000000 6553F100 4200010A"
                    "00000004 FFFFFFFF 00000000 4200010B 00000008 80000000 00000000")
        spelled = messages.item(0x420001, 1, bytes.fromhex(children))
        self.assertEqual(ttlv.spell(ttlv.read_item(spelled)), spelled)

    def test_bytes_that_are_no_certificate_have_no_name(self) -> None:
        for data in (b"", b"\x30", b"\x30\x02\x30\x00", b"certificate"):
            self.assertIsNone(certificate.common_name(data))


if __name__ == "__main__":
    unittest.main()
