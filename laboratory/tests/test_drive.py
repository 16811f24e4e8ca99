"""kmip_drive: plans, mixes, what befalls calls, recordings, and verdicts on the simulated server."""

from __future__ import annotations

import re
import signal
import subprocess
import sys
import unittest
from itertools import islice

from laboratory import AUDITOR, FOLDER, SECONDS, Begin, End, Laboratory, read_marks, run, run_here, wait_until
from laboratory import audit as checked

from kmip_laboratory.auditor import Auditor
from kmip_laboratory.driving import calibrate, mixes, plan, wire
from kmip_laboratory.auditing.decide import decide
from kmip_laboratory.auditing.ending import convicted
from kmip_laboratory.auditing.part import PART, Part
from kmip_laboratory.driving.faults import FAULTS, description
from kmip_laboratory.driving.numbers import Operation
from kmip_laboratory.driving.words import main
from kmip_laboratory.trouble import Trouble
from kmip_laboratory.verdicts import Outcome

DRIVER = FOLDER / "kmip_drive"
NAMED = ("batches", "everything", "hot-keys", "lifecycle", "locate")
# A sample of the faults that are quick to be seen; the others stand in docs/CALIBRATION.md.
SAMPLE = ("flipped-bit", "reason-that-is-not-so", "lost-activate")


def driven(*words: object, **more: object) -> subprocess.CompletedProcess:
    """Does what kmip_drive does with these words, up to its end."""
    return run_here(main, words, **more)


class Plans(unittest.TestCase):
    """What is asked is drawn from the seed alone."""

    def calls(self, seed: int, client: int = 1, mix: str = "everything") -> list[plan.PlannedCall]:
        return list(islice(plan.Plan(seed, client, mixes.find(mix)).calls(), 300))

    def test_the_same_seed_gives_the_same_plan(self) -> None:
        self.assertEqual(self.calls(7), self.calls(7))

    def test_another_seed_or_client_gives_another(self) -> None:
        self.assertNotEqual(self.calls(7), self.calls(8))
        self.assertNotEqual(self.calls(7), self.calls(7, client=2))

    def test_everything_asks_all_operations_and_all_options(self) -> None:
        calls = self.calls(1)
        asked = {item.ask.operation for call in calls for item in call.items}
        self.assertEqual(asked, {Operation.CREATE, Operation.REGISTER, Operation.LOCATE, Operation.GET,
                                 Operation.GET_ATTRIBUTES, Operation.ACTIVATE, Operation.REVOKE, Operation.DESTROY})
        self.assertEqual({call.option for call in calls if len(call.items) > 1}, {None, 1, 2, 3})
        codes = {item.ask.code for call in calls for item in call.items if item.ask.operation == Operation.REVOKE}
        self.assertEqual(codes, set(range(1, 8)), "a Revoke with each sort of code")


class Mixes(unittest.TestCase):
    """The text files of mixes."""

    def test_the_five_are_there(self) -> None:
        self.assertEqual(mixes.there(), sorted(NAMED))
        for name in NAMED:
            self.assertGreater(sum(weight for _, weight in mixes.find(name).weights), 0)

    def test_what_a_text_says(self) -> None:
        mix = mixes.read("mine", "# mine\nget 3 # often\nlocate 1\nhot 2\nbatch 0.5\n", "mine.mix")
        self.assertEqual(mix.weights, (("get", 3.0), ("locate", 1.0)))
        self.assertEqual((mix.counts["hot"], mix.shares["batch"]), (2, 0.5))

    def test_faults_are_told_with_their_line(self) -> None:
        for text, told in (("get 3\nfetch 4", "mine.mix line 2: 'fetch' is no word of a mix"),
                           ("get", "mine.mix line 1: 'get' is not a word and a number"),
                           ("get many", "is not a word and a number"), ("get nan", "is no number for get"),
                           ("batch 2", "batch is a share, from 0 to 1"), ("hot 0\nget 1", "is no number for hot"),
                           ("# nothing", "gives no operation a weight")):
            with self.subTest(text=text), self.assertRaisesRegex(Trouble, told):
                mixes.read("mine", text, "mine.mix")


class OnTheWire(Laboratory):
    """The programs as a person meets them."""

    def simulated(self, *more: str) -> int:
        """A simulated server, and the port that it listens at."""
        words = ["simulate", "--listen", "127.0.0.1:0", "--cert", "server.pem", "--key", "server.key", "--ca",
                 "authority.pem", *more]
        said = self.folder / "said"
        with open(said, "w") as file:
            server = subprocess.Popen([sys.executable, str(DRIVER), *words], cwd=self.certificates, stdout=file,
                                      stderr=file)
        self.addCleanup(server.wait, SECONDS)
        self.addCleanup(server.send_signal, signal.SIGINT)
        wait_until(lambda: "is at 127.0.0.1:" in said.read_text(), "the simulated server")
        return int(re.search(r"is at 127\.0\.0\.1:(\d+)", said.read_text()).group(1))

    def drive(self, port: int, *more: object, word: str = "drive") -> subprocess.CompletedProcess:
        return driven(word, "--server", f"127.0.0.1:{port}", "--cert", "client-1.pem", "--key", "client-1.key", "--ca",
                      "authority.pem", *more, cwd=self.certificates)

    def test_a_recording_of_all_calls(self) -> None:
        out = self.folder / "out"
        done = self.drive(self.simulated("--pace", "10"), "--calls", "120", "--clients", "3", "--out", out)
        self.assertEqual((done.returncode, done.stderr), (0, ""))
        self.assertIn("120 calls, 0 open calls, ", done.stdout)
        marks = read_marks(str(out / "transcript.ttlv"))
        begins = [mark for mark in marks if isinstance(mark, Begin)]
        self.assertEqual((len(begins), len(marks)), (120, 240))
        self.assertEqual({mark.client for mark in begins}, {"client-1", "client-2", "client-3"})
        self.assertIn(f" 0 open calls, {(out / 'transcript.ttlv').stat().st_size} bytes\n", done.stdout)
        self.assertEqual(run("verify", out / "transcript.ttlv").returncode, 0, "it is sealed, and closed")
        again = self.drive(1, "--out", out)
        self.assertEqual(again.returncode, 1)
        self.assertIn(f"{out} is there already", again.stderr)

    def test_no_recording_is_a_file_that_is_read(self) -> None:
        mix, link = self.folder / "own.mix", self.folder / "link"
        mix.write_text("get 1\n")
        link.symlink_to(self.certificates / "client-1.key")
        for word in ("drive", "audit"):
            for out in ("client-1.pem", "client-1.key", "authority.pem", link, mix):
                done = self.drive(1, "--mix", mix, "--out", out, word=word)
                self.assertEqual((done.returncode, done.stdout, done.stderr.count("\n")), (64, "", 1), done.stderr)
                self.assertIn(f"kmip_drive: {out} is an input too", done.stderr)

    def test_what_befalls_calls_is_counted_and_leaves_open_calls(self) -> None:
        out = self.folder / "out"
        done = self.drive(self.simulated(), "--calls", "200", "--cut-before-sending", "0.1", "--cut-in-request", "0.1",
                          "--cut-after-sending", "0.1", "--cut-in-answer", "0.1", "--slow", "0.05", "--end", "0.01",
                          "--out", out, "--format", "1")
        self.assertEqual(done.returncode, 0, done.stderr)
        self.assertIn("is not sealed: it is of version 1", run("verify", out / "transcript.ttlv").stderr)
        last = done.stdout.splitlines()[-1]
        counted = {what: int(number) for number, what in re.findall(r"(\d+) ([a-z][a-z ]+)", last)}
        marks = read_marks(str(out / "transcript.ttlv"))
        begun = sum(isinstance(mark, Begin) for mark in marks)
        ended = sum(isinstance(mark, End) for mark in marks)
        self.assertEqual(begun, 200 - counted["cut before sending"] - counted["cut in the request"])
        self.assertEqual(begun - ended, counted["open calls"])
        self.assertEqual(counted["open calls"], counted["cut after sending"] + counted["cut in the answer"])
        self.assertTrue(all(counted[what] for what in ("cut before sending", "cut in the request", "read slowly")))

    def test_older_versions_are_spoken(self) -> None:
        port = self.simulated()
        for version in ("1.0", "1.2", "1.4", "2.0"):
            done = self.drive(port, "--calls", "60", "--kmip", version)
            with self.subTest(version=version):
                self.assertEqual((done.returncode, done.stderr), (0, ""))
                self.assertNotIn("refused messages", done.stdout)
                self.assertRegex(done.stdout, r"Get Attributes: \d+ asked, [1-9]\d* done")

    def test_one_command_says_yes_to_a_server_that_is_right(self) -> None:
        out = self.folder / "out"
        done = self.drive(self.simulated("--pace", "10"), "--calls", "60", "--clients", "2", "--pause", "0.005",
                          "--mix", "lifecycle", "--out", out, "--auditor", AUDITOR, word="audit")
        self.assertEqual(done.returncode, 0, done.stdout + done.stderr)
        self.assertRegex(done.stdout, r"declaration: 0 rows, 0 entries\n(.*\n)*explained\n")
        self.assertEqual(checked(out), "yes\n")
        self.assertIn(f"{out / 'report.html'} shows it\n", done.stdout)
        self.assertIn("<pre>explained</pre>", (out / "report.html").read_text("utf-8"))
        self.assertEqual(run("verify", out / "transcript.ttlv").returncode, 0)

    def test_one_command_says_yes_in_every_version(self) -> None:
        port = self.simulated("--pace", "10")
        for version in wire.VERSIONS:
            done = self.drive(port, "--calls", "60", "--clients", "2", "--pause", "0.005", "--kmip", version, "--out",
                              self.folder / version, "--auditor", AUDITOR, word="audit")
            with self.subTest(version=version):
                self.assertEqual(done.returncode, 0, done.stdout + done.stderr)
                self.assertIn("\nexplained\n", done.stdout)
                self.assertIn("report.html shows it\n", done.stdout)

    def test_the_newest_version_is_found_out_where_none_is_given(self) -> None:
        out = self.folder / "out"
        done = self.drive(self.simulated(), "--calls", "10", "--empty", "--out", out, "--auditor", AUDITOR, word="audit")
        self.assertEqual(done.returncode, 0, done.stdout)
        self.assertEqual(done.stderr, "kmip_drive: the server is spoken to in version 2.1\n")

    def test_what_is_forgotten_is_left_in_the_recording_beside(self) -> None:
        out = self.folder / "out"
        done = self.drive(self.simulated("--fault", "initial-date-early", "--rate", "1"), "--calls", "60", "--clients",
                          "1", "--kmip", "2.1", "--empty", "--out", out, "--forget", "Initial Date", "--auditor", AUDITOR,
                          word="audit")
        self.assertEqual(done.returncode, 0, done.stdout + done.stderr)
        self.assertRegex(done.stderr, r"attributes were taken out of [1-9]\d* messages")
        self.assertEqual(len(read_marks(str(out / "recorded.ttlv"))), 120)
        self.assertIn(f"This was drawn from {out / 'recorded.ttlv'}, ", (out / "transcript.ttlv.origin").read_text())
        self.assertEqual(driven("audit", "--forget", "Colour").returncode, 64)

    def test_one_command_convicts_a_server_that_is_wrong(self) -> None:
        out = self.folder / "out"
        # One client's calls never overlap, so they fail in the order of their answers for the fault's own reason.
        done = self.drive(self.simulated("--pace", "10", "--fault", "flipped-bit", "--rate", "1"), "--calls", "60",
                          "--clients", "1", "--pause", "0.005", "--out", out, "--auditor", AUDITOR, "--budget", "3000",
                          "--empty", word="audit")
        self.assertEqual(done.returncode, 1, done.stdout + done.stderr)
        self.assertIn("no order explains what was recorded", done.stdout)
        self.assertRegex(done.stdout, r"\nfinding 1: turn \d+ call \d+ item \d+ why 9 BytesDiffer\nat ")
        searched = subprocess.run([AUDITOR, "search", "transcript.ttlv", "declaration.ttlv", "none"], cwd=out / "part-1",
                                  capture_output=True, text=True, timeout=SECONDS * 3)
        self.assertEqual(searched.returncode, 4)
        self.assertLess(int(re.search(r"gave up: (\d+) steps", searched.stdout).group(1)), 1_000_000)
        self.assertIn("(reason 9, BytesDiffer)", (out / "report.html").read_text("utf-8"))
        self.assertIn(f"This was drawn from {out / 'transcript.ttlv'}, ", (out / "part-1/transcript.ttlv.origin").read_text())

    def test_troubles_are_one_line(self) -> None:
        for words, told in ((("--mix", "none"), "the mix none can't be read"),
                            (("--calls", "1", "--seconds", "1"), "--calls and --seconds exclude each other"),
                            (("--slow", "0.9", "--end", "0.2"), "above 1 together"),
                            (("--calls", "9"), "no server at 127.0.0.1:1: ")):
            done = self.drive(1, *words)
            with self.subTest(words=words):
                self.assertEqual((done.returncode, done.stdout, done.stderr.count("\n")), (1, "", 1), done.stderr)
                self.assertIn(told, done.stderr)
        audited = self.drive(1, "--out", self.folder / "none", "--empty", "--auditor", AUDITOR, word="audit")
        self.assertEqual((audited.returncode, audited.stderr.count("\n")), (3, 1), audited.stderr)
        self.assertFalse((self.folder / "none").exists(), "so that the same words serve again")
        wrong = driven("simulate", "--cert", "a", "--key", "b", "--ca", "c", "--fault", "none")
        self.assertEqual((wrong.returncode, wrong.stderr), (
            1, "kmip_drive: there is no fault 'none': `kmip_drive faults` lists them\n"))
        self.assertEqual(driven("drive", "--clients", "0").returncode, 64)


class Convictions(Laboratory):
    """The simulated server without a fault, and with some."""

    def calibration(self, **more: object) -> calibrate.Calibration:
        scale = calibrate.Scale(**{"calls": 60, "budget": 3_000, "seconds": 600, **more})
        return calibrate.Calibration(Auditor(AUDITOR), scale, self.folder)

    def test_without_a_fault_it_is_yes(self) -> None:
        calibration = self.calibration()
        for mix in NAMED:
            row = calibration.without(mix, 1)
            with self.subTest(mix=mix):
                self.assertRegex(row.verdict, r"yes: \d+ steps")

    def test_with_one_it_is_convicted(self) -> None:
        calibration = self.calibration()
        for name in SAMPLE:
            row = calibration.with_fault(name, 1)
            with self.subTest(fault=name):
                self.assertTrue(row.right, row)
                self.assertLessEqual(row.calls, 2_000)

    def test_a_search_that_gives_up_convicts_nothing(self) -> None:
        calibration = self.calibration()
        folder = calibration.record(calibrate.simulate.make([], 10, 3, None, False), "hot-keys", 3)
        decision = decide(folder, Auditor(AUDITOR), 1)
        self.assertEqual((decision.status, decision.convicted), (4, False))
        self.assertFalse((folder / PART).exists())

    def test_what_convicts_is_explained_by_one_order_of_it(self) -> None:
        calibration = self.calibration()
        folder = calibration.record(calibrate.simulate.make([FAULTS["flipped-bit"]], 10, 1, 1.0, False), "everything", 1)
        decision = decide(folder, Auditor(AUDITOR), 3_000)
        self.assertEqual((decision.status, decision.why.outcome, decision.why.name), (1, Outcome.NO, "BytesDiffer"))
        calls = {mark.call for mark in read_marks(str(folder / PART / "transcript.ttlv"))}
        self.assertEqual(calls, set(decision.part))
        self.assertLess(len(calls), 60)
        told, counted = convicted([Part(folder / PART, decision.part)])
        self.assertEqual(told, "no order explains what was recorded")
        self.assertTrue(counted.startswith(f"already these {len(calls)} calls can't be explained: "), counted)
        self.assertTrue(decision.why.explanation)


class Faults(unittest.TestCase):
    """The faults, and what is said of them."""

    def test_each_is_described_and_stands_in_the_table(self) -> None:
        table = (FOLDER.parent / "docs/CALIBRATION.md").read_text("utf-8")
        self.assertGreaterEqual(len(FAULTS), 30)
        for name, fault in FAULTS.items():
            with self.subTest(fault=name):
                self.assertTrue(description(fault).endswith((".", "?")))
                self.assertIn(f"\n- {name} · ", table)
                self.assertIn(fault.mix, NAMED)


if __name__ == "__main__":
    unittest.main()
