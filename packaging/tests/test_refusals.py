"""Which builds are packaged: such as the check passed, as they stand, of what is committed."""

from __future__ import annotations

import json
import shutil
import subprocess
import sys
import tempfile
import unittest
from pathlib import Path

from made import PROGRAM, TOP

WELL = "rt: ok; handles allowed: none; every proof and must-fail edit was done in this run\n"
LOOK = "from kmip_package import proof; proof.see_that_passed()"
# A kit's command that tells a version, and runs or refuses as the file beside it says.
RT = """\
#!/bin/sh
case $1 in
version) cat "{place}/version" ;;
run) echo "rt: what it proved"; exit "$(cat "{place}/status")" ;;
esac
"""

# What `rt ci` prints of crates ahead of that.
CRATES = """\
== kmipa_ttlv
library core: modules loaded=1
logic=proved functions=123 sum=1
rt: kmipa_ttlv proved
== kmipa_ttlv: its tests
logic=proved functions=9 sum=2
rt: kmipa_ttlv: its tests are proved
rt: kmipa_attrs is kept: an earlier run
"""


class Refusals(unittest.TestCase):
    """A clone of the repository, with the program beside its crate and a kit's command of the test's own."""

    def setUp(self) -> None:
        folder = tempfile.TemporaryDirectory(prefix="refusals-")
        self.addCleanup(folder.cleanup)
        self.place = Path(folder.name)
        self.repository = self.place / "repository"
        self.git("clone", "--quiet", "--shared", str(TOP), str(self.repository), within=self.place)
        self.out = self.repository / "crates/kmip_audit/out"
        self.out.mkdir()
        self.program = self.out / "kmip_audit"
        shutil.copy(PROGRAM, self.program)
        (self.place / "rt").write_text(RT.format(place=self.place), "utf-8")
        (self.place / "rt").chmod(0o755)
        (self.place / "version").write_text("rattle-kit-1 logic 0123456789abcdef\n", "utf-8")
        (self.place / "status").write_text("0\n", "utf-8")

    def git(self, *words: str, within: Path) -> None:
        """Has git do something."""
        of_nobody = ("-c", "user.name=nobody", "-c", "user.email=nobody@example.org")
        subprocess.run(["git", *of_nobody, *words], cwd=within, check=True, capture_output=True)

    def asked(self, *words: str) -> subprocess.CompletedProcess[str]:
        """Runs these words of Python in the clone."""
        path = f"{self.place}:/usr/bin:/bin"
        modules = ":".join(str(self.repository / folder) for folder in ("packaging", "laboratory"))
        return subprocess.run([sys.executable, "-B", *words], cwd=self.repository, capture_output=True, text=True,
                              env={"PATH": path, "PYTHONPATH": modules}, check=False)

    def noted(self, said: str) -> int:
        """The status of noting what `rt ci` said."""
        (self.place / "said").write_text(said, "utf-8")
        return self.asked("scripts/package", "--passed", str(self.place / "said")).returncode

    def refused(self) -> str:
        """What is said where the build is refused; nothing where it is not."""
        done = self.asked("-c", LOOK)
        return done.stderr.splitlines()[-1] if done.returncode else ""

    def commit(self, path: str) -> None:
        """Commits a change of this file."""
        file = self.repository / path
        file.write_text(file.read_text("utf-8") + "\n", "utf-8")
        self.git("commit", "--quiet", "--all", "--message", "a change", within=self.repository)

    def test_a_build_of_which_nothing_is_said(self) -> None:
        done = self.asked("scripts/package", str(self.place / "made"))
        self.assertEqual((done.returncode, done.stdout, done.stderr.count("\n")), (1, "", 1), done.stderr)
        self.assertIn("nothing says that the check passed crates/kmip_audit/out/kmip_audit", done.stderr)
        self.assertFalse((self.place / "made").exists())

    def test_a_check_that_did_not_pass_is_not_noted(self) -> None:
        for said in ("", WELL + "14 passed, 1 failed\n", "14 passed, 0 failed\n", WELL,
                     WELL + "14 passed, 0 failed (kmip_audit and the crates below alone: not the gate)\n"):
            with self.subTest(said=said):
                self.assertEqual(self.noted(said), 1)
                self.assertIn("nothing says", self.refused())

    def test_one_that_passed_is_packaged(self) -> None:
        self.assertEqual(self.noted(CRATES + WELL + "14 passed, 0 failed\n"), 0)
        done = self.asked("scripts/package", str(self.place / "made"))
        self.assertEqual(done.returncode, 0, done.stderr)
        stated = (self.place / "made/STATEMENT").read_text("utf-8")
        self.assertIn("kit      rattle-kit-1 logic 0123456789abcdef\n", stated)
        self.assertNotIn("NOT PROVED", stated)
        self.assertIn("word for word:\n\n  logic=proved functions=123 sum=1\n  rt: kmipa_ttlv proved\n"
                      "  rt: kmipa_attrs is kept: an earlier run\n\n", stated)
        again = self.asked("scripts/package", str(self.place / "made"))
        self.assertIn("is there already", again.stderr)

    def test_what_changes_after_the_check(self) -> None:
        self.assertEqual(self.noted(WELL + "14 passed, 0 failed\n"), 0)
        self.commit("docs/MAP.md")
        self.assertEqual(self.refused(), "", "no proof is of the documents")
        (self.repository / "docs/MAP.md").write_text("changed", "utf-8")
        self.assertIn("the working tree is not as the commit has it", self.refused())
        self.git("checkout", "--quiet", "docs/MAP.md", within=self.repository)
        (self.place / "version").write_text("rattle-kit-2 logic 0123456789abcdef\n", "utf-8")
        self.assertIn("nothing says", self.refused())
        (self.place / "version").write_text("rattle-kit-1 logic 0123456789abcdef\n", "utf-8")
        self.assertEqual(self.refused(), "")
        with self.program.open("ab") as program:
            program.write(b"\0")
        self.assertIn("nothing says", self.refused())
        shutil.copy(PROGRAM, self.program)
        self.assertEqual(self.refused(), "")
        self.commit("crates/kmip_audit/src/main.rt")
        self.assertIn("nothing says", self.refused())
        note = json.loads((self.out / "passed").read_text("utf-8"))
        self.assertEqual(sorted(note), ["closing", "kit", "program", "sources"])

    def test_where_there_is_a_stamp_the_kit_is_asked(self) -> None:
        (self.out / "kmip_audit.stamp").write_text("0123", "utf-8")
        self.assertEqual(self.refused(), "")
        (self.place / "status").write_text("1\n", "utf-8")
        self.assertIn("rt run -- --version ended with status 1, so nothing is packaged", self.refused())
        self.assertIn("rt: what it proved\n", self.asked("-c", LOOK).stderr)

    def test_another_version_than_that_of_the_changes(self) -> None:
        changes = self.repository / "docs/CHANGES.md"
        changes.write_text(changes.read_text("utf-8").replace("## 0.1.0", "## 9.9.9"), "utf-8")
        self.git("commit", "--quiet", "--all", "--message", "a version", within=self.repository)
        self.assertEqual(self.noted(WELL + "14 passed, 0 failed\n"), 0)
        done = self.asked("scripts/package", str(self.place / "made"))
        self.assertIn("docs/CHANGES.md begins with 9.9.9", done.stderr)

    def test_wrong_words(self) -> None:
        for words in ((), ("--passed", "a", "b"), ("--passed", "a", "--unproved", "b"), ("a", "b")):
            self.assertEqual(self.asked("scripts/package", *words).returncode, 64, words)


if __name__ == "__main__":
    unittest.main()
