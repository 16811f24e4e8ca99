"""The Debian package in a fresh root: it installs, all examples run there, and removing it leaves nothing."""

from __future__ import annotations

import os
import re
import shutil
import tempfile
import unittest
from pathlib import Path

import root
from made import COMMANDS, TOP, packages, run

LAST_LINE = r"(\d+) passed, 0 failed\n\Z"
# What dpkg itself keeps of its work.
OF_DPKG = ("/var/lib/dpkg", "/var/log", "/var/cache")
# Python compiles what it runs: its own modules too, which are not the package's.
COMPILED, OWN = "__pycache__", "/usr/lib/kmip-audit/"


class InAFreshRoot(unittest.TestCase):
    """One root for all tests, which go in their order: it is installed, used and removed."""

    folder: tempfile.TemporaryDirectory
    root: Path

    @classmethod
    def setUpClass(cls) -> None:
        cls.folder = tempfile.TemporaryDirectory(prefix="root-")
        cls.root = Path(cls.folder.name, "root")
        try:
            said = root.make(cls.root)
        except root.NotHere as why:
            cls.folder.cleanup()
            raise unittest.SkipTest(str(why)) from None
        print(f"the fresh root is {said}", flush=True)

    @classmethod
    def tearDownClass(cls) -> None:
        root.give_back(cls.root)
        cls.folder.cleanup()

    def within(self, *words: object) -> str:
        """What these words print in the root, where they end with status 0."""
        alone = ("/usr/bin/env", "-i", "PATH=/usr/bin:/bin", "HOME=/root", "LC_ALL=C.UTF-8")
        done = run("chroot", self.root, *alone, *words)
        self.assertEqual(done.returncode, 0, done.stdout)
        return done.stdout

    def paths(self) -> set[str]:
        """All that is there, but for what dpkg and Python keep of their own."""
        found = run("find", self.root, "-xdev", "-printf", "/%P\\n").stdout.splitlines()
        return {path for path in found if not path.startswith(OF_DPKG) and (COMPILED not in path or OWN in path)}

    def dpkg(self, *words: object) -> None:
        """Has the machine's dpkg do something there."""
        done = run("dpkg", f"--root={self.root}", *words, env={**os.environ, "PATH": "/usr/sbin:/usr/bin:/sbin:/bin"})
        self.assertEqual(done.returncode, 0, done.stdout)

    def test_from_its_coming_to_its_going(self) -> None:
        before = self.paths()
        self.dpkg("--install", packages().the(".deb"))
        with self.subTest("what it brings"):
            for name in COMMANDS:
                self.within(name, "--help")
            self.assertEqual(run("dpkg", f"--root={self.root}", "--verify", "kmip-audit").stdout, "")
        with self.subTest("each example"):
            self._try_examples()
        with self.subTest("the laboratory"):
            self._try_laboratory()
        self.dpkg("--purge", "kmip-audit")
        self.assertEqual(self.paths() - before, set())
        self.assertEqual(before - self.paths(), set())

    def _try_examples(self) -> None:
        tried = self.root / "tmp/tried"
        (tried / "scripts").mkdir(parents=True)
        shutil.copy(TOP / "scripts/check-examples", tried / "scripts")
        (tried / "examples").symlink_to("/usr/share/doc/kmip-audit/examples")
        self.assertRegex(self.within("/tmp/tried/scripts/check-examples", "/usr/bin/kmip_audit"), LAST_LINE)
        shutil.rmtree(tried)

    def _try_laboratory(self) -> None:
        examples = "/usr/share/kmip-audit/examples"
        declared = self.within("kmip_record", "declare", "--empty", "--out", "/tmp/declaration.ttlv")
        self.assertEqual(declared, "0 rows, 0 entries\n")
        self.within("kmip_audit", "show", "/tmp/declaration.ttlv")
        (self.root / "tmp/declaration.ttlv").unlink()
        told = self.within("kmip_report", "-", f"{examples}/recorded/register_get")
        self.assertEqual(told, "1 recordings: 1 yes, 0 not\n")
        walk, = re.findall(r"^    \$ (kmip_record audit /usr/.*)$", (TOP / "README.md").read_text("utf-8"), re.MULTILINE)
        audited = self.within("bash", "-c", f"cd /tmp && {walk}; status=$?; rm -r audited; [ $status -eq 1 ]")
        self.assertRegex(audited, r"no order explains what was recorded\n(.*\n)*audited/report.html shows it\n\Z")
        convicted = self.within("kmip_drive", "calibrate", "--fault", "flipped-bit")
        self.assertRegex(convicted, r"\| flipped-bit \| \S+ \| \d+ \| \d+ \| \d+ \w+ \| [\d.]+ \|\n\Z")


if __name__ == "__main__":
    unittest.main()
