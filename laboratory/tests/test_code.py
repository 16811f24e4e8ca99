"""The laboratory's own code: its types and its style, by Debian's mypy and pylint; its programs as Python's packages have
them; and which tests `laboratory/test` runs."""

from __future__ import annotations

import functools
import importlib
import importlib.machinery
import importlib.util
import io
import os
import re
import shutil
import stat
import subprocess
import tempfile
import unittest
from contextlib import redirect_stdout
from pathlib import Path
from types import ModuleType
from unittest import mock

from laboratory import FOLDER

PACKAGE = "kmip_laboratory"
SECONDS_TO_LOOK = 1_500
ENTRY = re.compile(r'^(kmip_\w+) = "([\w.]+):(\w+)"$', re.MULTILINE)


def looked(*words: str) -> subprocess.CompletedProcess[str]:
    """Runs one of the two in the laboratory's folder."""
    return subprocess.run(words, cwd=FOLDER, capture_output=True, text=True, timeout=SECONDS_TO_LOOK, check=False)


class Code(unittest.TestCase):
    """What is found in it."""

    @unittest.skipUnless(shutil.which("mypy"), "needs Debian's mypy")
    def test_types(self) -> None:
        with tempfile.TemporaryDirectory() as cache:
            done = looked("mypy", "--strict", "--cache-dir", cache, PACKAGE)
        self.assertEqual((done.returncode, done.stderr), (0, ""), done.stdout)

    @unittest.skipUnless(shutil.which("pylint"), "needs Debian's pylint")
    def test_style(self) -> None:
        done = looked("pylint", "-j", "2", "--rcfile", "pyproject.toml", PACKAGE)
        self.assertEqual(done.returncode, 0, done.stdout + done.stderr)

    def test_the_entry_points_are_the_programs(self) -> None:
        entries = ENTRY.findall((FOLDER / "pyproject.toml").read_text("utf-8"))
        self.assertEqual([name for name, _, _ in entries], ["kmip_record", "kmip_drive", "kmip_report"])
        for name, module, function in entries:
            with redirect_stdout(io.StringIO()) as told, mock.patch("sys.argv", [name, "--help"]):
                with self.assertRaises(SystemExit) as ended:
                    getattr(importlib.import_module(module), function)()
            self.assertEqual(ended.exception.code, 0)
            self.assertTrue(told.getvalue().startswith(f"usage: {name} "), told.getvalue())
            self.assertIn(f"from {module} import {function}\n", (FOLDER / name).read_text("utf-8"))


def runner(folder: Path = FOLDER) -> ModuleType:
    """The program `laboratory/test`, or its copy in another folder, as a module."""
    loader = importlib.machinery.SourceFileLoader("laboratory_test", str(folder / "test"))
    spec = importlib.util.spec_from_loader("laboratory_test", loader)
    assert spec is not None
    made = importlib.util.module_from_spec(spec)
    loader.exec_module(made)
    return made


class Runner(unittest.TestCase):
    """`laboratory/test` itself."""

    def ran(self, *words: str) -> str:
        """What it prints of one file of tests."""
        with redirect_stdout(io.StringIO()) as told:
            runner().main(["--module", "test_names", *words])
        return told.getvalue()

    def test_tests_by_name(self) -> None:
        everything = re.search(r"(\d+) passed, 0 failed\n\Z", self.ran())
        self.assertGreater(int(everything[1] if everything else 0), 1)
        name = next(each for each in unittest.defaultTestLoader.getTestCaseNames(self.case_of("test_names")))
        self.assertRegex(self.ran("-k", name), r"\n1 passed, 0 failed\n\Z")
        self.assertRegex(self.ran("-k", "no test has this in its name"), r"\n0 passed, 0 failed\n\Z")

    def case_of(self, module: str) -> type:
        """The first class of tests in a file."""
        there = vars(importlib.import_module(module)).values()
        return next(each for each in there if isinstance(each, type) and issubclass(each, unittest.TestCase)
                    and each.__module__ == module)

    def test_a_file_that_breaks_down_is_a_failure_that_says_how(self) -> None:
        for does, seconds, end in (("os._exit(3)", 600, "ended with status 3"),
                                   ("os.kill(os.getpid(), 9)", 600, "was ended by SIGKILL"),
                                   ("faulthandler._sigsegv()", 600, "was ended by SIGSEGV"),
                                   ("subprocess.run(['sleep', '600'])", 3, "was ended, since it took 3 s")):
            with self.subTest(does), tempfile.TemporaryDirectory() as name:
                folder = Path(name)
                (folder / "tests").mkdir()
                shutil.copy(FOLDER / "test", folder)
                (folder / "tests/test_made.py").write_text(
                    "import faulthandler, os, subprocess, unittest\n\n\nclass Made(unittest.TestCase):\n"
                    f"    def test_one(self) -> None:\n        {does}\n")
                made = runner(folder)
                run = functools.partial(made.run_apart, seconds=seconds)
                with mock.patch.object(made, "run_apart", run), redirect_stdout(io.StringIO()) as told:
                    self.assertEqual(made.run_all([]), 1)
                last = f"\nlaboratory/test: test_made has no last line: its process {end}\n0 passed, 1 failed\n"
                self.assertTrue(told.getvalue().endswith(last), told.getvalue())

    def test_packages_are_installed_only_where_that_is_asked(self) -> None:
        with tempfile.TemporaryDirectory() as folder:
            asked = Path(folder) / "asked"
            program = Path(folder) / "apt-get"
            program.write_text(f'#!/bin/sh\necho "$*" >> {asked}\n')
            program.chmod(stat.S_IRWXU)
            with mock.patch.dict(os.environ, {"PATH": folder}), mock.patch("os.geteuid", return_value=0):
                self.assertEqual(self.asked_of(asked), "")
                self.assertIn("python3-pykmip tshark mypy pylint", self.asked_of(asked, "--install"))

    def asked_of(self, asked: Path, *words: str) -> str:
        """What apt-get is asked for where no test runs."""
        made = runner()
        with mock.patch.object(made, "run_all", return_value=0), mock.patch.object(made, "pykmip_python", return_value=None):
            self.assertEqual(made.main(list(words)), 0)
        return asked.read_text() if asked.exists() else ""


class Written(unittest.TestCase):
    """What stands in every file."""

    def files(self) -> list[Path]:
        """All of the package."""
        return sorted((FOLDER / PACKAGE).rglob("*.py"))

    def test_types_are_the_built_in_ones(self) -> None:
        for path in self.files():
            self.assertNotRegex(path.read_text("utf-8"), r"\b(List|Dict|Set|FrozenSet|Tuple|Type)\[", path)

    def test_there_is_one_front(self) -> None:
        for path in self.files():
            if path.name != "front.py":
                self.assertNotRegex(path.read_text("utf-8"), r"\(argparse\.ArgumentParser\):|except WrongWords", path)


if __name__ == "__main__":
    unittest.main()
