"""What is made: the same bytes each time, whole, with what a person needs; and the program's own needs."""

from __future__ import annotations

import gzip
import os
import re
import shutil
import tarfile
import tempfile
import time
import unittest
from pathlib import Path

from made import COMMANDS, IS_BUILT, PROGRAM, TOP, packages, run

from kmip_package import completions, contents, repository, statement

C_LIBRARY = {"linux-vdso.so.1", "libc.so.6", "libm.so.6", "ld-linux-x86-64.so.2"}
MOST_MILLISECONDS = 5
# How often it is started at most until one start is so quick: a machine that does much else takes now and then more.
STARTS = 1_000
# How many seconds zsh's completion is waited for.
SECONDS_TO_COMPLETE = (2, 10, 30)
# Documents that speak of the repository itself.
OF_DEVELOPERS = ("ADDING", "CHANGES", "CONTRIBUTING", "DECISIONS", "MAP", "PROOFS", "SPEED", "TESTS")
OF_LABORATORY = re.compile(r"`laboratory/([\w./-]*)")
OPTION_IN_MANUAL = re.compile(r"--[a-z][a-z-]*")
ASK_BASH = """\
source "$1"; shift
name=$1 COMP_WORDS=("$@") COMP_CWORD=$(($# - 1))
"_$name"
printf '%s\\n' "${COMPREPLY[@]}"
"""
# Types the words at a terminal of zsh's own, and prints what the completion shows.
ASK_ZSH = """\
zmodload zsh/zpty
zpty asked zsh -f -i
zpty -w asked "PS1=; fpath=($1 \\$fpath); autoload -U compinit; compinit -u -D; echo ready"
zpty -r asked line '*ready*ready*'
zpty -w -n asked "$2"$'\\t\\t'
sleep $3
while zpty -r -t asked line; do print -r -- "$line"; done
zpty -d asked
"""


class Bytes(unittest.TestCase):
    """What is in the folder."""

    def test_it_is_made(self) -> None:
        for done in packages().said:
            self.assertEqual(done.returncode, 0, done.stdout)
        self.assertEqual(len(packages().files()), 4)

    def test_the_same_commit_gives_the_same_bytes(self) -> None:
        one, two = packages().folders
        for name in packages().files():
            self.assertEqual((one / name).read_bytes(), (two / name).read_bytes(), name)

    def test_the_sums_are_those_of_the_files(self) -> None:
        done = run("sha256sum", "--check", "--strict", "SHA256SUMS", cwd=packages().folders[0])
        self.assertEqual((done.returncode, done.stdout.count(": OK\n")), (0, 3), done.stdout)

    def test_the_statement_says_what_was_proved(self) -> None:
        stated = packages().the("STATEMENT").read_text("utf-8")
        commit = run("git", "rev-parse", "HEAD", cwd=TOP).stdout.strip()
        self.assertIn(f"commit   {commit}, of 20", stated)
        self.assertRegex(stated, r"kit      rattle-kit-\w+ logic [0-9a-f]{16}\n")
        digest = run("sha256sum", PROGRAM).stdout.split()[0]
        self.assertIn(f"built    SHA-256 {digest}, without the commit", stated)
        self.assertEqual("NOT PROVED" in stated, not IS_BUILT)

    def test_the_crates_are_those_that_the_program_stands_on(self) -> None:
        stated = statement.text("0", repository.commit(), "", statement.Program(b"", b""), {})
        rows = re.findall(r"^  (\w+) +([\d,]+)$", stated, re.MULTILINE)
        counts = [int(count.replace(",", "")) for _, count in rows]
        self.assertEqual(sum(counts[:-1]), counts[-1])
        lines = [line.split(":") for line in (TOP / "crates.txt").read_text("utf-8").splitlines() if ":" in line]
        needs = {name: rest.split() for name, rest in lines}
        named: set[str] = {name for name, _ in rows} - {"together"}
        self.assertIn("kmip_audit", named)
        for each in named:
            self.assertLessEqual(set(needs[each]) & set(needs), named)
            self.assertTrue(each == "kmip_audit" or any(each in needs[other] for other in named), each)

    def test_whom_files_belong_to_and_when_they_were_made(self) -> None:
        moment = int(run("git", "show", "--no-patch", "--format=%ct", "HEAD", cwd=TOP).stdout)
        with tarfile.open(packages().the(".tar.gz")) as archive:
            entries = archive.getmembers()
        self.assertEqual({(each.uid, each.gid, each.mtime) for each in entries}, {(0, 0, moment)})
        self.assertLessEqual({oct(each.mode) for each in entries}, {"0o755", "0o644", "0o777"})
        self.assertEqual({each.name.split("/")[0] for each in entries},
                         {packages().the(".tar.gz").name.replace("_amd64.tar.gz", "").replace("_", "-")})

    @unittest.skipUnless(shutil.which("dpkg-deb"), "dpkg-deb is not there")
    def test_dpkg_reads_the_package(self) -> None:
        told = run("dpkg-deb", "--field", packages().the(".deb")).stdout
        for line in ("Package: kmip-audit", "Architecture: amd64", "Section: utils"):
            self.assertIn(f"{line}\n", told)
        self.assertRegex(told, r"Version: \d+\.\d+\.\d+(~unproved)?\n")
        self.assertRegex(told, r"Depends: libc6 \(>= 2\.\d+\), python3 \(>= 3\.9\)\n")
        listed = run("dpkg-deb", "--contents", packages().the(".deb")).stdout
        for line in listed.splitlines():
            self.assertRegex(line, r"^[-dl]\S+ root/root ")
        for name in COMMANDS:
            for path in (f"./usr/bin/{name}", f"./usr/share/man/man1/{name}.1.gz",
                         f"./usr/share/bash-completion/completions/{name}",
                         f"./usr/share/zsh/vendor-completions/_{name}"):
                self.assertIn(f" {path}", listed)


class InTheArchive(unittest.TestCase):
    """The tar archive, unpacked anywhere."""

    def setUp(self) -> None:
        folder = tempfile.TemporaryDirectory(prefix="unpacked-")
        self.addCleanup(folder.cleanup)
        with tarfile.open(packages().the(".tar.gz")) as archive:
            archive.extractall(folder.name)
        self.top, = Path(folder.name).iterdir()

    def test_the_programs_run_from_there(self) -> None:
        declared = run(self.top / "bin/kmip_record", "declare", "--empty", "--out", self.top / "declaration.ttlv")
        self.assertEqual((declared.returncode, declared.stdout), (0, "0 rows, 0 entries\n"))
        for name in COMMANDS:
            self.assertEqual(run(self.top / "bin" / name, "--help").returncode, 0, name)
        self.assertTrue((self.top / "share/doc/kmip-audit/examples/register_then_get/transcript.ttlv").exists())

    @unittest.skipUnless(IS_BUILT, "a program of another build may have no place for a commit")
    def test_the_program_tells_its_commit(self) -> None:
        commit = run("git", "rev-parse", "HEAD", cwd=TOP).stdout.strip()
        self.assertIn(f"\ncommit {commit}\n", run(self.top / "bin/kmip_audit", "--version").stdout)

    def test_the_documents_name_what_is_there_of_the_laboratory(self) -> None:
        documents = [path for path in (self.top / "share/doc/kmip-audit/docs").glob("*.md") if path.stem not in OF_DEVELOPERS]
        self.assertGreater(len(documents), 10)
        for document in documents:
            for name in OF_LABORATORY.findall(document.read_text("utf-8")):
                places = [self.top / folder / name for folder in ("lib/kmip-audit", "share/kmip-audit")]
                self.assertTrue(any(place.exists() for place in places), f"{document.name} names laboratory/{name}")

    def test_rules_are_ready_there(self) -> None:
        for name in ("pykmip.rules", "standard-2.1.rules"):
            path = self.top / "share/doc/kmip-audit/rules" / name
            self.assertEqual(path.read_bytes(), (TOP / "laboratory/rules" / name).read_bytes())

    def test_a_server_of_pykmip_runs_from_there(self) -> None:
        for name in ("pykmip_tls.py", "pykmip_server.py"):
            path = self.top / "share/doc/kmip-audit/pykmip" / name
            self.assertEqual(path.read_bytes(), (TOP / "laboratory/pykmip" / name).read_bytes())

    def test_the_manuals_have_each_word_and_option(self) -> None:
        asking = completions.Asked()
        self.addCleanup(asking.__exit__)
        for name in COMMANDS:
            manual = gzip.decompress((self.top / f"share/man/man1/{name}.1.gz").read_bytes()).decode()
            self.assertNotIn("@", manual)
            manual = manual.replace("\\-", "-").replace("\\fR", "")
            said = asking.said(self.top / "bin" / name)
            there = set(OPTION_IN_MANUAL.findall(manual))
            asked = {option.name for options in said.options.values() for option in options}
            with self.subTest(program=name):
                self.assertEqual(there, asked)
                for word in said.words:
                    self.assertRegex(manual, rf'(?m)^\.(B|BI) "?{word}\b')

    @unittest.skipUnless(shutil.which("groff"), "groff is not there")
    def test_the_manuals_are_set_without_a_warning(self) -> None:
        for name in COMMANDS:
            page = self.top / f"{name}.1"
            page.write_bytes(gzip.decompress((self.top / f"share/man/man1/{name}.1.gz").read_bytes()))
            done = run("groff", "-man", "-Tutf8", "-ww", "-z", page)
            self.assertEqual((done.returncode, done.stdout), (0, ""))

    def test_bash_completes(self) -> None:
        for words, wanted in ((("kmip_record", "pro"), ["proxy"]), (("kmip_record", "proxy", "--server-c"),
                              ["--server-cert", "--server-ca"]),
                              (("kmip_drive", "--mix", "l"), ["lifecycle", "locate"]),
                              (("kmip_drive", "simulate", "--fault", "lost-r"), ["lost-register"]),
                              (("kmip_drive", "--cli"), ["--clients"]), (("kmip_audit", "se"), ["search"]),
                              (("kmip_audit", "search", "a", "b", "c", "--b"), ["--budget"]),
                              (("kmip_report", "--ju"), ["--junit"]), (("kmip_report", "rec"), [""])):
            script = self.top / "share/bash-completion/completions" / words[0]
            done = run("bash", "--norc", "-c", ASK_BASH, "bash", script, *words)
            with self.subTest(words=words):
                self.assertEqual((done.returncode, done.stdout.split("\n")[:-1]), (0, wanted))

    @unittest.skipUnless(shutil.which("zsh"), "zsh is not there")
    def test_zsh_completes(self) -> None:
        folder = self.top / "share/zsh/site-functions"
        for typed, wanted in (("kmip_record pro", "proxy"), ("kmip_audit search --bud", "--budget"),
                              ("kmip_drive simulate --fault lost-reg", "lost-register")):
            shown = ""
            for seconds in SECONDS_TO_COMPLETE:
                if wanted not in shown:
                    shown = run("zsh", "-f", "-c", ASK_ZSH, "zsh", folder, typed, str(seconds)).stdout
            with self.subTest(typed=typed):
                self.assertIn(wanted, shown)


class Needs(unittest.TestCase):
    """What the program needs, and how soon it starts."""

    @unittest.skipUnless(shutil.which("ldd"), "ldd is not there")
    def test_it_needs_the_c_library_alone(self) -> None:
        told = run("ldd", PROGRAM).stdout
        needed = {os.path.basename(line.split()[0]) for line in told.splitlines()}
        self.assertLessEqual(needed, C_LIBRARY, told)

    def test_it_starts_at_once(self) -> None:
        is_quick = any(self._milliseconds() < MOST_MILLISECONDS for _ in range(STARTS))
        self.assertTrue(is_quick, f"no start of {STARTS} took less than {MOST_MILLISECONDS} ms")

    def _milliseconds(self) -> float:
        with open(os.devnull, "wb") as nowhere:
            begun = time.perf_counter()
            made = os.posix_spawn(PROGRAM, [str(PROGRAM), "--version"], os.environ,
                                  file_actions=[(os.POSIX_SPAWN_DUP2, nowhere.fileno(), 1)])
            os.waitpid(made, 0)
            return (time.perf_counter() - begun) * 1000

    def test_its_version_is_the_first_of_the_changes(self) -> None:
        self.assertTrue(run(PROGRAM, "--version").stdout.startswith(f"kmip_audit {contents.version()}"))
