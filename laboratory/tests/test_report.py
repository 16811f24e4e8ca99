"""kmip_report: what it says is what the auditor said, texts stay texts, and a browser shows it."""

from __future__ import annotations

import hashlib
import html
import html.parser
import json
import os
import re
import resource
import shlex
import shutil
import stat
import subprocess
import sys
import tempfile
import unittest
import unittest.mock
from pathlib import Path
from typing import Callable, Optional
from xml.etree import ElementTree

import messages
import sessions
from laboratory import AUDITOR, FOLDER, run_here
from test_blind import shown_key

from kmip_laboratory.recording.order import witness
from kmip_laboratory.reporting.words import main
from kmip_laboratory.transcript_writer import TranscriptWriter
from kmip_laboratory.verdicts import Outcome, read_account, read_explained, read_verdict

EXAMPLES = FOLDER.parent / "examples"
CHROMIUM = shutil.which("chromium")
SECONDS_TO_BROWSE = 90
# How long the page's own clock may go on, in milliseconds: it runs ahead of the first drawing where the machine is busy.
BUDGETS = (2_000, 20_000, 200_000)
DARK = "--blink-settings=preferredColorScheme=0"
# The browser makes a window of it that is as narrow as it has any: 500 pixels.
NARROW = "--window-size=320,800"
HEAD = "0123456789abcdef" * 4
SEALED = f"sealed: 6d9a \\u{{1b}} segment 1 segment 3 head {HEAD}"
STRANGE = ["<script>alert(1)</script>", "\"'></pre><b>", "</script><img src=x onerror=alert(1)>", "&lt;i&gt;", "]]>"]
KEY = bytes(range(200, 216))
DRIVER = """<script>
// The page draws when it is laid out, which may be behind this.
const drive = () => {
  if (!document.querySelector('rect[data-call]')) { setTimeout(drive, 20); return; }
  const bars = document.querySelectorAll('rect[data-call]'), panel = document.querySelector('.details');
  const seen = [matchMedia('(prefers-color-scheme: dark)').matches, bars.length];
  bars[0].dispatchEvent(new MouseEvent('click', { bubbles: true }));
  seen.push(panel.querySelector('h3').textContent);
  const box = document.querySelector('.lanes');
  for (const key of ['ArrowRight', 'End', 'f', '+', '-', '0', 'PageUp', 'PageDown', 'Home', 'ArrowDown', 'ArrowUp']) {
    box.dispatchEvent(new KeyboardEvent('keydown', { key, bubbles: true, cancelable: true }));
    seen.push(panel.querySelector('h3').textContent);
  }
  for (const button of document.querySelectorAll('.tools button')) button.click();
  bars[0].dispatchEvent(new MouseEvent('click', { bubbles: true }));
  for (const link of document.querySelectorAll('button.call')) {
    link.click();
    seen.push(link.textContent + ' shows ' + panel.querySelector('h3').textContent);
  }
  seen.push(document.documentElement.scrollWidth <= document.documentElement.clientWidth);
  const told = document.createElement('output');
  told.id = 'seen';
  told.textContent = JSON.stringify(seen);
  document.body.append(told);
};
drive();
</script>"""


ROWS = """<script>
const rows = () => {
  if (!document.querySelector('rect[data-call]')) { setTimeout(rows, 20); return; }
  for (let click = 0; click < CLICKS; click++) document.querySelector('button[data-does="objects"]').click();
  const told = document.createElement('output'), bars = [...document.querySelectorAll('.lanes rect[data-call]')];
  told.id = 'seen';
  told.textContent = JSON.stringify({
    names: [...document.querySelectorAll('.lanes text > title')].map(title => title.textContent), bars: bars.length,
    identifiers: new Set(bars.map(bar => bar.id)).size });
  document.body.append(told);
};
rows();
</script>"""


class Page(html.parser.HTMLParser):
    """The elements of a page, and the data in it."""

    def __init__(self, text: str) -> None:
        super().__init__()
        self.tags: list[str] = []
        self.attributes: dict[str, list[dict[str, Optional[str]]]] = {}
        self.texts: list[str] = []
        self.feed(text)
        found = re.search(r'<script type="application/json" id="data">(.*?)</script>', text, re.DOTALL)
        self.data = json.loads(found.group(1)) if found else {}

    def handle_starttag(self, tag: str, attrs: list[tuple[str, Optional[str]]]) -> None:
        self.tags.append(tag)
        self.attributes.setdefault(tag, []).append(dict(attrs))

    def handle_data(self, data: str) -> None:
        self.texts.append(data)


def contrast(one: str, other: str) -> float:
    """The contrast ratio of two colours, as WCAG 2.1 defines it."""
    def luminance(colour: str) -> float:
        parts = [int(colour[place:place + 2], 16) / 255 for place in (1, 3, 5)]
        linear = [part / 12.92 if part <= 0.04045 else ((part + 0.055) / 1.055) ** 2.4 for part in parts]
        return sum(part * share for part, share in zip(linear, (0.2126, 0.7152, 0.0722)))

    low, high = sorted(map(luminance, (one, other)))
    return (high + 0.05) / (low + 0.05)


def processor_seconds(work: Callable[[], object]) -> float:
    """How long the programs that this starts take of the processor."""
    def spent() -> float:
        used = resource.getrusage(resource.RUSAGE_CHILDREN)
        return used.ru_utime + used.ru_stime

    before = spent()
    work()
    return spent() - before


def report(*words: object) -> subprocess.CompletedProcess[str]:
    """Does what kmip_report does with these words."""
    return run_here(main, words)


class Report(unittest.TestCase):
    """Each test has a folder of its own."""

    def setUp(self) -> None:
        made = tempfile.TemporaryDirectory(prefix="report-")
        self.addCleanup(made.cleanup)
        self.folder = Path(made.name)
        self.out = self.folder / "out.html"

    def page(self, *words: object) -> Page:
        """The page that is made at these words, whatever the verdict."""
        done = report(self.out, *words)
        self.assertIn(done.returncode, (0, 1, 4), done.stderr)
        self.assertEqual(done.stderr, "")
        return Page(self.out.read_text(encoding="utf-8"))

    def strange(self) -> Path:
        """A recording in which every text is strange, and a key is shown."""
        folder = self.folder / "<i>strange & \"folder\""
        folder.mkdir()
        with TranscriptWriter(str(folder / "transcript.ttlv")) as writer:
            for text in STRANGE:
                writer.end(writer.begin(text, messages.get(text)), messages.not_found(9, text=text))
            number = writer.begin(STRANGE[0], messages.get(STRANGE[0]))
            writer.end(number, shown_key(STRANGE[0], KEY))
        (folder / "declaration.ttlv").write_bytes(sessions.declaration())
        (folder / "witness.ttlv").write_bytes(witness([*range(1, len(STRANGE) + 2)]))
        return folder

    def test_the_lines_the_digests_and_the_command(self) -> None:
        folder = EXAMPLES / "recorded" / "register_get_other_byte"
        page = self.page(folder)
        told = "".join(page.texts)
        line, explained = ((folder / name).read_text() for name in ("line", "explained"))
        self.assertIn(line.strip(), told)
        self.assertIn(explained[len(line):].strip(), told)
        for name in ("transcript.ttlv", "declaration.ttlv", "witness.ttlv"):
            self.assertIn(hashlib.sha256((folder / name).read_bytes()).hexdigest(), told)
        files = " ".join(str(folder / name) for name in ("transcript.ttlv", "declaration.ttlv", "witness.ttlv"))
        self.assertIn(f"$ kmip_audit check {files} --explain\n", told)
        (data,) = page.data["recordings"]
        self.assertEqual((data["fault"], len(data["number"]), data["turn"][:3]), (53, 86, [1, 2, 3]))
        self.assertIn(7, data["story"], "the call that registered the key which was shown")
        links = [found.get("data-number") for found in page.attributes["button"] if found.get("class") == "call"]
        self.assertEqual(links[:3], ["53", "53", "53"], "the turn, the call, and the call in the sentence below")

    def test_texts_stay_texts_and_keys_are_hidden(self) -> None:
        page = self.page(self.strange())
        self.assertEqual(page.tags.count("script"), 3, "the page's own")
        self.assertFalse({"b", "i", "img"} & set(page.tags))
        written = self.out.read_text(encoding="utf-8")
        for key in (KEY.hex(), KEY.hex().upper(), "(bytes"):
            self.assertNotIn(key, written)
        self.assertIn("420043 Key Material Bytes (16 bytes, hidden)", "\n".join(page.data["lines"]))
        self.assertEqual(set(page.data["recordings"][0]["clients"]), set(STRANGE))

    def unjudged(self) -> Path:
        """A recording without a declaration, in which every text is strange: certificates are registered, and a key is
        shown that no key is."""
        folder = self.folder / "unjudged"
        folder.mkdir()
        certificate, wrong = messages.number(0x420057, 5, 1), STRANGE[1]
        key = messages.number(0x420057, 5, 2) + sessions.attributes(messages.number(0x42002C, 2, 12)) + sessions.key(KEY)
        with TranscriptWriter(str(folder / "transcript.ttlv")) as writer:
            for text in STRANGE:
                asked = sessions.request(sessions.REGISTER, key if text == wrong else certificate)
                writer.end(writer.begin(text, asked), sessions.response(sessions.REGISTER, 8, sessions.identifier(text)))
                writer.end(writer.begin(text, messages.get(text)), shown_key(text, KEY[::-1]))
        return folder

    def test_a_recording_without_a_declaration_is_judged(self) -> None:
        """Its findings come first, and what is set aside is told and greyed, with why; and texts stay texts."""
        folder = self.unjudged()
        done = report(self.out, folder, "--text", "--junit", self.folder / "junit.xml")
        self.assertEqual((done.returncode, done.stderr), (1, ""))
        page = Page(self.out.read_text("utf-8"))
        self.assertEqual(page.tags.count("script"), 3, "the page's own")
        self.assertFalse({"b", "i", "img"} & set(page.tags))
        links = [found["href"] for found in page.attributes["a"]]
        self.assertEqual(links, ["#finding-1-1", "#story-1-1"])
        (data,) = page.data["recordings"]
        self.assertEqual((data["fault"], data["faults"]), (4, [4]))
        others = [text for text in STRANGE if text != STRANGE[1]]
        self.assertEqual([data["objects"][int(place)] for place in data["gone"]], others)
        self.assertEqual([place >= 0 for place in data["aside"]], [True, True, False, False, *[True] * 6])
        self.assertEqual(data["why"][0], f"object {STRANGE[0]} is set aside since call 1 item 1 Register")
        self.assertIn("The auditor judged 1 of 10 items.", "".join(page.texts))
        for told in ("finding 1: turn 4 call 4 item 1 why 9 BytesDiffer", "- set aside", "The auditor judged 1 of 10 items."):
            self.assertIn(told, done.stdout)
        self.assertIn(f"$ kmip_audit judge {shlex.quote(str(folder / 'transcript.ttlv'))}", "".join(page.texts))
        case = ElementTree.parse(self.folder / "junit.xml").getroot()[0]
        told = {found.get("name"): found.get("value") for found in case.iter("property")}
        self.assertEqual((told["items judged"], told["items set aside by object"]), ("1", "4"))

    @unittest.skipUnless(CHROMIUM, "needs Debian's chromium")
    def test_a_browser_shows_what_is_set_aside(self) -> None:
        report(self.out, self.unjudged())
        dom, said = self.browse(self.out, until="data-call=")
        self.assertEqual([line for line in said.splitlines() if "CONSOLE" in line], [])
        self.assertEqual(len(re.findall(r'<rect class="bar aside"[^>]*data-call=', dom)), 8)
        self.assertEqual(len(re.findall(r'<rect class="bar fault"[^>]*data-call=', dom)), 1)
        self.assertIn("Call 4: Get", dom, "it opens at the first finding")

    def test_the_page_needs_nothing_else(self) -> None:
        page = self.page(EXAMPLES / "register_then_get")
        for attributes in (found for every in page.attributes.values() for found in every):
            self.assertFalse({"src", "srcset", "action"} & set(attributes))
            self.assertTrue((attributes.get("href") or "#").startswith("#"))
        policy = [found["content"] or "" for found in page.attributes["meta"] if "http-equiv" in found]
        self.assertTrue(policy[0].startswith("default-src 'none';"))

    def test_many_recordings_and_junit(self) -> None:
        names = ["register_then_get", "destroy_twice", "outside_version", "torn_transcript"]
        for name in names:
            shutil.copytree(EXAMPLES / name, self.folder / "all" / name)
        (self.folder / "all" / names[0] / "witness.ttlv").unlink()
        page = self.page(self.folder / "all", "--junit", self.folder / "junit.xml", "--jobs", 2)
        links = [found["href"] for found in page.attributes["a"]]
        findings, all_of_them = links[:-4], links[-4:]
        self.assertEqual(findings, ["#recording-1", "#story-1", "#recording-2", "#recording-4"])
        self.assertEqual(all_of_them, [f"#recording-{number}" for number in (1, 2, 3, 4)])
        self.assertIn("no: 6 WrongState", page.texts)
        suite = ElementTree.parse(self.folder / "junit.xml").getroot()
        self.assertEqual([suite.get(name) for name in ("tests", "failures", "errors")], ["4", "1", "2"])
        ends = {Path(case.get("name") or "").name: [child.tag for child in case if child.tag in ("failure", "error")]
                for case in suite}
        self.assertEqual(ends, {"destroy_twice": ["failure"], "outside_version": ["error"], "register_then_get": [],
                                "torn_transcript": ["error"]})

    def test_text_of_eighty_columns(self) -> None:
        folder = EXAMPLES / "destroy_twice"
        done = report("-", folder, "--text")
        self.assertIn((folder / "line").read_text().strip(), done.stdout)
        drawn = [line for line in done.stdout.splitlines() if "|" in line]
        self.assertEqual([line[0] for line in drawn], ["*", ">"])
        self.assertRegex(done.stdout, r"Operation +success\nDestroy +2\n")
        self.assertLessEqual(max(map(len, done.stdout.splitlines())), 80)

    def test_text_of_many_recordings_and_long_lines(self) -> None:
        program = self.explaining(["overlapping, and later: calls " + " ".join(map(str, range(100, 120)))])
        with unittest.mock.patch.dict(os.environ, {"KMIP_AUDIT": str(program)}):
            done = report("-", self.strange(), EXAMPLES / "destroy_twice", "--text")
        self.assertEqual(done.returncode, 1, done.stderr)
        lines = done.stdout.splitlines()
        self.assertEqual(lines[0], "Calls  Recording: verdict")
        self.assertIn("    1  no: 6 WrongState", lines)
        self.assertIn("    112 113 114 115 116 117 118 119", lines)
        self.assertLessEqual(max(map(len, lines)), 80)
        self.assertEqual(done.stdout.count("A yes says that some inventory fits"), 1)
        commands = re.findall(r"^  \$ ((?:.*\\\n)*.*)", done.stdout, re.MULTILINE)
        words = [shlex.split(command.replace("\\\n", "")) for command in commands]
        self.assertEqual([len(each) for each in words], [6, 6], "a shell takes each command as it is")
        self.assertEqual(words[0][2], str(self.folder / "<i>strange & \"folder\"" / "transcript.ttlv"))

    def test_bad_words_and_what_is_there(self) -> None:
        self.out.write_text("mine")
        for words, status, told in (([self.folder / "new", "nowhere"], 3, "has no transcript.ttlv in it"),
                                    ([self.out, EXAMPLES / "query"], 3, "is there already"), ([self.out], 64, "RECORDING")):
            done = report(*words)
            self.assertEqual(done.returncode, status)
            self.assertIn(told, done.stderr)
        self.assertEqual(self.out.read_text(), "mine")
        self.assertEqual(report(self.out, EXAMPLES / "query", "--force").returncode, 0)
        self.assertTrue(self.out.read_text().startswith("<!DOCTYPE html>"))

    def test_no_report_is_written_over_a_recording_or_another_report(self) -> None:
        folder = self.folder / "recording"
        shutil.copytree(EXAMPLES / "query", folder)
        (self.folder / "link").symlink_to(folder / "transcript.ttlv")
        os.link(folder / "declaration.ttlv", self.folder / "hard")
        (self.folder / "same").symlink_to(".")
        (folder / "witness.ttlv").unlink()
        program = self.folder / "auditor"
        program.write_text(f"#!/bin/sh\nexec {AUDITOR} \"$@\"\n")
        program.chmod(0o700)
        before = {path: path.read_bytes() for path in [program, *folder.iterdir()]}
        outs = [folder, self.folder / "link", self.folder / "hard", folder / "witness.ttlv", program,
                *(self.folder / "same" / "recording" / name for name in ("transcript.ttlv", "declaration.ttlv"))]
        with unittest.mock.patch.dict(os.environ, {"KMIP_AUDIT": str(program)}):
            for force in ([], ["--force"]):
                for out in outs:
                    self.assertIn(" is an input too", self.mistaken(out, folder, *force))
                    self.assertIn(" is an input too", self.mistaken(self.out, self.folder, "--junit", out, *force))
                for junit in (self.out, self.folder / "same" / "out.html"):
                    said = self.mistaken(self.out, folder, "--junit", junit, *force)
                    self.assertIn(" is named for two outputs", said)
        self.assertEqual({path: path.read_bytes() for path in [program, *folder.iterdir()]}, before)
        self.assertEqual(sorted(path.name for path in self.folder.iterdir()),
                         ["auditor", "hard", "link", "recording", "same"])

    def mistaken(self, *words: object) -> str:
        """The one line on standard error at these words, which are refused with status 64."""
        done = report(*words)
        self.assertEqual((done.returncode, done.stdout, done.stderr.count("\n")), (64, "", 1), (words, done.stderr))
        return done.stderr

    def test_what_is_written_over_keeps_its_mode_and_what_is_read_only_stays(self) -> None:
        other = self.folder / "junit.xml"
        words = (self.out, EXAMPLES / "query", "--junit", other, "--force")
        self.assertEqual(report(*words).returncode, 0)
        self.assertEqual(stat.S_IMODE(self.out.stat().st_mode), 0o600, "a new one is its owner's alone")
        for mode in (0o644, 0o664):
            for path in (self.out, other):
                path.write_text("mine")
                path.chmod(mode)
            self.assertEqual(report(*words).returncode, 0)
            for path in (self.out, other):
                self.assertEqual((stat.S_IMODE(path.stat().st_mode), path.read_text() == "mine"), (mode, False))
        for path in (self.out, other):
            for mode in (0o400, 0o444):
                self.out.write_text("mine")
                path.write_text("mine")
                path.chmod(mode)
                done = report(*words)
                self.assertEqual((done.returncode, done.stdout), (3, ""))
                self.assertIn(f"{path} is read-only, and is left as it is", done.stderr)
                self.assertEqual((stat.S_IMODE(path.stat().st_mode), self.out.read_text()), (mode, "mine"))
                path.chmod(0o600)

    def test_each_printed_line_is_read(self) -> None:
        for line, outcome, number in (("yes", Outcome.YES, None), ("yes: 86 steps", Outcome.YES, None),
                                      ("gave up: 2 steps", Outcome.GAVE_UP, None), ("device", Outcome.DEVICE, None),
                                      ("yes\njudged: 1 of 2 items; ..", Outcome.YES, None),
                                      ("yes but for 1 items\njudged: 1 of 2 items; ..", Outcome.BUT_FOR, None),
                                      ("witness: at 2 kind 3 LeftOut", Outcome.WITNESS, 3),
                                      ("malformed: transcript offset 9 kind 1 Ttlv Truncated", Outcome.MALFORMED, 1)):
            verdict = read_verdict(line + "\n", 0)
            self.assertEqual((verdict and verdict.outcome, verdict and verdict.number), (outcome, number))
        for path in EXAMPLES.glob("*/line"):
            self.assertIsNotNone(read_verdict(path.read_text(), 0), path)
        self.assertIsNone(read_verdict("no: turn 1\n", 1))
        tallied = read_explained("yes\njudged: 1 of 2 items; ..\n", 0)
        self.assertEqual((tallied.outcome, len(tallied.lines), tallied.explanation), (Outcome.YES, 2, ()))

    def test_the_line_of_a_sealed_transcript_changes_no_verdict(self) -> None:
        for printed in ("yes\n", "yes: 86 steps\n", "gave up: 2 steps\n", "no: turn 1 call 2 item 1 why 6 WrongState\nat none\n"):
            for torn in ("", " torn"):
                bare, sealed = read_verdict(printed, 0), read_verdict(f"{printed}{SEALED}{torn}\n", 0)
                self.assertEqual(sealed, bare._replace(seal=sealed.seal))
                self.assertEqual(sealed.seal, (SEALED + torn, "6d9a \\u{1b} segment 1", 3, HEAD, bool(torn)))
        for printed, seal in (("yes\nsealed: x\n", None), (f"{SEALED}\nyes\n", None), (f"{SEALED}\n", None)):
            self.assertIsNone(read_verdict(printed, 0), seal)

    def test_the_line_of_a_sealed_transcript_is_no_part_of_an_explanation(self) -> None:
        for printed in ("no: turn 1 call 2 item 1 why 6 WrongState\nat none\nfield: State\n", "yes\n",
                        "gave up: 3 steps\ndecided: no order explains every answer\nnext: call 1 item 1 why 11 AttributeDiffers\n",
                        "gave up: 3 steps\n"):
            bare, sealed = read_explained(printed, 0), read_explained(f"{printed}{SEALED}\n", 0)
            self.assertIsNotNone(bare)
            self.assertEqual(sealed, bare._replace(seal=sealed.seal))
            self.assertEqual(sealed.seal.head, HEAD)

    def sealing(self, torn: str = "") -> dict[str, str]:
        """The environment in which the auditor tells of a sealed transcript."""
        program = self.folder / "kmip_audit"
        program.write_text(f"#!{sys.executable}\nimport json, subprocess, sys\n"
                           f"done = subprocess.run([{AUDITOR!r}, *sys.argv[1:]], stdout=subprocess.PIPE, text=True)\n"
                           "told = done.stdout\nif '--json' in sys.argv:\n    made = json.loads(told)\n"
                           f"    made['files'][0]['seal'] = {{'head': {HEAD!r}, 'recording': '6d9a', 'segment': 3}}\n"
                           "    told = json.dumps(made) + '\\n'\nelif sys.argv[1] != 'show':\n"
                           f"    told += {SEALED + torn!r} + '\\n'\nprint(told, end='')\nsys.exit(done.returncode)\n")
        program.chmod(0o700)
        return {"KMIP_AUDIT": str(program)}

    def test_a_report_bears_what_is_told_of_a_sealed_transcript_and_shows_it(self) -> None:
        names = ("destroy_twice", "query")
        with unittest.mock.patch.dict(os.environ, self.sealing()):
            page = self.page(*(EXAMPLES / name for name in names), "--junit", self.folder / "junit.xml")
            done = report("-", *(EXAMPLES / name for name in names), "--text")
        text = "".join(page.texts)
        self.assertEqual(text.count(f"recording 6d9a \\u{{1b}} segment 1, segment 3, head {HEAD}."), 2)
        self.assertIn(f"no: turn 2 call 2 item 1 why 6 WrongState\nat 2023-11-14T22:13:21Z\n{SEALED}", text)
        self.assertEqual([each["fault"] for each in page.data["recordings"]], [2, None])
        told = " ".join(done.stdout.split())
        self.assertEqual((done.returncode, told.count(f"segment 3, head {HEAD}. ")), (1, 2), done.stdout)
        self.assertNotIn("no close", text)
        self.assertIn(SEALED, (self.folder / "junit.xml").read_text())
        with unittest.mock.patch.dict(os.environ, self.sealing(" torn")):
            self.assertEqual("".join(self.page(EXAMPLES / "query", "--force").texts).count("; it has no close: "), 1)

    def test_what_json_tells_of_the_files(self) -> None:
        account = read_account('{"auditor":"9.9","files":[{"length":5,"role":"transcript","sha256":"ab"}],"verdict":"yes"}\n')
        self.assertEqual((account.version, account.files), ("kmip_audit 9.9", (("transcript", 5, "ab"),)))
        torn = read_account('{"verdict":"malformed","file":"transcript","offset":9,"kind":{"name":"Torn","number":2},'
                            '"auditor":"9.9","files":[{"role":"transcript"},{"role":"declaration"}]}')
        self.assertEqual([file.sha256 for file in torn.files], [None, None], "files that were not read to their ends")
        for printed in ('{"verdict":"yes","auditor":"1"}', "yes\n", "[]", '{"auditor":"1","files":3}'):
            self.assertIsNone(read_account(printed), printed)

    def test_digests_and_version_are_the_auditors_where_it_tells_them(self) -> None:
        folder = self.folder / "recording"
        shutil.copytree(EXAMPLES / "destroy_twice", folder)
        names = ("transcript", "declaration", "witness")
        digests = [{"role": name, "length": (folder / f"{name}.ttlv").stat().st_size, "sha256": hashlib.sha256(
            (folder / f"{name}.ttlv").read_bytes()).hexdigest()} for name in names]
        told = {"verdict": "no", "turn": 2, "call": 2, "item": 1, "why": {"number": 6, "name": "WrongState"},
                "kind": {"number": 6, "name": "WrongState"},
                "date": "2023-11-14T22:13:21Z", "auditor": "7.6.5", "files": digests}
        program = self.folder / "kmip_audit"
        program.write_text(f"#!{sys.executable}\nimport os, sys\nif '--json' in sys.argv:\n    print({json.dumps(told)!r}"
                           f")\n    sys.exit(1)\nos.execv({AUDITOR!r}, [{AUDITOR!r}, *sys.argv[1:]])\n")
        program.chmod(0o700)
        with unittest.mock.patch.dict(os.environ, {"KMIP_AUDIT": str(program)}):
            text = "".join(self.page(folder).texts)
            for words in ("from what kmip_audit 7.6.5 printed", "SHA-256, as the auditor judged it", digests[0]["sha256"],
                          "no: turn 2 call 2 item 1 why 6 WrongState\nat 2023-11-14T22:13:21Z"):
                self.assertIn(words, text)
            with open(folder / "witness.ttlv", "ab") as file:
                file.write(bytes(8))
            done = report(self.folder / "other.html", folder)
            self.assertEqual((done.returncode, done.stdout), (3, ""))
            self.assertIn("witness.ttlv is not what was judged", done.stderr)
            told.update(verdict="malformed", file="witness", offset=0, files=[{"role": name} for name in names])
            program.write_text(f"#!{sys.executable}\nimport sys\nprint({json.dumps(told)!r} if '--json' in sys.argv else "
                               "'malformed: witness offset 0 kind 6 Torn')\nraise SystemExit(2)\n")
            text = "".join(self.page(folder, "--force").texts)
            self.assertIn("malformed: witness offset 0 kind 6 Torn", text)
            self.assertIn("SHA-256, as the report read it", text)

    def test_what_a_search_explains_names_a_call_and_whether_it_decided(self) -> None:
        told = "gave up: 3 steps\ndecided: no order explains every answer\ndeepest: 1 calls taken\ntaken: calls 2\n"
        found = read_explained(told + "next: call 4 possible\nnext: call 1 item 1 why 11 AttributeDiffers\n", 4)
        self.assertEqual((found.decided, found.call, found.item, found.number, found.name, len(found.explanation)),
                         (True, 1, 1, 11, "AttributeDiffers", 5))
        found = read_explained("gave up: 1 steps\nnot decided: the budget of 1 steps is used up\n", 4)
        self.assertEqual((found.decided, found.call), (False, None))

    def whole(self, name: str) -> Path:
        """This example without its witness, so that an order is searched."""
        folder = self.folder / "whole" / name
        shutil.copytree(EXAMPLES / name, folder)
        (folder / "witness.ttlv").unlink()
        return folder

    def test_the_page_of_a_search_tells_the_call_and_the_reason(self) -> None:
        page = self.page(self.whole("destroy_twice"))
        text = "".join(page.texts)
        for words in ("decided: no order explains every answer", "next: call 2 item 1 why 6 WrongState",
                      "Where it got furthest, call 2 can't be next: it succeeded though the object's state excludes it",
                      "The verdict names call 2, Destroy"):
            self.assertIn(words, text)
        self.assertEqual(page.data["recordings"][0]["fault"], 2)

    def test_the_page_of_what_is_outside_tells_its_field(self) -> None:
        for folder in (EXAMPLES / "outside_version", self.whole("outside_version")):
            text = "".join(self.page(folder, "--force").texts)
            self.assertIn("field: Request Header, Protocol Version, Protocol Version Minor\nstands: 0\nwanted: 1", text)

    def test_the_status_says_what_came_out(self) -> None:
        for names, status in ((["query"], 0), (["query", "destroy_twice"], 1), (["query", "outside_version"], 4),
                              (["outside_version", "destroy_twice"], 1), (["torn_transcript"], 4)):
            self.assertEqual(report("-", *(EXAMPLES / name for name in names)).returncode, status, names)
        self.assertEqual(report("-", self.whole("destroy_twice")).returncode, 1, "a search that decided")
        self.assertEqual(report("-", self.whole("register_then_get"), "--budget", "1").returncode, 4)
        self.assertEqual(report("-", EXAMPLES / "witness_against_order").returncode, 1)
        self.assertEqual(report("-", EXAMPLES / "witness_against_order", "--others").returncode, 4, "another order does")
        self.assertEqual(report("-", "nowhere").returncode, 3)

    def test_the_auditor_is_given_a_time(self) -> None:
        program = self.folder / "slow"
        program.write_text(f"#!/bin/sh\ncase \"$*\" in *slow/*) exec sleep 600;; esac\nexec {AUDITOR} \"$@\"\n")
        program.chmod(0o700)
        for name in ("slow", "quick"):
            shutil.copytree(EXAMPLES / "query", self.folder / "all" / name)
        with unittest.mock.patch.dict(os.environ, {"KMIP_AUDIT": str(program)}):
            done = report("-", self.folder / "all", "--seconds", "10", "--text", "--junit", self.folder / "junit.xml")
        self.assertEqual((done.returncode, done.stderr), (4, ""))
        self.assertIn("the auditor gave no answer in 10 seconds", done.stdout)
        self.assertIn("2 recordings: 1 yes, 1 not\n", done.stdout)
        self.assertEqual(ElementTree.parse(self.folder / "junit.xml").getroot().get("errors"), "1")
        self.assertEqual(report("-", EXAMPLES / "query", "--seconds", "0").returncode, 64)

    def test_a_folder_that_is_no_utf_8(self) -> None:
        strange = os.fsencode(self.folder) + b"/all/caf\xe9 'x'"
        shutil.copytree(os.fsencode(EXAMPLES / "destroy_twice"), strange)
        shutil.copytree(EXAMPLES / "query", self.folder / "all" / "query")
        done = report(self.out, self.folder / "all", "--text", "--junit", self.folder / "junit.xml")
        self.assertEqual((done.returncode, done.stderr), (1, ""))
        self.assertIn("caf\\xe9 'x'", done.stdout)
        written = self.out.read_text("utf-8")
        self.assertIn("caf\\xe9", written)
        ElementTree.parse(self.folder / "junit.xml")
        (command,) = [found for found in re.findall(r"^  \$ ((?:.*\\\n)*.*)", done.stdout, re.MULTILINE) if "caf" in found]
        again = subprocess.run(["bash", "-c", command.replace("&& kmip_audit", f"&& {AUDITOR}").replace("&& \\\n    kmip_audit", f"&& {AUDITOR}")], capture_output=True, check=False)
        self.assertEqual(again.stdout.split()[:1], [b"no:"], again.stderr)

    def test_pipes_in_the_place_of_files_are_refused(self) -> None:
        folder = self.folder / "recording"
        for name in ("transcript.ttlv", "declaration.ttlv", "witness.ttlv"):
            shutil.copytree(EXAMPLES / "query", folder)
            (folder / name).unlink()
            os.mkfifo(folder / name)
            done = report("-", folder)
            self.assertEqual((done.returncode, done.stdout), (3, ""))
            self.assertIn(f"{name} is no plain file: put the file itself there", done.stderr)
            shutil.rmtree(folder)

    def explaining(self, lines: list[str]) -> Path:
        """An auditor that explains each no by these lines, and is else the one that is there."""
        program = self.folder / "explaining"
        told = "".join(f"{line}\n" for line in lines)
        program.write_text(
            f"#!{sys.executable}\nimport subprocess, sys\nwords = [word for word in sys.argv[1:] if word != '--explain']\n"
            f"done = subprocess.run([{AUDITOR!r}, *words], stdout=subprocess.PIPE, text=True)\n"
            f"more = {told!r} if '--explain' in sys.argv and done.returncode == 1 else ''\n"
            "print(done.stdout + more, end='')\nsys.exit(done.returncode)\n")
        program.chmod(0o700)
        return program

    def test_an_explanation_is_the_auditors_and_each_call_in_it_leads_to_its_bar(self) -> None:
        folder = EXAMPLES / "recorded" / "register_get_other_byte"
        program = self.explaining([
            'client: "call 9 <b>"', "operation: Get", "overlapping, and later: calls 54 55 and 7 more",
            'object: "turn 3", not declared', "before: 2 more",
            "before: turn 7 call 7 item 1 at 2026-11-24T11:42:08Z: Register",
            "before: turn 8 call 8 item 1 at 2026-11-24T11:42:09Z: Activate, undone",
            "made later: turn 60 call 60 item 2 at 2026-11-24T11:42:11Z: Create"])
        with unittest.mock.patch.dict(os.environ, {"KMIP_AUDIT": str(program)}):
            page = self.page(folder, "--text", "--junit", self.folder / "junit.xml")
        links = [found.get("data-number") for found in page.attributes["button"] if found.get("class") == "call"]
        self.assertEqual(links, ["53", "53", "53", "54", "55", "7", "7", "8", "8", "60", "60", "7", "8", "60"],
                         "two of the verdict, one of the sentence, those of the lines, those of the table")
        text = "".join(page.texts)
        for words in ('client: "call 9 <b>"\noperation: Get\noverlapping, and later: calls 54 55 and 7 more',
                      "The object turn 3 is not declared.", "The 2 before these are left out.", "Activate, undone",
                      "Create, behind the refused item", " --explain\n"):
            self.assertIn(words, text)
        self.assertEqual(page.data["recordings"][0]["story"], [7, 8, 54, 55, 60], "what stands out on the timeline")
        self.assertIn("operation: Get", (self.folder / "junit.xml").read_text("utf-8"))

    def test_an_auditor_that_does_not_explain(self) -> None:
        program = self.folder / "plain"
        program.write_text(f"#!/bin/sh\nfor word; do [ \"$word\" = --explain ] && exit 64; done\nexec {AUDITOR} \"$@\"\n")
        program.chmod(0o700)
        with unittest.mock.patch.dict(os.environ, {"KMIP_AUDIT": str(program)}):
            text = "".join(self.page(EXAMPLES / "destroy_twice").texts)
        self.assertIn("This auditor does not explain it: it has no --explain.", text)
        self.assertIn("this is the report's reading of the transcript, and not the auditor's word", text)

    def test_other_orders_are_searched_where_that_is_asked(self) -> None:
        for name, told in (("destroy_twice", "No other order explains the answers either"),
                           ("witness_against_order", "Another order does explain every answer")):
            text = "".join(self.page(EXAMPLES / name, "--others", "--force").texts)
            self.assertIn(told, text)
        self.assertNotIn("nother order", "".join(self.page(EXAMPLES / "destroy_twice", "--force").texts))

    def test_colours_have_the_contrast_of_wcag_aa(self) -> None:
        style = (FOLDER / "kmip_laboratory/reporting/page/style.css").read_text("utf-8")
        light, dark = (dict(re.findall(r"--(\w+): (#[0-9a-f]{6});", part)) for part in style.split("@media", 1))
        for colours in (light, dark):
            self.assertEqual(set(colours), set(light))
            for ground in ("paper", "panel"):
                for words in ("ink", "soft", "link"):
                    self.assertGreaterEqual(contrast(colours[words], colours[ground]), 4.5, (words, ground))
                for bar in ("success", "failed", "refused", "undone", "open", "fault", "good", "focus"):
                    self.assertGreaterEqual(contrast(colours[bar], colours[ground]), 3, (bar, ground))
            for bar in ("success", "failed", "refused", "undone", "open", "fault"):
                self.assertGreaterEqual(contrast(colours["paper"], colours[bar]), 4.5, f"the number in a bar: {bar}")

    @unittest.skipUnless(CHROMIUM, "needs Debian's chromium")
    def test_a_page_of_ten_thousand_calls(self) -> None:
        if self.seconds_to_show_a_thousand() > 0.5:
            self.skipTest("the auditor is one that was built for tests")
        self.page(self.large(10_000))
        self.assertLessEqual(self.out.stat().st_size, 20_000_000)
        blank = self.folder / "blank.html"
        blank.write_text("<!DOCTYPE html><p>nothing</p>", encoding="utf-8")
        spent = [processor_seconds(lambda page=page: self.browse(page)) for page in (blank, self.out)]
        self.assertLessEqual(spent[1] - spent[0], 3, "seconds of the processor, since others may be at work")

    def large(self, calls: int) -> Path:
        """A recording of so many calls of a server that is right."""
        folder, server = self.folder / f"of {calls}", sessions.Server(1)
        folder.mkdir()
        server.declare()
        with TranscriptWriter(str(folder / "transcript.ttlv")) as writer:
            for number in range(calls):
                asked, answered = server.call()
                writer.end(writer.begin(f"client-{number % 12}", asked), answered)
        (folder / "declaration.ttlv").write_bytes(sessions.declaration(*server.entries))
        (folder / "witness.ttlv").write_bytes(witness([*range(1, calls + 1)]))
        return folder

    def seconds_to_show_a_thousand(self) -> float:
        """How long the auditor takes to show a thousand calls, in seconds of the processor."""
        folder = self.large(1000)
        return processor_seconds(lambda: subprocess.run(
            [AUDITOR, "show", folder / "transcript.ttlv", "--messages"], stdout=subprocess.DEVNULL, check=True))

    @unittest.skipUnless(CHROMIUM, "needs Debian's chromium")
    def test_rows_are_of_clients_or_of_objects(self) -> None:
        page = self.page(self.named_by_two())
        (data,) = page.data["recordings"]
        self.assertEqual((data["objects"], data["named"]), (["k1", "<b>", "k2"], [[0], [1], [0, 1, 2]]))
        text = re.sub(r'<meta http-equiv="Content-Security-Policy"[^>]*>', "", self.out.read_text(encoding="utf-8"))
        for clicks, names in ((0, ["a", "b"]), (1, ["k1", "<b>", "k2"]), (2, ["a", "b"])):
            driven = self.folder / f"rows-{clicks}.html"
            driven.write_text(text.replace("</body>", ROWS.replace("CLICKS", str(clicks)) + "</body>"), encoding="utf-8")
            dom, said = self.browse(driven, until='<output id="seen">')
            self.assertEqual([line for line in said.splitlines() if "CONSOLE" in line], [])
            found = re.search(r'<output id="seen">(.*?)</output>', dom)
            self.assertIsNotNone(found, "no script broke off")
            told = json.loads(html.unescape(found.group(1)))
            self.assertEqual(told, {"names": names, "bars": 5 if clicks == 1 else 3, "identifiers": 5 if clicks == 1 else 3})

    def named_by_two(self) -> Path:
        """A recording of two clients with three objects, all of which the last call lists."""
        folder = self.folder / "named"
        folder.mkdir()
        with TranscriptWriter(str(folder / "transcript.ttlv")) as writer:
            for client, name in (("a", "k1"), ("b", "<b>")):
                writer.end(writer.begin(client, messages.get(name)), messages.not_found(9))
            listed = b"".join(sessions.identifier(name) for name in ("k2", "k1", "<b>"))
            asked = sessions.request(sessions.LOCATE, b"")
            writer.end(writer.begin("a", asked), sessions.response(sessions.LOCATE, 9, listed))
        (folder / "declaration.ttlv").write_bytes(sessions.declaration())
        (folder / "witness.ttlv").write_bytes(witness([1, 2, 3]))
        return folder

    @unittest.skipUnless(CHROMIUM, "needs Debian's chromium")
    def test_a_browser_shows_it(self) -> None:
        self.page(self.strange())
        dom, said = self.browse(self.out, until="data-call=")
        self.assertEqual([line for line in said.splitlines() if "CONSOLE" in line], [])
        self.assertEqual(len(re.findall(r'<rect [^>]*data-call=', dom)), len(STRANGE) + 1)
        self.assertIn("Call 6: Get", dom, "it opens at the verdict's call")
        driven = self.folder / "driven.html"
        text = re.sub(r'<meta http-equiv="Content-Security-Policy"[^>]*>', "", self.out.read_text(encoding="utf-8"))
        driven.write_text(text.replace("</body>", DRIVER + "</body>"), encoding="utf-8")
        for dark, more in ((False, []), (True, [DARK]), (False, [NARROW])):
            dom, said = self.browse(driven, *more, until='<output id="seen">')
            self.assertEqual([line for line in said.splitlines() if "CONSOLE" in line], [])
            found = re.search(r'<output id="seen">(.*?)</output>', dom)
            self.assertIsNotNone(found, "no script broke off")
            seen = json.loads(found.group(1))
            self.assertEqual(seen[:6], [dark, 6, "Call 1: Get", "Call 2: Get", "Call 6: Get", "Call 6: Get"])
            links = [re.findall(r"\d+", told) for told in seen if isinstance(told, str) and " shows " in told]
            self.assertGreaterEqual(len(links), 3, "the turn and the call of the verdict, and the call of the sentence")
            self.assertTrue(all(named == shown for named, shown in links), seen)
            self.assertTrue(seen[-1], "it is no wider than the window")

    def browse(self, page: Path, *more: str, until: str = "") -> tuple[str, str]:
        """What a browser makes of a page, and what it says: with more time for the page until this stands in it. A browser that draws
        nothing of a page, and says of no script that it broke off, shows nothing of it."""
        dom, said = "", ""
        for budget in BUDGETS:
            dom, said = self.browse_once(page, budget, *more)
            if until in dom:
                return dom, said
        if "data-call=" not in dom and "CONSOLE" not in said:
            self.skipTest(f"the browser drew nothing of the page in {BUDGETS[-1]} ms")
        return dom, said

    def browse_once(self, page: Path, budget: int, *more: str) -> tuple[str, str]:
        """The same within so many milliseconds of the page. A browser that doesn't come to its end shows nothing of it."""
        words = [CHROMIUM, "--headless=new", "--no-sandbox", "--disable-gpu", "--enable-logging=stderr", "--v=0",
                 f"--virtual-time-budget={budget}", f"--user-data-dir={self.folder / 'browser'}", *more, "--dump-dom", page.as_uri()]
        try:
            done = subprocess.run(words, capture_output=True, text=True, timeout=SECONDS_TO_BROWSE, check=False)
        except subprocess.TimeoutExpired:
            self.skipTest(f"the browser did not come to its end within {SECONDS_TO_BROWSE} s")
        if done.returncode != 0:
            self.skipTest(f"the browser ended with {done.returncode}: {done.stderr[-200:]}")
        return done.stdout, done.stderr


if __name__ == "__main__":
    unittest.main()
