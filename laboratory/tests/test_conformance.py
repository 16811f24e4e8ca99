"""What the report says that a verdict rests on: calls and objects judged, and the conformance table; the expected
values are those of the tables of docs/PROFILE.md."""

from __future__ import annotations

import re
import unittest
from pathlib import Path
from typing import Optional
from xml.etree import ElementTree

import messages
import sessions
from laboratory import FOLDER, InFolder
from messages import answering, asking, number, structure, text
from sessions import ACTIVATE, CREATE, DESTROY, GET, GET_ATTRIBUTES, LOCATE, REGISTER, REVOKE, attributes, identifier
from test_report import STRANGE, Page, report

from kmip_laboratory.calls import read_transcript
from kmip_laboratory.reporting.basis import BY_STAMPS, BY_TURNS, Basis, read_basis
from kmip_laboratory.reporting.reasons import WHY
from kmip_laboratory.reporting.states import TABLE, Possible, Standing
from kmip_laboratory.reporting.whys import NAMES
from kmip_laboratory.verdicts import read_verdict

EXAMPLES = FOLDER.parent / "examples"
START = 1_700_000_000
SUCCESS, FAILED, UNDONE = 0, 1, 3
UNDO, NOT_FOUND, WRONG_STATE = 3, 1, 0x43
STATES = ["Pre-Active", "Active", "Deactivated", "Compromised", "Destroyed", "Destroyed Compromised"]
Ask = tuple[int, bytes, Optional[int], bytes]


def revoke(name: str, code: int) -> bytes:
    """The payload of a Revoke."""
    return identifier(name) + structure(0x420081, number(0x420082, 5, code))


def register(name: str, *more: bytes) -> Ask:
    """A key is brought."""
    asked = number(0x420057, 5, 2) + attributes(*more) + sessions.key(bytes(16))
    return REGISTER, asked, None, identifier(name)


def done(operation: int, name: str, code: Optional[int] = None) -> Ask:
    """An item that succeeds."""
    return operation, identifier(name) if code is None else revoke(name, code), None, identifier(name)


def refused(operation: int, name: str, reason: int, code: Optional[int] = None) -> Ask:
    """An item that fails."""
    return operation, done(operation, name, code)[1], reason, b""


class Recording:
    """A recording of calls, one after the other, a second each."""

    def __init__(self, folder: Path, *entries: bytes) -> None:
        self.folder = folder
        self.marks: list[bytes] = []
        self.calls = 0
        (folder / "declaration.ttlv").write_bytes(sessions.declaration(*entries))

    def call(self, *items: Ask, status: int = SUCCESS, more: bytes = b"") -> None:
        """A call of these items, which ended so where no reason stands."""
        self.calls += 1
        asks = [asking(operation, asked) for operation, asked, _, _ in items]
        answers = [answering(operation, status, told) if reason is None else structure(
            0x42000F, number(0x42005C, 5, operation), number(0x42007F, 5, FAILED), number(0x42007E, 5, reason))
            for operation, _, reason, told in items]
        self.marks += [messages.begin(self.calls, messages.request(*asks, more=more)),
                       messages.end(self.calls, messages.response(START + self.calls, *answers))]

    def write(self, *turns: int) -> None:
        """The transcript; and the witness, unless there is to be none."""
        (self.folder / "transcript.ttlv").write_bytes(messages.transcript(*self.marks))
        if turns:
            (self.folder / "witness.ttlv").write_bytes(messages.witness(*turns))

    def basis(self, *turns: int, verdict: str = "yes") -> Basis:
        """What this verdict on it rests on, with these turns, or else with the calls in their order."""
        self.write(*(turns or range(1, self.calls + 1)))
        return basis_of(self.folder, verdict)


def basis_of(folder: Path, verdict: str) -> Basis:
    """What this verdict on a recording rests on."""
    read = read_verdict(verdict, 0)
    assert read is not None
    names = [str(folder / f"{name}.ttlv") for name in ("transcript", "declaration", "witness")]
    return read_basis(read, read_transcript(names[0]).calls, *names[1:])


def cells(basis: Basis, section: str) -> dict[tuple[str, str], tuple[int, ...]]:
    """The cells of a section that were exercised."""
    (found,) = [each for each in basis.sections if each.name == section]
    return {(line.name, head): cell for line in found.lines for head, cell in zip(found.heads, line.cells)
            if cell is not None and any(cell)}


class States(InFolder):
    """The table of states."""

    def test_a_life_from_birth_to_destruction(self) -> None:
        made = Recording(self.folder)
        for item in (register("k"), done(GET, "k"), refused(REVOKE, "k", WRONG_STATE, 1), done(ACTIVATE, "k"),
                     refused(ACTIVATE, "k", WRONG_STATE), done(REVOKE, "k", 1), done(REVOKE, "k", 4),
                     done(REVOKE, "k", 2), done(GET, "k"), done(DESTROY, "k"), done(REVOKE, "k", 3),
                     refused(GET, "k", NOT_FOUND), refused(GET, "other", NOT_FOUND)):
            made.call(item)
        self.assertEqual(cells(made.basis(), "States"), {
            ("Get", "Pre-Active"): (1, 0), ("Revoke, other code", "Pre-Active"): (0, 1),
            ("Activate", "Pre-Active"): (1, 0), ("Activate", "Active"): (0, 1),
            ("Revoke, other code", "Active"): (1, 0), ("Revoke, other code", "Deactivated"): (1, 0),
            ("Revoke, code 2 or 3", "Deactivated"): (1, 0), ("Get", "Compromised"): (1, 0),
            ("Destroy", "Compromised"): (1, 0), ("Revoke, code 2 or 3", "Destroyed Compromised"): (1, 0),
            ("Get", "Destroyed Compromised"): (0, 1), ("Get", "no such object"): (0, 1)})

    def test_dates_count_from_their_own_second_on(self) -> None:
        made = Recording(self.folder)
        made.call(register("k", number(0x420001, 9, START + 3, 8), number(0x42002F, 9, START + 5, 8)))
        for _ in range(4):
            made.call(done(GET, "k"))
        self.assertEqual(cells(made.basis(), "States"), {
            ("Get", "Pre-Active"): (1, 0), ("Get", "Active"): (2, 0), ("Get", "Deactivated"): (1, 0)})

    def test_a_destroyed_active_object_and_a_declared_one(self) -> None:
        told = attributes(number(0x420033, 9, 7, 8))
        entry = structure(0x540034, identifier("old"), number(0x420057, 5, 2), told)
        made = Recording(self.folder, entry, sessions.entry("k", bytes(16)))
        for item in (done(ACTIVATE, "k"), done(DESTROY, "k"), done(GET_ATTRIBUTES, "k"), refused(DESTROY, "old", 1)):
            made.call(item)
        self.assertEqual(cells(made.basis(), "States"), {
            ("Activate", "Pre-Active"): (1, 0), ("Destroy", "Active"): (1, 0), ("Get Attributes", "Destroyed"): (1, 0),
            ("Destroy", "Destroyed"): (0, 1)})

    def test_states_are_those_of_the_order(self) -> None:
        made = Recording(self.folder, sessions.entry("k", bytes(16)))
        made.call(done(ACTIVATE, "k"))
        made.call(done(GET, "k"))
        self.assertIn(("Get", "Active"), cells(made.basis(1, 2), "States"))
        self.assertIn(("Get", "Pre-Active"), cells(made.basis(2, 1), "States"))

    def test_without_an_order_it_is_by_time_stamps_and_that_is_said(self) -> None:
        made = Recording(self.folder, sessions.entry("k", bytes(16)), sessions.entry("l", bytes(16)))
        made.call(done(ACTIVATE, "k"))
        made.call(done(GET, "k"))
        made.call(done(GET, "l"))
        made.marks.append(messages.begin(4, sessions.request(DESTROY, identifier("l")), "b"))
        made.write()
        basis = basis_of(self.folder, "gave up: 5 steps")
        self.assertEqual(basis.order, BY_STAMPS)
        self.assertEqual(cells(basis, "States"), {("Activate", "Pre-Active"): (1, 0), ("Get", "Active"): (1, 0),
                                                  ("Get", "unknown"): (1, 0)})
        self.assertEqual(made.basis(1, 2, 3).order, BY_TURNS)

    def test_what_is_undone_leaves_nothing(self) -> None:
        made = Recording(self.folder, sessions.entry("k", bytes(16)))
        option = number(0x42000E, 5, UNDO)
        made.call(done(ACTIVATE, "k"), done(GET, "k"), refused(GET, "other", NOT_FOUND), status=UNDONE, more=option)
        made.call(done(GET, "k"))
        basis = made.basis()
        self.assertEqual(cells(basis, "States"), {
            ("Activate", "Pre-Active"): (1, 0), ("Get", "Active"): (1, 0), ("Get", "no such object"): (0, 1),
            ("Get", "Pre-Active"): (1, 0)})
        self.assertEqual(cells(basis, "Batches"), {("Undo", "with a first failed answer"): (1,)})
        self.assertEqual(cells(basis, "Calls and items"), {("an undone answer", "recorded"): (2,)})

    def test_behind_an_impossible_success_the_state_is_not_known(self) -> None:
        made = Recording(self.folder, sessions.entry("k", bytes(16)))
        for item in (done(ACTIVATE, "k"), done(ACTIVATE, "k"), done(GET, "k")):
            made.call(item)
        self.assertEqual(cells(made.basis(), "States"), {
            ("Activate", "Pre-Active"): (1, 0), ("Activate", "Active"): (1, 0), ("Get", "unknown"): (1, 0)})

    def test_where_the_auditor_says_yes_no_success_is_where_the_profile_excludes_it(self) -> None:
        table = {row: [(head, Standing(place)) for place, head in enumerate(STATES, 1)] for row in TABLE}
        explained = [path.parent for path in EXAMPLES.rglob("line") if path.read_text() == "yes\n"
                     and (path.parent / "witness.ttlv").exists()]
        self.assertGreater(len(explained), 15)
        for folder in explained:
            told = cells(basis_of(folder, "yes"), "States")
            for row, columns in table.items():
                for head, standing in columns:
                    if TABLE[row][standing] is Possible.NOT:
                        self.assertEqual(told.get((row, head), (0, 0))[0], 0, (folder, row, head))
                self.assertEqual(told.get((row, "no such object"), (0, 0))[0], 0, (folder, row))
        refused_ones = {"destroy_twice": ("Destroy", "Destroyed"),
                        "revoke_pre_active": ("Revoke, other code", "Pre-Active"),
                        "get_of_unknown": ("Get", "no such object")}
        for name, cell in refused_ones.items():
            line = (EXAMPLES / name / "line").read_text()
            self.assertRegex(line, "why [56] ", name)
            self.assertGreater(cells(basis_of(EXAMPLES / name, line), "States")[cell][0], 0, name)


class Reasons(InFolder):
    """The numbered reasons of docs/PROFILE.md: which answers were held against each."""

    def held(self, made: Recording) -> dict[int, int]:
        """How many were, by the number."""
        return {int(name.split()[0]): count for (name, _), (count,) in cells(made.basis(), "Reasons").items()}

    def test_they_are_those_of_the_profile(self) -> None:
        told = (FOLDER.parent / "docs/PROFILE.md").read_text("utf-8").partition("## Why an answer is impossible\n")[2]
        listed = re.findall(r"^- (\d+) · (\w+) · ", told.partition("\n## ")[0], re.MULTILINE)
        self.assertEqual(listed, [(str(number), name) for number, name in enumerate(NAMES, 1)])
        self.assertEqual(set(WHY), set(range(1, len(NAMES) + 1)))

    def test_a_life(self) -> None:
        """Of six calls in a row the first has none ahead of it."""
        made = Recording(self.folder)
        state = number(0x42008D, 5, 1)
        for item in (register("k"), done(GET, "k"), done(ACTIVATE, "k"), refused(DESTROY, "other", NOT_FOUND),
                     (GET_ATTRIBUTES, identifier("k"), None, identifier("k") + attributes(state)),
                     (LOCATE, b"", None, identifier("k"))):
            made.call(item)
        self.assertEqual(self.held(made), {1: 5, 2: 5, 3: 6, 4: 6, 5: 3, 6: 3, 7: 1, 9: 1, 10: 1, 11: 2, 12: 1, 13: 1,
                                           14: 1, 15: 1, 16: 3})

    def test_bytes_are_known_once_they_are_shown(self) -> None:
        """Those of a key that was created the first Get teaches; a declared key may have its own."""
        made = Recording(self.folder, sessions.entry("k", bytes(16)))
        asked = number(0x420057, 5, 2) + attributes(number(0x420028, 5, 3), number(0x42002A, 2, 128))
        for item in ((CREATE, asked, None, number(0x420057, 5, 2) + identifier("c")), done(GET, "c"), done(GET, "c"),
                     done(GET, "k")):
            made.call(item)
        held = self.held(made)
        self.assertEqual((held[7], held[9], held[10], held[16]), (1, 2, 2, 4))

    def test_calls_at_once_have_none_ahead(self) -> None:
        made = Recording(self.folder, sessions.entry("k", bytes(16)))
        made.call(done(GET, "k"))
        made.call(done(GET, "k"))
        made.marks = [made.marks[0], made.marks[2], made.marks[1], made.marks[3]]
        self.assertNotIn(1, self.held(made))

    def test_two_hold_only_where_they_are_declared(self) -> None:
        """Names that are unique, and objects that a server has to hide: else nobody counts them as never tried."""
        made = Recording(self.folder)
        made.call(register("k", sessions.name("n")))
        made.call(done(GET, "k"))
        self.assertLessEqual({8, 17} & set(self.held(made)), set())
        self.assertFalse([name for section in made.basis().sections for name in section.never()
                          if name.startswith(("8 ", "17 "))])
        told = structure(0x540030, number(0x540002, 2, 2), number(0x540031, 6, 1, 8), number(0x540035, 5, 1),
                         number(0x540037, 5, 3))
        (self.folder / "declaration.ttlv").write_bytes(told)
        made.marks[2] = messages.begin(2, messages.request(asking(GET, identifier("k"))), "other/1")
        self.assertEqual({number: self.held(made).get(number) for number in (8, 17)}, {8: 1, 17: 1})
        made.marks[2] = messages.begin(2, messages.request(asking(GET, identifier("k"))), "a/2")
        self.assertEqual({number: self.held(made).get(number) for number in (8, 17)}, {8: 1, 17: None})


class Tables(InFolder):
    """The other parts of the table, and what was judged."""

    def test_reasons_with_and_without_their_cause(self) -> None:
        made = Recording(self.folder, sessions.entry("k", bytes(16), "n"))
        rows = [structure(0x540032, number(0x42007E, 5, reason), number(0x540033, 5, cause))
                for reason, cause in ((NOT_FOUND, 1), (WRONG_STATE, 2), (0x35, 3))]
        told = (self.folder / "declaration.ttlv").read_bytes()
        (self.folder / "declaration.ttlv").write_bytes(told[:40] + b"".join(rows) + told[40:])
        made.call(refused(GET, "none", NOT_FOUND))
        made.call(refused(GET, "k", NOT_FOUND))
        made.call(refused(REVOKE, "k", WRONG_STATE, 1))
        made.call((REGISTER, register("l", sessions.name("n"))[1], 0x35, b""))
        made.call((REGISTER, register("l", sessions.name("m"))[1], 0x35, b""))
        made.call(refused(GET, "k", 0x100))
        self.assertEqual(cells(made.basis(), "Result Reasons"), {
            ("1 Item Not Found, NotFound", "its cause held"): (1,), ("1 Item Not Found, NotFound", "else"): (1,),
            ("43, WrongState", "its cause held"): (1,), ("35, TakenName", "its cause held"): (1,),
            ("35, TakenName", "else"): (1,), ("a reason without a row", "else"): (1,)})

    def test_attributes_shown_and_required(self) -> None:
        made = Recording(self.folder, sessions.entry("k", bytes(16), "n"))
        state = number(0x42008D, 5, 1)
        made.call((GET_ATTRIBUTES, identifier("k"), None, identifier("k") + attributes(state, sessions.name("n"))))
        for reference in (number(0x42013B, 5, 0x420001), number(0x42013B, 5, 0x42008D), text(0x42013B, "State")):
            made.call((GET_ATTRIBUTES, identifier("k") + reference, None, identifier("k") + attributes(state)))
        self.assertEqual(cells(made.basis(), "Attributes"), {
            ("Name", "shown"): (1,), ("Name", "required"): (1,), ("State", "shown"): (4,), ("State", "required"): (2,),
            ("Object Type", "required"): (1,), ("Cryptographic Algorithm", "required"): (1,),
            ("Cryptographic Length", "required"): (1,)})

    def test_filters_and_the_placeholder(self) -> None:
        made = Recording(self.folder, sessions.entry("k", bytes(16)))
        asked = number(0x42004F, 2, 1) + attributes(sessions.name("n"), number(0x420028, 5, 3), text(0x420056, "group"))
        made.call((LOCATE, asked, None, identifier("k")), (ACTIVATE, b"", None, identifier("k")))
        made.call((LOCATE, b"", None, b""), (GET, b"", NOT_FOUND, b""))
        made.call(done(GET, "k"))
        basis = made.basis()
        self.assertEqual(cells(basis, "Result Reasons"), {("1 Item Not Found, NotFound", "no object was meant"): (1,)})
        self.assertEqual(cells(basis, "Locate"), {(name, "answered"): (1,) for name in (
            "Name", "Cryptographic Algorithm", "Maximum Items", "no filter", "a filter that is not judged")})
        self.assertEqual(cells(basis, "States"), {("Activate", "Pre-Active"): (1, 0), ("Get", "no such object"): (0, 1),
                                                  ("Get", "Active"): (1, 0)})
        self.assertEqual(cells(basis, "Batches"), {("no option, which is Stop", "without one"): (1,),
                                                   ("no option, which is Stop", "with a first failed answer"): (1,)})
        self.assertEqual(cells(basis, "Calls and items")["an item that means the placeholder", "recorded"], (2,))

    def test_what_is_judged_of_a_no_ends_with_the_refused_call(self) -> None:
        made = Recording(self.folder, sessions.entry("k", bytes(16)), sessions.entry("l", bytes(16)))
        for item in (done(GET, "k"), done(ACTIVATE, "k"), refused(GET, "none", NOT_FOUND), done(GET, "l")):
            made.call(item)
        for verdict, calls, objects in (("yes", 4, 2), ("no: turn 2 call 2 item 1 why 6 WrongState\nat x", 2, 1),
                                        ("outside: call 1 request item 1 kind 4 Operation", 0, 0)):
            coverage = made.basis(verdict=verdict).coverage
            self.assertEqual([(share.of, share.judged, share.all) for share in coverage.shares],
                             [("calls", calls, 4), ("items", calls, 4), ("objects", objects, 2)], verdict)
        coverage = made.basis().coverage
        self.assertEqual(coverage.operations, [("Activate", [1, 0, 0, 0]), ("Get", [2, 1, 0, 0])])
        self.assertEqual(coverage.reasons, [("1 Item Not Found", 1)])

    def test_payloads_that_the_witness_gives(self) -> None:
        basis = basis_of(EXAMPLES / "undone_create_filled", "yes")
        self.assertEqual([(share.judged, share.all) for share in basis.coverage.shares], [(1, 1), (3, 3), (1, 1)])
        self.assertEqual(cells(basis, "States")["Get", "Pre-Active"], (1, 0), "the placeholder means what was filled in")
        answered = cells(basis_of(EXAMPLES / "open_call_answered", "yes"), "States")
        self.assertNotIn("no such object", [head for _, head in answered], "the open call made it")

    def test_the_page_the_text_and_junit_have_it(self) -> None:
        out, xml = self.folder / "out.html", self.folder / "junit.xml"
        ran = report(out, EXAMPLES / "register_then_get", "--text", "--junit", xml)
        told = "".join(Page(out.read_text("utf-8")).texts)
        for words in ("What the verdict rests on", "Judged: 2 of 2 calls, 2 of 2 items and 1 of 1 objects.",
                      "Conformance table", "and not the auditor's word", "No finding"):
            self.assertIn(words, told)
        self.assertIn("\n  Get: Pre-Active 1 / 0; never Active, ", ran.stdout)
        self.assertLessEqual(max(map(len, ran.stdout.splitlines())), 80)
        (case,) = ElementTree.parse(xml).getroot()
        numbers = {each.get("name"): each.get("value") for each in case.iter("property")}
        self.assertEqual([numbers[f"{name} judged"] for name in ("calls", "items", "objects")], ["2", "2", "1"])
        # Get of an object that is Pre-Active, and all reasons but those of names, lists, attributes, refusals, owners.
        self.assertEqual(numbers["cells exercised"], "12")
        self.assertIn("Get: Pre-Active 1 / 0", case.findtext("system-out") or "")

    def test_findings_stand_first_and_lead_to_their_story(self) -> None:
        made = Recording(self.folder, sessions.entry(STRANGE[0], bytes(16)))
        made.call(done(ACTIVATE, STRANGE[0]))
        made.call(done(ACTIVATE, STRANGE[0]))
        made.write(1, 2)
        out = self.folder / "out.html"
        self.assertEqual(report(out, self.folder, EXAMPLES / "query", "--force").returncode, 1)
        written = out.read_text("utf-8")
        page = Page(written)
        self.assertNotIn("<script>alert", written)
        self.assertEqual([found["href"] for found in page.attributes["a"]][:2], ["#recording-1", "#story-1"])
        self.assertIn("story-1", [found.get("id") for found in page.attributes["h3"]])
        self.assertLess(written.index("Findings"), written.index("Verdicts"))
        self.assertTrue(re.search(r"the story of object &lt;script&gt;", written))


if __name__ == "__main__":
    unittest.main()
