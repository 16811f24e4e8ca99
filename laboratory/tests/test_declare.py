"""What `declare` makes of a server's answers: it makes nothing up, and declares what any of several clients is told."""

from __future__ import annotations

import subprocess
import unittest
from pathlib import Path


import messages
import stub
from laboratory import Laboratory, run
from messages import answering, item, number, response, structure, text

from kmip_laboratory import ttlv
from kmip_laboratory.records import read_file, records

STAMP = 1_700_000_000
LOCATE, GET_ATTRIBUTES = 8, 0x0B
INITIAL, ACTIVATION, DEACTIVATION, DESTROY, COMPROMISE = 0x420039, 0x420001, 0x42002F, 0x420033, 0x420020
PRE_ACTIVE, ACTIVE, DEACTIVATED, COMPROMISED, DESTROYED, DESTROYED_COMPROMISED = range(1, 7)
CERTIFICATE, SYMMETRIC_KEY = 1, 2


def date(tag: int, seconds: int = STAMP - 9) -> bytes:
    """A date."""
    return number(tag, 9, seconds, 8)


def told(state: int, *dates: bytes, object_type: int = SYMMETRIC_KEY) -> bytes:
    """The attributes of an object, with its state, where that is above 0."""
    return structure(0x420125, number(0x420057, 5, object_type), number(0x420028, 5, 3), number(0x42002A, 2, 128),
                     number(0x42002C, 2, 12), *([number(0x42008D, 5, state)] if state else []), *dates)


class Declared(Laboratory):
    """A server that holds what a test says; each client sees its own objects."""

    owners: list[str] = []
    aside: list[str] = []

    def declared(self, objects: dict[str, dict[str, bytes]], *words: object) -> tuple[list[str], str]:
        """The identifiers that are declared, where the server tells each client, by its name, of these objects; and
        what is said. Those that are set aside stay in `aside`."""
        def answering_as(peer: stub.ssl.SSLSocket, request: bytes) -> None:
            name = dict(pair for part in peer.getpeercert()["subject"] for pair in part)["commonName"]
            seen = objects.get(name, {})
            asked = ttlv.read_item(request).first(0x42000F, ttlv.Kind.STRUCTURE)
            payload = asked.first(0x420079, ttlv.Kind.STRUCTURE)
            named = payload.first(0x420094, ttlv.Kind.TEXT)
            if named is None:
                peer.sendall(response(STAMP, answering(LOCATE, 0, *(text(0x420094, each) for each in seen))))
            else:
                shown = [text(0x420094, named.value), seen[named.value]]
                peer.sendall(response(STAMP, answering(GET_ATTRIBUTES, 0, *shown)))

        out = Path(self.folder) / "declaration.ttlv"
        out.unlink(missing_ok=True)
        done: subprocess.CompletedProcess[str] = run(
            "declare", "--server", f"127.0.0.1:{self.stub(answering_as).port}", "--server-ca", "authority.pem", *words,
            "--out", out, cwd=self.certificates)
        self.assertEqual(done.returncode, 0, done.stderr)
        entries = [record.item for record in records(str(out), read_file(str(out))) if record.item.tag == 0x540034]
        owners = [entry.first(0x54003C, ttlv.Kind.TEXT) for entry in entries]
        owned = sum(owner is not None for owner in owners)
        aside = [record.item for record in records(str(out), read_file(str(out))) if record.item.tag == 0x54003D]
        self.aside = [entry.first(0x420094, ttlv.Kind.TEXT).value for entry in aside]
        counts = f"{f', {len(aside)} set aside' if aside else ''}{f', {owned} owners' if owned else ''}"
        self.assertEqual(done.stdout, f"0 rows, {len(entries)} entries{counts}\n")
        self.owners = [owner.value if owner else "" for owner in owners]
        return [entry.first(0x420094, ttlv.Kind.TEXT).value for entry in entries], done.stderr

    def as_recorder(self, **objects: bytes) -> tuple[list[str], str]:
        """The same where the recorder asks alone."""
        return self.declared({"recorder": objects}, "--server-cert", "recorder.pem", "--server-key", "recorder.key")

    def test_a_state_without_the_date_that_makes_it_so_is_not_declared(self) -> None:
        begun = [date(INITIAL)]
        without = {"active": told(ACTIVE, *begun), "deactivated": told(DEACTIVATED, *begun, date(ACTIVATION)),
                   "compromised": told(COMPROMISED, *begun), "destroyed": told(DESTROYED, *begun),
                   "both": told(DESTROYED_COMPROMISED, *begun, date(DESTROY)),
                   "early": told(ACTIVE, *begun, date(ACTIVATION, STAMP + 1)), "silent": told(0, *begun),
                   "odd": told(77, *begun), "certificate": told(PRE_ACTIVE, *begun, object_type=CERTIFICATE)}
        found, said = self.as_recorder(**without, new=told(PRE_ACTIVE, *begun))
        self.assertEqual(found, ["new"])
        for name in without:
            self.assertRegex(said, rf"kmip_record: object {name}: left out, for ")
        self.assertIn("object active: left out, for the server says that it is Active, and tells no date that makes it "
                      "so, but what makes it Pre-Active\n", said)
        self.assertIn("9 objects are left out: where a recorded call succeeds on one of them, the auditor will say "
                      "that there is no such object\n", said)

    def test_what_no_entry_can_say_is_set_aside_where_that_is_asked(self) -> None:
        objects = {"recorder": {"active": told(ACTIVE, date(INITIAL)), "new": told(PRE_ACTIVE, date(INITIAL)),
                                "certificate": told(PRE_ACTIVE, date(INITIAL), object_type=CERTIFICATE)}}
        pair = ["--server-cert", "recorder.pem", "--server-key", "recorder.key"]
        found, said = self.declared(objects, *pair, "--set-aside")
        self.assertEqual((found, self.aside), (["new"], ["active", "certificate"]))
        self.assertIn("2 objects are left out: they are set aside, and nothing about them is judged\n", said)
        self.assertEqual(self.declared(objects, *pair)[0], ["new"])
        self.assertEqual(self.aside, [])

    def test_a_state_with_its_dates_is_declared_by_the_servers_clock(self) -> None:
        active = [date(INITIAL), date(ACTIVATION, STAMP)]
        found, said = self.as_recorder(
            a=told(PRE_ACTIVE, date(INITIAL), date(ACTIVATION, STAMP + 1)), b=told(ACTIVE, *active),
            c=told(DEACTIVATED, *active, date(DEACTIVATION, STAMP)), d=told(COMPROMISED, *active, date(COMPROMISE)),
            e=told(DESTROYED, *active, date(DESTROY)), f=told(DESTROYED_COMPROMISED, date(DESTROY), date(COMPROMISE)))
        self.assertEqual(found, list("abcdef"))
        self.assertNotIn("left out, for", said)

    def test_what_each_client_sees_is_declared_and_whose_it_is_told(self) -> None:
        new, later = told(PRE_ACTIVE, date(INITIAL)), told(PRE_ACTIVE, date(INITIAL, STAMP - 5))
        objects = {"client-1": {"own-1": new, "shared": new, "torn": new},
                   "client-2": {"shared": new, "own-2": later, "torn": later}}
        words = [f"--as={name}={name}.pem,{name}.key" for name in objects]
        found, said = self.declared(objects, *words)
        self.assertEqual(found, ["own-1", "shared", "own-2"])
        self.assertEqual(self.owners, ["client-1", "", "client-2"])
        for line in ("object own-1: of those that asked, client-1 alone is told of it, and is declared as its owner",
                     "object own-2: of those that asked, client-2 alone is told of it, and is declared as its owner",
                     "object torn: left out, for client-1 and client-2 are told different things of it"):
            self.assertIn(line, said)
        self.assertNotIn("object shared", said)
        pair = ["--server-cert", "recorder.pem", "--server-key", "recorder.key"]
        self.assertEqual(self.declared({**objects, "recorder": {}}, *words, *pair)[0], found)
        self.assertEqual(self.owners, ["client-1", "", "client-2"])

    def test_who_is_told_without_being_a_client_owns_nothing(self) -> None:
        pair = ["--server-cert", "recorder.pem", "--server-key", "recorder.key", "--as=client-1=client-1.pem,client-1.key"]
        found, said = self.declared({"recorder": {"own": told(PRE_ACTIVE, date(INITIAL))}}, *pair)
        self.assertEqual((found, self.owners), (["own"], [""]))
        self.assertIn("the certificate of --server-cert alone are told of it; no owner is declared", said)

    def test_an_owner_by_the_words_stands_over_what_was_seen(self) -> None:
        new = told(PRE_ACTIVE, date(INITIAL))
        found, _ = self.declared({"client-1": {"a": new, "b=c": new}}, "--as=client-1=client-1.pem,client-1.key",
                                 "--owner", "b=c=alice")
        self.assertEqual((found, self.owners), (["a", "b=c"], ["", "alice"]))

    def test_who_asks_must_be_named(self) -> None:
        for words in ([], ["--server-cert", "recorder.pem"]):
            done = run("declare", "--server", "127.0.0.1:1", "--server-ca", "authority.pem", *words, "--out", "d",
                       cwd=self.certificates)
            self.assertEqual((done.returncode, done.stderr), (1, (
                "kmip_record: to ask a server, give --server-ca, and --server-cert with --server-key, or --as\n")))


class Rules(Laboratory):
    """Rules by words and by files. The bytes are those that docs/FORMATS.md asks for."""

    def declared(self, *words: str) -> str:
        """The bytes of a declaration of an empty server, in hexadecimal digits; or what is said where there is none."""
        out = Path(self.folder) / "d.ttlv"
        out.unlink(missing_ok=True)
        done = run("declare", "--empty", *words, "--out", str(out))
        return out.read_bytes().hex() if done.returncode == 0 else done.stderr

    def test_without_lines_it_has_version_1(self) -> None:
        self.assertEqual(self.declared("--unique-names"), "54003001000000205400020200000004000000010000000054003106000000080000000000000001")

    def test_a_line_makes_version_2(self) -> None:
        header = ("5400300100000050" "54000202000000040000000200000000" "54003106000000080000000000000000"
                  "54003505000000040000000100000000" "54003602000000040000000000000000" "54003705000000040000000100000000")
        line = "5400380100000030" "54003905000000040000000600000000" "42008d05000000040000000200000000" "54003a05000000040000000300000000"
        self.assertEqual(self.declared("--allow", "Destroy,Active=not"), header + line)
        tolerant = header.replace("54003602000000040000000000000000", "54003602000000040000000200000000")
        self.assertEqual(self.declared("--tolerance", "2"), tolerant)

    def test_what_the_server_gives_and_what_becomes_of_what_is_not_judged(self) -> None:
        header = ("5400300100000050" "54000202000000040000000200000000" "54003106000000080000000000000000"
                  "54003505000000040000000{}00000000" "54003602000000040000000000000000" "54003705000000040000000100000000")
        own = "54003b0100000010" "42013b050000000400{}00000000"
        self.assertEqual(self.declared("--own", "ActivationDate", "--own", "Name"),
                         header.format(1) + own.format("420001") + own.format("420053"))
        self.assertEqual(self.declared("--set-aside"), header.format(2))
        out = Path(self.folder) / "unknown.ttlv"
        done = run("declare", "--unknown", "--out", str(out))
        self.assertEqual((done.returncode, done.stdout),
                         (0, "0 rows, 0 entries, nothing is known of what isn't declared\n"))
        self.assertEqual(out.read_bytes().hex(), header.format(3))

    def test_who_sees_whose_objects(self) -> None:
        header = ("5400300100000050" "54000202000000040000000200000000" "54003106000000080000000000000000"
                  "54003505000000040000000{}00000000" "54003602000000040000000000000000" "54003705000000040000000{}00000000")
        self.assertEqual(self.declared("--visibility", "may-hide"), header.format(2, 2))
        self.assertEqual(self.declared("--visibility", "must-hide", "--set-aside"), header.format(2, 3))
        self.assertEqual(self.declared("--visibility", "everyone"), self.declared())
        out = Path(self.folder) / "unknown.ttlv"
        done = run("declare", "--unknown", "--visibility", "must-hide", "--out", str(out))
        self.assertEqual(out.read_bytes().hex(), header.format(3, 3), done.stderr)
        self.assertEqual(done.stdout, "0 rows, 0 entries, visibility must-hide, nothing is known of what isn't "
                         "declared\n")
        file = Path(self.folder) / "my.rules"
        file.write_text("visibility may-hide\n", "utf-8")
        self.assertEqual(self.declared("--rules", str(file)), header.format(2, 2))
        self.assertIn("the server may hide objects, and has to: leave one of these words away",
                      self.declared("--rules", str(file), "--visibility", "must-hide"))
        self.assertIn("'nobody' doesn't say who sees whose objects: that is one of everyone, may-hide, must-hide",
                      self.declared("--visibility", "nobody"))

    def test_a_file_says_what_words_say(self) -> None:
        file = Path(self.folder) / "my.rules"
        file.write_text("# a server\nunique-names\n\nreason 0x37=NotFound # why\nallow Destroy,Active=not\n"
                        "own Name\ntolerance 3\n", "utf-8")
        words = ["--unique-names", "--reason", "0x37=NotFound", "--allow", "Destroy,Active=not", "--tolerance", "3",
                 "--own", "Name"]
        self.assertEqual(self.declared("--rules", str(file)), self.declared(*words))
        self.assertEqual(self.declared("--rules", str(file), "--allow", "Destroy,Active=not"), self.declared(*words))
        self.assertIn("Destroy in state Active has two words: leave one of them away",
                      self.declared("--rules", str(file), "--allow", "Destroy,Active=may"))

    def test_what_no_rule_says(self) -> None:
        self.assertIn("an object in state Destroyed is never open to Get, and no rule changes that",
                      self.declared("--allow", "Get,Destroyed=may"))
        self.assertIn("'Destroy=not' is no OPERATION,STATE=WORD", self.declared("--allow", "Destroy=not"))
        for words in ("86401", "-1", "1.5", "x"):
            self.assertIn("is no number of seconds from 0 to 86400", self.declared("--tolerance", words))
        file = Path(self.folder) / "my.rules"
        for text, told_so in (("unique names", "'unique names' is no rule"), ("reason 1=Nothing", "is no NUMBER=CAUSE"),
                              ("tolerance", "is no number of seconds"), ("own State", "is nothing that a server gives"),
                              ("allow Get,Destroyed=must", "is never open to Get")):
            file.write_text(f"unique-names\n{text}\n", "utf-8")
            self.assertRegex(self.declared("--rules", str(file)), rf"^kmip_record: {file}, line 2: .*{told_so}")
        file.write_bytes(b"\xff")
        self.assertIn("is no text in UTF-8", self.declared("--rules", str(file)))
        self.assertIn("nothing can't be read", self.declared("--rules", "nothing"))

    def test_the_files_that_are_ready(self) -> None:
        ready = sorted((Path(__file__).resolve().parent.parent / "rules").glob("*.rules"))
        self.assertEqual([file.name for file in ready], ["pykmip.rules", "standard-2.1.rules"])
        for file in ready:
            self.assertTrue(self.declared("--rules", str(file)).startswith("540030"), file)


if __name__ == "__main__":
    unittest.main()
