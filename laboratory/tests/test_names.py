"""Names and numbers of tags and operations, against the tables of docs/FORMATS.md."""

from __future__ import annotations

import re
import unittest

from laboratory import FOLDER

from kmip_laboratory.operations import Operation, operation_name
from kmip_laboratory.tag_names import TAG_NAMES, tag_name, tag_of_name
from kmip_laboratory.tags import FileTag, Tag

FORMATS = (FOLDER.parent / "docs/FORMATS.md").read_text()


def of_enumeration(name: str) -> str:
    """The numbers of a type, as the document lists them."""
    found = re.search(rf"^- {name} · (.*(?:\n  .*)*)$", FORMATS, re.MULTILINE)
    return " ".join(found.group(1).split())


class Names(unittest.TestCase):
    """Each name that the document has stands with its number in the modules."""

    def test_tags(self) -> None:
        listed = {int(number, 16): name for number, name in
                  re.findall(r"\| (42[0-9A-F]{4}) \| ([^|]+) (?=\|)", FORMATS)}
        self.assertGreater(len(listed), 40)
        for number, name in listed.items():
            self.assertEqual((tag_name(number), tag_of_name(name)), (name, number))
            self.assertEqual(Tag(number).name, name.upper().replace(" ", "_"))

    def test_tags_of_files(self) -> None:
        listed = {int(number, 16): name for number, name in
                  re.findall(r"\| (54[0-9A-F]{4}) \| ([a-z ]+) (?=\|)", FORMATS)}
        self.assertEqual({tag.value: tag.name.lower().replace("_", " ") for tag in FileTag}, listed)

    def test_the_last_tags_and_reserved_ones(self) -> None:
        self.assertEqual([tag_name(number) for number in (0x420091, 0x42013C, 0x42013D, 0x420140, 0x420165)], [
            "Template-Attribute", "Current Attribute", "New Attribute", "Certificate Request Value",
            "Public Protection Storage Masks"])
        self.assertNotIn(0x42013E, TAG_NAMES)
        self.assertEqual(tag_name(0x540001), "tag 540001")

    def test_operations(self) -> None:
        listed = [entry.rpartition(" ") for entry in of_enumeration("Operation").split(", ")]
        self.assertEqual(len(listed), 10)
        for name, _, number in listed:
            self.assertEqual(operation_name(int(number, 16)), name)
        self.assertEqual((Operation.ENCRYPT, Operation.PING, operation_name(0x99)), (0x1F, 0x3B, "operation 99"))


if __name__ == "__main__":
    unittest.main()
