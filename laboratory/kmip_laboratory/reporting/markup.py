"""Elements of a page; every text in them is made harmless here, and nowhere else."""

from __future__ import annotations

import base64
import hashlib
import html
import json
from typing import Union

from ..plain import plain, plain_lines

EMPTY = ("meta", "hr")


class Markup(str):
    """Text that is markup already."""


Part = Union[str, Markup]


def element(tag: str, *parts: Part, **attributes: object) -> Markup:
    """An element with these parts; a part that is no markup is text, which has lines in `pre` alone. `of` stands for
    `class`, `_` for `-`."""
    shown = plain_lines if tag == "pre" else plain
    told = "".join(f' {_name(name)}="{html.escape(plain(str(value)))}"' for name, value in attributes.items()
                   if value is not None)
    inside = "".join(part if isinstance(part, Markup) else html.escape(shown(part)) for part in parts)
    return Markup(f"<{tag}{told}>" if tag in EMPTY else f"<{tag}{told}>{inside}</{tag}>")


def _name(name: str) -> str:
    return "class" if name == "of" else name.replace("_", "-")


def together(parts: list[Markup]) -> Markup:
    """Elements one behind the other."""
    return Markup("\n".join(parts))


def table(heads: list[str], rows: list[list[Part]], numbers: int = 0) -> Markup:
    """A table, of which the last columns, as many as are said, hold numbers."""
    def cells(tag: str, row: list[Part]) -> list[Markup]:
        first = len(row) - numbers
        return [element(tag, part, of="number" if place >= first else None, scope="col" if tag == "th" else None)
                for place, part in enumerate(row)]

    body = [element("tr", *cells("td", row)) for row in rows]
    return element("div", element("table", element("thead", element("tr", *cells("th", list(heads)))),
                                  element("tbody", *body)), of="wide")


def data(value: object, name: str) -> Markup:
    """A value as JSON inside a page; nothing in it can end its element."""
    spelled = json.dumps(value, separators=(",", ":"), ensure_ascii=True)
    for letter in "<>&":
        spelled = spelled.replace(letter, f"\\u{ord(letter):04x}")
    return Markup(f'<script type="application/json" id="{name}">{spelled}</script>')


def digest(text: str) -> str:
    """The digest by which a page allows its own script or style."""
    return "'sha256-" + base64.b64encode(hashlib.sha256(text.encode("utf-8")).digest()).decode("ascii") + "'"
