"""What a verdict rests on, as tables of the page."""

from __future__ import annotations

from typing import Optional

from .basis import READING, Basis
from .conformance import Line, Section, in_sum, spelled
from .coverage import ENDS, in_words
from .markup import Markup, Part, element, table, together

NEVER = "never"


def coverage(basis: Basis, told: Optional[str] = None) -> Markup:
    """What was judged, in the auditor's words where it tells that."""
    by_operation: list[list[Part]] = [[name, *map(_count, counts)] for name, counts in basis.coverage.operations]
    by_reason: list[list[Part]] = [[name, _count(count)] for name, count in basis.coverage.reasons]
    tables = [table(["Items by operation", *ENDS], by_operation, len(ENDS))]
    tables += [table(["Result Reason", "refusals judged"], by_reason, 1)] if by_reason else []
    return together([
        element("h3", "What the verdict rests on"), element("p", told or in_words(basis.coverage)),
        element("p", ("The table is the report's reading of it, call by call." if told else READING), of="soft"),
        element("div", *tables, of="counts")])


def conformance(basis: Basis) -> Markup:
    """The conformance table."""
    return together([
        element("h3", "Conformance table"), element("p", in_sum(basis.sections)),
        element("p", f"What the recording exercised of the profile, and what it never tried. {basis.order} {READING}",
                of="soft"),
        element("div", *map(_section, basis.sections), of="counts")])


def _section(section: Section) -> Markup:
    rows = [_row(section, line) for line in section.lines]
    return element("div", element("h4", section.name), element("p", section.counts, of="soft"),
                   table(["", *section.heads], rows, len(section.heads)), of="conformance")


def _row(section: Section, line: Line) -> list[Part]:
    cells: list[Part] = [line.name]
    for column, cell in enumerate(line.cells):
        if cell is None or any(cell):
            cells.append(spelled(cell))
        else:
            is_aside = section.is_aside(line, column)
            cells.append(element("span", "0" if is_aside else NEVER, of="soft" if is_aside else NEVER))
    return cells


def _count(count: int) -> str:
    return f"{count:,}"
