"""What a verdict rests on, in lines of text and as names with numbers."""

from __future__ import annotations

from typing import Iterator

from .basis import READING, Basis
from .conformance import Line, Section, in_sum, spelled
from .coverage import ENDS, in_words


def paragraphs(basis: Basis, told: str = "") -> Iterator[str]:
    """What was judged, in the auditor's words where it tells that, and the conformance table: a paragraph a line, of
    any length."""
    yield f"What the verdict rests on. {READING}"
    yield told or in_words(basis.coverage)
    for name, counts in basis.coverage.operations:
        yield f"  {name}: " + ", ".join(f"{count:,} {end}" for count, end in zip(counts, ENDS) if count)
    for name, count in basis.coverage.reasons:
        yield f"  Result Reason {name}: {count:,}"
    yield ""
    yield f"Conformance table. {in_sum(basis.sections)} {basis.order}"
    for section in basis.sections:
        yield f"{section.name}: {section.counts}"
        yield from (f"  {line.name}: {_cells(section, line)}" for line in section.lines)


def numbers(basis: Basis) -> Iterator[tuple[str, int]]:
    """What was judged and what was never tried, each by a name."""
    for share in basis.coverage.shares:
        yield f"{share.of} judged", share.judged
        yield f"{share.of} recorded", share.all
    yield "cells exercised", sum(len(section.wanted()) - len(section.never()) for section in basis.sections)
    yield "cells never tried", sum(len(section.never()) for section in basis.sections)


def _cells(section: Section, line: Line) -> str:
    """The cells of a row: those that were exercised, and then the names of those that never were."""
    told = [spelled(cell) if len(section.heads) == 1 else f"{head} {spelled(cell)}"
            for head, cell in zip(section.heads, line.cells) if cell is not None and any(cell)]
    never = [head for column, (head, cell) in enumerate(zip(section.heads, line.cells))
             if cell is not None and not any(cell) and not section.is_aside(line, column)]
    if never:
        told.append(f"never {', '.join(never)}" if told or len(never) < len(section.heads) - section.aside else "never")
    return "; ".join(told) or "0"
