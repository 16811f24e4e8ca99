"""The conformance table: of each thing that a server is judged by, how often a recording exercised it."""

from __future__ import annotations

from typing import NamedTuple, Optional

# Nothing can exercise such a cell.
NO_CELL = None
Cell = Optional[tuple[int, ...]]


class Line(NamedTuple):
    """A row: its name, and in each cell how often that was exercised, in as many ways as the section has; `is_aside` is
    one that no recording is expected to exercise."""

    name: str
    cells: list[Cell]
    is_aside: bool = False


class Section(NamedTuple):
    """A part of the table: what it is of, what its cells count, the heads of its columns, of which the last ones, as
    many as `aside` says, are not expected to be exercised, and its rows."""

    name: str
    counts: str
    heads: list[str]
    lines: list[Line]
    aside: int = 0

    def wanted(self) -> list[tuple[str, tuple[int, ...]]]:
        """The cells that a recording is expected to exercise, each with its name."""
        columns = self.heads[:len(self.heads) - self.aside]
        return [(line.name if len(columns) == 1 else f"{line.name}: {head}", cell)
                for line in self.lines if not line.is_aside
                for head, cell in zip(columns, line.cells) if cell is not None]

    def never(self) -> list[str]:
        """What was never tried."""
        return [name for name, cell in self.wanted() if not any(cell)]

    def is_aside(self, line: Line, column: int) -> bool:
        """Whether nobody expects a cell to be exercised."""
        return line.is_aside or column >= len(self.heads) - self.aside


def spelled(cell: Cell) -> str:
    """A cell in figures, one behind the other where it counts in several ways."""
    return "" if cell is None else " / ".join(f"{count:,}" for count in cell)


def in_sum(sections: list[Section]) -> str:
    """How many cells of all sections were exercised, in a sentence."""
    wanted = sum(len(section.wanted()) for section in sections)
    never = sum(len(section.never()) for section in sections)
    return f"{wanted - never} of {wanted} cells were exercised, {never} were never tried."
