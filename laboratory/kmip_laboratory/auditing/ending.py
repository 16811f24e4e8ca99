"""What is told of the few calls that convict."""

from __future__ import annotations

from .part import Part

# So many are told by their numbers.
MOST_NUMBERS = 20


def convicted(parts: list[Part]) -> list[str]:
    """The lines that tell them."""
    return ["no order explains what was recorded", *map(_line, parts)]


def note(parts: list[Part]) -> str:
    """What the page says of a recording that is convicted by some of its calls alone; nothing where none are."""
    folders = [str(part.folder) for part in parts]
    if not folders:
        return ""
    where = folders[0] if len(folders) == 1 else f"each of {', '.join(folders)}"
    return (f"No order explains it all the same: already the few calls in {where} can't be explained. They stand "
            "below.")


def _line(part: Part) -> str:
    numbers = ", ".join(map(str, part.calls[:MOST_NUMBERS]))
    more = f" and {len(part.calls) - MOST_NUMBERS} more" if len(part.calls) > MOST_NUMBERS else ""
    ahead = f"of finding {part.finding} " if part.finding else ""
    return (f"{ahead}already these {len(part.calls)} calls can't be explained: {numbers}{more}; they are in "
            f"{part.folder}")
