"""The faults that the key server can have, by their names."""

from __future__ import annotations

import re
from typing import Iterator

from . import batches, listing, moments, races, reads, unseen, writes
from .base import Fault

MODULES = (reads, writes, listing, batches, moments, races, unseen)


def _named() -> Iterator[tuple[str, type[Fault]]]:
    for module in MODULES:
        for made in vars(module).values():
            if isinstance(made, type) and issubclass(made, Fault) and made.__module__ == module.__name__:
                yield re.sub(r"(?<!^)(?=[A-Z])", "-", made.__name__).lower(), made


FAULTS: dict[str, type[Fault]] = dict(_named())


def description(fault: type[Fault]) -> str:
    """What goes wrong, in one line."""
    return " ".join((fault.__doc__ or "").split())
