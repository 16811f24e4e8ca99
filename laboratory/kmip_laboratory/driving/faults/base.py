"""What a fault is: a class that stands ahead of the engine, with what is said of it."""

from __future__ import annotations

from ..engine import Engine


class Fault(Engine):
    """The docstring of a fault says what goes wrong.

    `mix` is the mix in which it shows soonest, `rate_usual` how often it comes about where it could,
    `unique_names_usual` whether names are declared unique, and `unseen` why no audit can see it, where none can.
    """

    mix = "everything"
    rate_usual = 0.2
    unique_names_usual = False
    unseen = ""
