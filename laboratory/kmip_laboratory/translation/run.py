"""The word `translate`: a transcript of older versions as one of 2.1."""

from __future__ import annotations

from ..message import Side
from ..recording.rewriting import rewrite
from ..transcript import Begin, Mark
from ..trouble import say
from ..versions import JUDGED
from .messages import Translator

BECAME_NEWER = "are written as 2.1: what is judged then is not quite what was said"
BECAME_BARE = "name no identifier any more where it only said that the placeholder is meant"


def run(source: str, target: str, ordered: bool = True) -> str:
    """Writes the transcript, tells what was lost, and answers the summary. `ordered` is as of the Translator."""
    translator = Translator(ordered=ordered)

    def change(mark: Mark) -> Mark:
        side = Side.CLIENT if isinstance(mark, Begin) else Side.SERVER
        return mark._replace(message=translator.message(mark.call, side, mark.message))

    rewrite(source, target, change)
    for line in account(translator):
        say(line)
    return f"{sum(translator.count.values())} messages translated, {translator.left} left as they are"


def account(translator: Translator) -> list[str]:
    """What was translated and what was lost, as lines for a person."""
    lines = [f"version {version}: {count} messages {BECAME_BARE if version == str(JUDGED) else BECAME_NEWER}"
             for version, count in sorted(translator.count.items())]
    return lines + [f"without a place in 2.1, and left out: {field}, {count} times"
                    for field, count in sorted(translator.lost.items()) if count]
