"""What was found in a recording and what is set aside, as parts of the page."""

from __future__ import annotations

from typing import Callable, NamedTuple, Sequence

from ..judgement import Finding
from .explanation import story
from .found import Found
from .judging import Judged, operations
from .markup import Markup, Part, element, table, together
from .reasons import of_finding

# Of each sort so many are told.
MOST_TOLD = 200


class Words(NamedTuple):
    """How lines of the auditor's and a call are written, so that they lead to bars of the timeline."""

    lines: Callable[[Judged, Sequence[str]], list[Part]]
    call: Callable[[int], Markup]


def explained(judged: Judged, found: Found, number: int, words: Words) -> Markup:
    """The findings that the auditor explains, each in a section of its own."""
    return together([_finding(judged, finding, (number, place), words)
                     for place, finding in enumerate(found.findings, 1) if finding.explanation])


def others(judged: Judged, found: Found, number: int, words: Words) -> Markup:
    """The other findings, in a table."""
    left = [each for each in enumerate(found.findings, 1) if not each[1].explanation]
    rows = [_row(judged, finding, (number, place), words) for place, finding in left[:MOST_TOLD]]
    if not rows:
        return Markup("")
    heads = ["Finding", "Call", "Client", "Operation", "What is impossible"]
    return together([element("h3", "Findings that the auditor does not explain"),
                     element("div", table(heads, rows), of="others"), *_more(len(left) - len(rows), "findings")])


def _row(judged: Judged, finding: Finding, places: tuple[int, int], words: Words) -> list[Part]:
    call = judged.call(finding.call)
    name = element("span", f"{places[1]}: {finding.name}", id=f"finding-{places[0]}-{places[1]}")
    of_call = [call.client, operations(call)] if call else ["", ""]
    return [name, words.call(finding.call), *of_call, of_finding(finding)]


def _finding(judged: Judged, finding: Finding, places: tuple[int, int], words: Words) -> Markup:
    number, place = places
    call = judged.call(finding.call)
    parts = [element("h3", f"Finding {place}: {finding.name}"), element("p", of_finding(finding))]
    if call is not None:
        parts.append(element("p", "It is ", words.call(call.number), f", {operations(call)}, of client {call.client}."))
    parts += [element("p", "Each line is a claim of the auditor's, and holds of these calls in its order.", of="soft"),
              element("pre", *words.lines(judged, finding.explanation), of="explanation")]
    return element("section", *parts, _story(judged, finding, f"story-{number}-{place}", words), of="finding",
                   id=f"finding-{number}-{place}")


def _story(judged: Judged, finding: Finding, name: str, words: Words) -> Markup:
    """What was done to the finding's object."""
    told = story(finding.explanation)
    if told is None:
        return Markup("")
    clients = {call.number: call.client for call in judged.calls}
    rows: list[list[Part]] = [[words.call(event.call), clients.get(event.call, ""), event.operation, event.date,
                               event.turn] for event in told.events]
    left_out = f" The {told.left_out} before these are left out." if told.left_out else ""
    return together([
        element("h4", f"The story of object {told.identifier}", id=name),
        element("p", ("What was done to it, the newest last." if rows else "Nothing was done to it before.") + left_out,
                of="soft"),
        *([table(["Call", "Client", "Operation", "Time Stamp", "Turn"], rows, 1)] if rows else [])])


def asides(found: Found, words: Words) -> Markup:
    """What is set aside, since when and why, greyed; nothing where nothing is."""
    if not found.asides and not found.judgement.passed:
        return Markup("")
    passed: list[list[Part]] = [[name, f"{items:,}"] for name, items in found.judgement.passed]
    rows: list[list[Part]] = [[told.identifier, words.call(told.call), str(told.item) if told.item else "",
                               told.operation or "a call that can't be read"] for told in found.asides[:MOST_TOLD]]
    tables = [table(["Items that are not judged", "how many"], passed, 1)] if passed else []
    if rows:
        heads = ["Objects that are set aside", "since", "item", "by"]
        tables.append(element("div", table(heads, rows), of="aside"))
    return together([
        element("h3", "What is set aside"),
        element("p", "Nothing is said of these, neither that they are right nor that they are wrong: no rule judges "
                "what was done. Calls about them are grey on the timeline.", of="soft"),
        element("div", *tables, of="counts"), *_more(len(found.asides) - len(rows), "objects")])


def _more(count: int, what: str) -> list[Markup]:
    if count <= 0:
        return []
    return [element("p", f"{count:,} more {what} are not shown here; the auditor's command tells them.", of="soft")]
