"""The page: one file that needs no other."""

from __future__ import annotations

from datetime import datetime
from pathlib import Path
from typing import Optional, Sequence

from ..paths import shown
from ..plain import plain
from ..verdicts import Outcome
from . import basis_on_page, found_on_page
from .counts import by_verdict, crosses, period
from .explanation import Story, split, story
from .figures import figures
from .findings import findings
from .found import in_words_of
from .judging import Judged, came_to, moment, operations
from .markup import Markup, Part, data, digest, element, table, together
from .reasons import PREMISES, in_short, in_words, of_others, of_seal

SOURCES = Path(__file__).resolve().parent / "page"
TOOLS = [("fault", "To the verdict's call"), ("in", "Zoom in"), ("out", "Zoom out"), ("left", "Earlier"),
         ("right", "Later"), ("all", "Whole recording")]
NEXT = "To the next finding"
LEGEND = [("success", "success"), ("failed", "failed"), ("refused", "message refused"), ("undone", "undone"),
          ("open", "no answer"), ("fault", "named by the verdict")]
KEYS = ("Keys, once the timeline has the focus: left and right for the call before and behind, up and down for the row "
        "above and below, Home and End, + and - to zoom, Page Up and Page Down to move, 0 for the whole recording, f "
        "for the verdict's call, or the next of them. Drag to move; Ctrl and the wheel zoom.")
MOST_OF_STORY = 20
HOLDS = {Outcome.NO: "Each line is a claim of the auditor's, and holds in this order of the calls."}
# As in timeline.js, in a bar of the legend.
STRIPES = {"failed": [10], "refused": [2, 10], "undone": [2]}


def page(recordings: list[Judged], made: datetime) -> str:
    """The page of these recordings."""
    style = _source("style.css")
    scripts = [_source("timeline.js"), _source("page.js")]
    lines: dict[str, int] = {}
    told = [figures(judged, number, lines) for number, judged in enumerate(recordings, 1)]
    policy = (f"default-src 'none'; style-src {digest(style)}; script-src " + " ".join(map(digest, scripts))
              + "; base-uri 'none'; form-action 'none'")
    head = element(
        "head", element("meta", charset="utf-8"), element("meta", http_equiv="Content-Security-Policy", content=policy),
        element("meta", name="viewport", content="width=device-width, initial-scale=1"),
        element("title", _title(recordings)), element("style", Markup(style)))
    parts = [element("h1", _title(recordings)), _made(recordings, made), findings(recordings)]
    if len(recordings) > 1:
        parts.append(_overview(recordings))
    parts += [_recording(judged, number, shown(judged.folder) if len(recordings) > 1 else "Verdict")
              for number, judged in enumerate(recordings, 1)]
    parts.append(data({"lines": list(map(plain, lines)), "recordings": told}, "data"))
    parts += [element("script", Markup(script)) for script in scripts]
    body = element("body", element("main", together(parts)))
    return "<!DOCTYPE html>\n" + element("html", head, body, lang="en") + "\n"


def _source(name: str) -> str:
    return (SOURCES / name).read_text(encoding="utf-8")


def _title(recordings: list[Judged]) -> str:
    if len(recordings) == 1:
        return f"Audit of {shown(recordings[0].folder)}"
    return f"Audit of {len(recordings)} recordings"


def _made(recordings: list[Judged], made: datetime) -> Markup:
    versions = ", ".join(sorted({judged.account.version for judged in recordings}))
    when = made.strftime("%Y-%m-%dT%H:%M:%SZ")
    return element("p", f"Made {when} by kmip_report, from what {versions} printed.", of="soft")


def _overview(recordings: list[Judged]) -> Markup:
    """A line for each recording, and what they have in common."""
    rows: list[list[Part]] = [
        [element("a", shown(judged.folder), href=f"#recording-{number}"), in_short(judged.verdict),
         str(len(judged.calls)), f"{judged.seconds:.1f}"] for number, judged in enumerate(recordings, 1)]
    reasons: list[list[Part]] = [[reason, str(count)] for reason, count in by_verdict(recordings)]
    counts = [element("h2", "By verdict"), table(["Verdict", "Recordings"], reasons, 1)]
    return together([
        element("h2", "Verdicts"), table(["Recording", "Verdict", "Calls", "Seconds to judge"], rows, 2),
        *(counts if len(recordings) > len(reasons) else [])])


def _recording(judged: Judged, number: int, heading: str) -> Markup:
    outcome = judged.verdict.outcome.value.replace(" ", "-")
    parts = [
        element("h2", heading),
        element("div", element("p", in_words(judged.verdict)), element("pre", *_linked(judged, judged.verdict.lines)),
                of=f"verdict {outcome}")]
    parts += [element("p", judged.note)] if judged.note else []
    if judged.found:
        parts += [element("p", tally) for tally in in_words_of(judged.found)]
        parts.append(found_on_page.explained(judged, judged.found, number, _words()))
    refused = None if judged.found else judged.refused()
    if refused is not None:
        parts.append(element("p", "The verdict names ", _link(refused.number), f", {operations(refused)}, of client "
                             f"{refused.client}."))
    if judged.searched is not None:
        parts.append(element("p", of_others(judged.searched)))
    if judged.verdict.outcome is Outcome.NO or judged.verdict.explanation:
        parts.append(_explanation(judged))
    if judged.calls:
        parts.append(_timeline(judged))
        parts += [] if judged.found else [_story_of(judged, number)]
    if judged.found:
        parts += [found_on_page.others(judged, judged.found, number, _words()),
                  found_on_page.asides(judged.found, _words())]
    if judged.read.basis is not None:
        told = "".join(in_words_of(judged.found)) if judged.found else None
        parts += [basis_on_page.coverage(judged.read.basis, told), basis_on_page.conformance(judged.read.basis)]
    if judged.calls:
        parts += [element("h3", "Calls"), _counts(judged)]
    parts += [element("h3", "Evidence"), _evidence(judged), element("h3", "What a verdict means"),
              element("p", PREMISES)]
    return element("section", *parts, of="recording", id=f"recording-{number}")


def _linked(judged: Judged, lines: Sequence[str]) -> list[Part]:
    """Lines of the auditor's, in which each call and each turn of the recording leads to its bar."""
    text = "\n".join(lines)
    return [words if call is None else _link(call, words) for words, call in split(text, judged.mentions(text))]


def _explanation(judged: Judged) -> Markup:
    """What the auditor says of its verdict besides."""
    if not judged.verdict.explanation:
        return element("p", "This auditor does not explain it: it has no --explain.", of="soft")
    return together([
        element("h3", "Explanation"),
        element("p", HOLDS.get(judged.verdict.outcome, "Each line is a claim of the auditor's."), of="soft"),
        element("pre", *_linked(judged, judged.verdict.explanation), of="explanation")])


def _link(number: int, words: Optional[str] = None) -> Markup:
    """What leads to the bar of a call, by its name or by other words."""
    return element("button", words or f"call {number}", type="button", of="call", data_number=number)


def _words() -> found_on_page.Words:
    """How findings lead to bars."""
    return found_on_page.Words(_linked, _link)


def _timeline(judged: Judged) -> Markup:
    several = len(judged.faults()) > 1
    buttons = [element("button", NEXT if several and does == "fault" else words, type="button", data_does=does)
               for does, words in TOOLS if does != "fault" or judged.refused() is not None]
    if judged.turns:
        buttons.append(element("button", "Line of the order", type="button", data_does="order", aria_pressed="false"))
    buttons.append(element("button", "By object", type="button", data_does="objects", aria_pressed="false"))
    legend = [element("li", element("svg", *_sample(kind), viewBox="0 0 26 12", aria_hidden="true"), words)
              for kind, words in LEGEND]
    if judged.found and judged.found.why:
        sample = element("rect", of="bar aside", x=2, y=2, width=22, height=8)
        legend.append(element("li", element("svg", sample, viewBox="0 0 26 12", aria_hidden="true"), "set aside"))
    if len(judged.named()) > (0 if judged.found else 1):
        sample = element("rect", of="bar success story", x=2, y=2, width=22, height=8)
        legend.append(element("li", element("svg", sample, viewBox="0 0 26 12", aria_hidden="true"),
                              judged.naming()))
    order = ("Numbers in the bars are turns of the order; zoom in where a bar is too short for its own. "
             if judged.turns else "")
    lanes = element("div", element("svg", role="presentation"), of="lanes", tabindex=0, role="listbox",
                    aria_label="Calls, a row for each client or object; arrow keys go from call to call")
    details = element(
        "div", element("h3", ""), element("p", "", of="soft"),
        element("div", _message("Request"), _message("Answer"), of="both"),
        of="details", aria_live="polite", hidden="")
    return together([
        element("h3", "Timeline"),
        element("div", *buttons, element("span", "", of="soft said", role="status"), of="tools"),
        element("div", element("svg", of="overview", role="presentation"), lanes, of="timeline"),
        element("ul", *legend, of="legend"), element("p", order + KEYS, of="soft"), details])


def _message(name: str) -> Markup:
    """Where the chosen call's request or answer is shown."""
    return element("div", element("h4", name), element("pre", "", tabindex=0, role="region", aria_label=name))


def _sample(kind: str) -> list[Markup]:
    """A bar of this kind, for the legend."""
    stripes = [element("path", of="stripe", d=f"M0 {height}h26") for height in STRIPES.get(kind, [])]
    return [element("rect", of=kind, width=26, height=12), *stripes]


def _story_of(judged: Judged, number: int) -> Markup:
    told = story(judged.verdict.explanation)
    return _story(judged, number) if told is None else _told_story(judged, told, number)


def _told_story(judged: Judged, told: Story, number: int) -> Markup:
    """The story of the refused item's object, as the auditor tells it."""
    clients = {call.number: call.client for call in judged.calls}
    rows: list[list[Part]] = [
        [_link(event.call), clients.get(event.call, ""), event.operation + (", behind the refused item" if event.later
                                                                            else ""),
         event.date, event.item, event.turn] for event in told.events]
    left_out = f" The {told.left_out} before these are left out." if told.left_out else ""
    declared = "is declared" if told.is_declared else "is not declared"
    done = "What was done to it ahead of the refused item, the newest last:" if rows else (
        "Nothing was done to it ahead of the refused item.")
    parts = [element("h3", "The object's story", id=f"story-{number}"),
             element("p", f"The object {told.identifier} {declared}. {done}{left_out}", of="soft")]
    return together(parts + ([table(["Call", "Client", "Operation", "Time Stamp", "Item", "Turn"], rows, 2)] if rows
                             else []))


def _story(judged: Judged, number: int) -> Markup:
    """The newest calls that name an object of the refused call."""
    named = judged.story()
    if len(named) < 2:
        return Markup("")
    rows: list[list[Part]] = [
        [_link(call.number), call.client, operations(call), came_to(call),
         "" if call.stamp is None else moment(call.stamp), str(judged.turns.get(call.number, ""))]
        for call in named[-MOST_OF_STORY:]]
    left_out = len(named) - len(rows)
    told = f" The {left_out} before these are left out." if left_out else ""
    return together([
        element("h3", "The object's story", id=f"story-{number}"),
        element("p", "The calls up to the verdict's that name an object which it names: this is the report's reading "
                "of the transcript, and not the auditor's word." + told, of="soft"),
        table(["Call", "Client", "Operation", "Came to", "Time Stamp", "Turn"], rows, 1)])


def _counts(judged: Judged) -> Markup:
    """Calls by operation, client and outcome; from when to when."""
    tables = [table([cross.of, *cross.ends], [[name, *map(str, counts)] for name, counts in cross.rows],
                    len(cross.ends)) for cross in crosses(judged)]
    return together([element("p", period(judged)), element("div", *tables, of="counts")])


def _evidence(judged: Judged) -> Markup:
    rows: list[list[Part]] = [[shown(path), element("code", sha256), f"{length:,}"]
                              for path, length, sha256 in judged.files]
    read = "as the auditor judged it" if judged.has_the_auditors_digests() else "as the report read it"
    return together([
        table(["File", f"SHA-256, {read}", "Bytes"], rows, 1),
        *([element("p", of_seal(judged.verdict.seal))] if judged.verdict.seal else []),
        element("p", f"Judged in {judged.seconds:.1f} seconds. Anybody can repeat the verdict:"),
        element("pre", f"$ {judged.command}\n" + "\n".join(_printed(judged)))])


def _printed(judged: Judged) -> list[str]:
    """What the command prints; of findings the lines that stand in a section of their own are left out."""
    return [*judged.verdict.lines, *([".."] if judged.found else []),
            *([judged.verdict.seal.line] if judged.verdict.seal else [])]
