"""The report for a terminal, in 80 columns, with a small timeline of the calls around the verdict's."""

from __future__ import annotations

import textwrap
from datetime import datetime
from typing import Iterator, Sequence

from ..calls import Call
from ..paths import shown
from ..plain import plain
from .basis_in_text import paragraphs
from .counts import Cross, by_verdict, crosses, period
from .found import in_words_of
from .judging import Judged, came_to, operations
from .reasons import PREMISES, in_short, in_words, of_others, of_seal

COLUMNS = 80
AROUND = 20
WIDTH = 24
NAME, CELL = 28, 10
SIGNS = {"success": "=", "failed": "x", "refused": "r", "undone": "u", "open": "~"}
# Of a line of the auditor's or a path that is longer than a line of the terminal's.
DEEPER = "    "


def told(recordings: list[Judged], made: datetime) -> str:
    """The report of these recordings, of many a line for each first, and at the end what a verdict means."""
    parts = [_overview(recordings)] if len(recordings) > 1 else []
    parts += [_recording(judged, made) for judged in recordings] + [_filled(PREMISES)]
    return "\n\n".join("\n".join(map(plain, lines)) for lines in parts)


def _overview(recordings: list[Judged]) -> list[str]:
    lines = ["Calls  Recording: verdict"]
    for judged in recordings:
        lines += _broken(f"{len(judged.calls):>5}  {shown(judged.folder)}: {in_short(judged.verdict)}")
    counts = [f"{count:>5}  {verdict}" for verdict, count in by_verdict(recordings)]
    return [*lines, "", "By verdict", *counts]


def _recording(judged: Judged, made: datetime) -> list[str]:
    """The report of one recording."""
    by_whom = f"Made {made:%Y-%m-%dT%H:%M:%SZ} by kmip_report, from what {judged.account.version} printed."
    lines = [*_broken(shown(judged.folder)), *_filled(by_whom), ""]
    for line in judged.printed:
        lines += _broken(line)
    lines += ["", *_filled(in_words(judged.verdict))]
    lines += _filled(of_others(judged.searched)) if judged.searched is not None else []
    lines += _filled(judged.note) if judged.note else []
    lines += [""]
    for path, length, sha256 in judged.files:
        lines += [*_broken(f"{shown(path)}, {length:,} bytes"), f"  SHA-256 {sha256}"]
    lines += _broken(of_seal(judged.verdict.seal)) if judged.verdict.seal else []
    lines += [f"Judged in {judged.seconds:.1f} seconds. Anybody can repeat the verdict:", *_command(judged.words)]
    if judged.calls:
        lines += ["", *_timeline(judged), "", *_counts(judged)]
    return lines + ["", *basis_lines(judged)] if judged.read.basis is not None else lines


def basis_lines(judged: Judged) -> list[str]:
    """What the verdict rests on, if that is known."""
    basis = judged.read.basis
    counted = "".join(in_words_of(judged.found)) if judged.found else ""
    return [line for told in paragraphs(basis, counted) for line in _broken(told)] if basis is not None else []


def _timeline(judged: Judged) -> list[str]:
    """A line for each of some calls, drawn from begin to end mark."""
    calls = judged.calls
    refused, faults, named = judged.refused(), set(judged.faults()), set(judged.named())
    middle = calls.index(refused) if refused else 0
    start = max(0, min(middle - AROUND // 2, len(calls) - AROUND))
    some = calls[start:start + AROUND]
    first, last = some[0].begin, max(call.end if call.end is not None else call.begin for call in some)
    lines = [f"Calls {start + 1} to {start + len(some)} of {len(calls)}, each from its begin mark to its end mark",
             "= success  x failed  r refused  u undone  ~ no answer"]
    lines += [f"> named by the verdict  * {judged.naming()}"] if refused else []
    aside = judged.found.why if judged.found else {}
    lines += ["- set aside", ""] if any(call.number in aside for call in some) else [""]
    for call in some:
        sign = ">" if call.number in faults else "*" if call.number in named else "-" if call.number in aside else " "
        turn = judged.turns.get(call.number)
        ahead = f"{sign}{call.number:>6} {plain(call.client)[:12]:<12} |{_bar(call, first, last)}|"
        lines.append((f"{ahead} {operations(call)[:20]:<20}" + (f" turn {turn}" if turn else "")).rstrip())
    return lines


def _bar(call: Call, first: int, last: int) -> str:
    scale = (WIDTH - 1) / max(1, last - first)
    begin = int((call.begin - first) * scale)
    end = WIDTH - 1 if call.end is None else min(WIDTH - 1, int((call.end - first) * scale))
    return " " * begin + SIGNS[came_to(call)] * (end - begin + 1) + " " * (WIDTH - 1 - end)


def _counts(judged: Judged) -> list[str]:
    """Calls by operation, client and outcome, and from when to when."""
    return _filled(period(judged)) + [line for cross in crosses(judged) for line in ("", *_cross(cross))]


def _cross(cross: Cross) -> Iterator[str]:
    yield _row(cross.of, cross.ends)
    for name, counts in cross.rows:
        yield _row(name, counts)


def _row(name: str, cells: Sequence[object]) -> str:
    return f"{plain(name)[:NAME]:<{NAME}}" + "".join(f"{cell!s:>{CELL}}" for cell in cells)


def _command(words: Sequence[str]) -> Iterator[str]:
    """The command, over as many lines as it needs; a shell takes them as one."""
    line = "  $"
    for word in map(plain, words):
        if len(line) + len(word) + 3 > COLUMNS:
            yield f"{line} \\"
            line = DEEPER[:-1]
        line = f"{line} {word}"
    yield line


def _filled(words: str) -> list[str]:
    return textwrap.wrap(plain(words), COLUMNS)


def _broken(line: str) -> list[str]:
    """A line as it is, or broken where it is too long for one of the terminal's."""
    return textwrap.wrap(plain(line), COLUMNS, subsequent_indent=DEEPER, break_on_hyphens=False,
                         replace_whitespace=False, expand_tabs=False) or [plain(line)]
