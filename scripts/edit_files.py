"""Reads edits, as must-fail/ and wrong-bodies/ hold them, and finds the function whose body each of them changes.

An edit is a file of lines: 'file: src/..', and behind it pairs 'old: TEXT' and 'new: TEXT', where the old text stands
once in that file. A line 'fn: NAME' names the function that has to be refused, where the text stands in none, as that
of a constant.
"""
from __future__ import annotations

import re
from dataclasses import dataclass
from pathlib import Path
from typing import Optional

HEAD = re.compile(r"^( *)(?:pub(?:\([^)]*\))? )?(?:const )?(?:unsafe )?fn (\w+)")
CYCLE = re.compile(r"#\[cycle\((\w+)\)\]")
BLOCK = re.compile(r"^ *(?:pub(?:\([^)]*\))? )?(?:unsafe )?(impl|trait|mod)\b(.*)")


class BadEdit(Exception):
    """What keeps an edit from being tried."""


@dataclass(frozen=True)
class Change:
    """A text of a file, and what stands in its place."""

    path: str
    old: str
    new: str

    @property
    def added(self) -> str:
        """What it puts ahead of a comment, if that is all it does."""
        is_kept = self.old.startswith("///") and self.new.endswith(self.old)
        return self.new[: -len(self.old)].rstrip() if is_kept else ""


@dataclass(frozen=True)
class Function:
    """A function: rattle's name for it, or that name's end; the lines that it takes; its cycle of calls; and whether it
    has a body, and is of a module or of a type, and of no trait."""

    name: str
    first: int
    body: int
    last: int
    cycle: Optional[str]
    is_plain: bool


@dataclass(frozen=True)
class Edit:
    """One edit: its changes, the function to be refused, what is proved with it, whether all is in that body, whether a
    copy of the function may stand beside it, and where the edit is made in such a copy, that copy's number; and which of the function's answers
    by hand are left out, since they fit the right body alone, with the folder below proofs/ that has them."""

    name: str
    changes: tuple[Change, ...]
    own: str
    cycle: Optional[str]
    proof: str
    in_body: bool
    has_copies: bool
    copy: int = 0
    reopened: frozenset[str] = frozenset()
    folder: str = ""

    @property
    def function(self) -> str:
        """The name of the function that is to be refused."""
        return f"{self.own}{self.ending()}"

    def ending(self) -> str:
        """What the name of its copy has behind the function's."""
        return f"_copy_{self.copy}" if self.copy else ""


def read_lines(text: str) -> tuple[list[Change], Optional[str]]:
    """The changes that the lines of an edit tell, and the function that they name."""
    changes: list[Change] = []
    path, old, named = "", "", None
    for line in text.split("\n"):
        word, _, said = line.partition(": ")
        if word == "file":
            path = said.strip()
        elif word == "fn":
            named = said.strip()
        elif word == "old":
            old = said
        elif word == "new" or line == "new:":
            if not path or not old:
                raise BadEdit("a line 'new:' has no line 'file:' or 'old:' before it")
            changes.append(Change(path, old, said))
            old = ""
    if not changes:
        raise BadEdit("it has no pair of lines 'old:' and 'new:'")
    return changes, named


def put_in(texts: dict[str, str], changes: tuple[Change, ...]) -> dict[str, str]:
    """The texts of files, by their paths, with these changes; a text that is to be changed has to stand there once.
    What is put ahead of a comment stands on a line of its own."""
    made = dict(texts)
    for it in changes:
        found = made[it.path].count(it.old)
        if found != 1:
            raise BadEdit(f"an 'old:' text stands in {it.path} {found} times, and not once")
        made[it.path] = made[it.path].replace(it.old, f"{it.added}\n{it.old}" if it.added else it.new)
    return made


def read_edit(file: Path, crate: Path) -> Edit:
    """The edit that a file tells, of this crate."""
    changes, named = read_lines(file.read_text(encoding="utf-8"))
    texts, places = {}, []
    for it in changes:
        if it.path not in texts:
            try:
                texts[it.path] = (crate / it.path).read_text(encoding="utf-8")
            except OSError as why:
                raise BadEdit(f"{it.path} can't be read: {why.strerror}") from None
        before = texts[it.path]
        texts = put_in(texts, (it,))
        first = before.count("\n", 0, before.index(it.old))
        place = function_at(before, it.path, first, first + it.old.count("\n"))
        places.append((place, first, bool(it.added)))
    found = {place.name: place for place, _, _ in places if place}
    in_body = len(found) == 1 and all(is_inside(place, line) if place else adds for place, line, adds in places)
    if not named and len(found) != 1:
        raise BadEdit("it changes no body, or several: name the function that is to be refused by a line 'fn: NAME'")
    name = named or next(iter(found))
    cycle = found[name].cycle if name in found else None
    proof = f"+{cycle}" if cycle else f"{changes[0].path} {name}"
    is_alone = in_body and name in found and all(place for place, _, _ in places)
    has_copies = is_alone and found[name].is_plain and not cycle
    return Edit(file.stem, tuple(changes), name, cycle, proof, in_body, has_copies)


def is_inside(function: Function, line: int) -> bool:
    """Whether a line is of the function's body, and not of its head or its clauses."""
    return function.body < line or function.body == function.last


def function_at(text: str, path: str, first: int, last: int) -> Optional[Function]:
    """The function of a file that has the lines from first to last, or None."""
    around = [it for it in functions_of(text, path) if it.first <= first and last <= it.last]
    return around[-1] if around else None


def functions_of(text: str, path: str) -> list[Function]:
    """The functions of a file in rt fmt's layout: each ends at the first brace that stands where its line begins."""
    lines, found, owners = text.split("\n"), [], [("", -1, True)]
    for at, line in enumerate(lines):
        while owners[-1][0] and at > owners[-1][1]:
            owners.pop()
        block, head = BLOCK.match(line), HEAD.match(line)
        if block:
            owners.append((owner_of(block, lines, at), end_of(lines, at), is_of_type(block, lines, at)))
        if not head:
            continue
        indent, last = head[1], end_of(lines, at)
        body = next((n for n in range(at, last) if re.match(indent + r"(\S.*)?\{$", lines[n])), at)
        above = at
        while above and re.match(r" *(#\[|///)", lines[above - 1]):
            above -= 1
        cycle = CYCLE.search("\n".join(lines[above:at]))
        owner = owners[-1][0] or module_of(path)
        name, is_plain = f"{owner}::{head[2]}" if owner else head[2], owners[-1][2] and body < last
        found.append(Function(name, at, body, last, cycle[1] if cycle else None, is_plain))
    return found


def end_of(lines: list[str], at: int) -> int:
    """The last line of the function or block that begins at this line."""
    indent = re.match(" *", lines[at])
    close = (indent[0] if indent else "") + "}"
    if lines[at].rstrip().endswith(("}", ";")):
        return at
    return next((n for n in range(at, len(lines)) if lines[n] == close), at)


def module_of(path: str) -> str:
    """The module that a file of src/ is, by its path below the crate."""
    inner = re.sub(r"^src/|(/mod)?\.rt$", "", path)
    return "" if inner in ("lib", "main") else inner.replace("/", "::")


def is_of_type(block: re.Match[str], lines: list[str], at: int) -> bool:
    """Whether a block has a type's own functions: an impl of no trait."""
    ahead = next((n for n in range(at, len(lines)) if lines[n].rstrip().endswith("{")), at)
    return block[1] == "impl" and " for " not in " ".join(lines[at : ahead + 1])


def owner_of(block: re.Match[str], lines: list[str], at: int) -> str:
    """What rattle names a block's functions by: of an impl the type, and behind it the trait and the types it takes."""
    kind, rest = block[1], block[2]
    if kind != "impl":
        named = re.search(r"\w+", rest)
        return named[0] if named else ""
    for line in lines[at + 1 :]:
        if rest.rstrip().endswith("{"):
            break
        rest += " " + line
    own: set[str] = set()
    if rest.startswith("<"):
        end = closing(rest)
        own = set(re.findall(r"(?:^|, *)(\w+)", rest[1:end]))
        rest = rest[end + 1 :]
    rest = re.sub(r"'\w+|\bwhere\b.*|\{.*", "", rest)
    trait, _, of = rest.rpartition(" for ")
    name = re.search(r"[\w:]+", of)
    words = [name[0] if name else "", *[it for it in re.findall(r"[\w:]+", trait) if it not in own]]
    return "".join(it.rpartition("::")[2] for it in words)


def closing(text: str) -> int:
    """The place of the bracket that closes the one that the text begins with."""
    depth = 0
    for at, sign in enumerate(text):
        depth += (sign == "<") - (sign == ">" and text[at - 1] != "-")
        if not depth:
            return at
    return len(text) - 1
