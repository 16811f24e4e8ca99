"""Checks copies of a crate in which edits stand, and reads whether the functions that they change are refused.

A proof knows nothing of a function that it calls but its contract. So edits of different bodies don't touch each
other's goals, and one check of the functions that they change judges them all. Nor does a copy of a function, under a
name of its own, to which a further edit of the function is made. What these call has only to be stated: in the copy its
proofs are left out, and that a function calls what isn't proved doesn't count.
"""
from __future__ import annotations

import math
import os
import re
import shutil
import subprocess
import tempfile
import threading
import time
from dataclasses import dataclass, field, replace
from pathlib import Path
from typing import Optional

from edit_files import BadEdit, Edit, Function, functions_of, module_of, put_in

PARTS = ("src", "specs", "proofs")
# What a function is told whose own goals are all proved.
PROVED = re.compile(r"proved|(no proof|not proved)[:;] (in `\S+`, of this cycle of calls: )?it (calls|passes|drops) ")
# What is told ahead of a function's own line of each of its goals that `search` left open.
OPEN = re.compile(
    r"^note: (?:\S+: it is not proved that [^\n]*?\("
    r"|what antt said of a `search` in the proof that rattle made: \S+: error: )`([^`]+)`",
    re.M,
)
# An answer by hand, from the line of its type to the blank line ahead of the next one.
ANSWER = re.compile(r"^pub (\S+) : goal\.\S+\n(?:(?!pub ).*\n?)*", re.M)
# Answers of nothing.
NO_OFFERS = "no-goal : no-type\nno-goal = no-answer\n"
TYPE = re.compile(r"^(?:pub(?:\([^)]*\))? )?(?:struct|enum) (\w+)", re.M)
ENDED = re.compile(r"^only=\d+ ", re.M)


def kit_folder() -> Path:
    """The kit's folder, in which the command rt is."""
    found = shutil.which("rt")
    if not found:
        raise SystemExit("wrong-bodies: rt is not on the path: add the kit's folder bin to it")
    return Path(os.path.realpath(found)).parent.parent


@dataclass(frozen=True)
class Verdict:
    """What was found of an edit: 'refused', 'let through', 'stale', 'not judged', 'not come to' or 'to be reopened', the words for it, and the
    answers by hand that don't fit its body and are to be reopened, with the folder of the proof that has them: their goals are left to the prover then."""

    kind: str
    words: str
    answers: frozenset[str] = frozenset()
    folder: str = ""


class OutOfTime(Exception):
    """A library could not be built until the checks were to end."""


@dataclass
class Crate:
    """A crate: its folder, what it uses of the repository and of the kit, where libraries are built, and what its checks have taken of a
    processor, in seconds, and the largest of memory, in bytes; and when its checks are to end, by the clock that runs on."""

    name: str
    folder: Path
    below: list[Crate]
    of_kit: list[str]
    libraries: dict[str, Path]
    seconds: float = 0.0
    memory: int = 0
    words: list[str] = field(default_factory=list)
    ends: float = math.inf

    def all_below(self) -> list[Crate]:
        """Every crate of the repository below it, the lowest first."""
        found: dict[str, Crate] = {}
        for crate in self.below:
            found.update({it.name: it for it in [*crate.all_below(), crate]})
        return list(found.values())

    def newest(self) -> float:
        """When its files changed last."""
        files = [it for part in PARTS for it in (self.folder / part).rglob("*") if it.is_file()]
        return max(it.stat().st_mtime for it in files)

    def rattle_words(self) -> list[str]:
        """The words of rattle's commands for this crate, but the command's own."""
        kit = kit_folder()
        words = ["--crate-name", self.name, "src/main.rt" if (self.folder / "src/main.rt").is_file() else "src/lib.rt"]
        for name in self.of_kit:
            words += ["--extern", f"{name}={kit}/rlibs/{name}.rlib"]
        words += ["-L", f"dependency={kit}/rlibs"]
        for crate in self.below:
            words += ["--extern", f"{crate.name}={self.libraries[crate.name]}"]
        for crate in self.all_below():
            words += ["-L", f"dependency={self.libraries[crate.name].parent}"]
        words += ["--antt-project", f"{kit}/rattle/logic/antt-project.json", "--logic-built", f"{kit}/logic_built"]
        return [*words, "--links", f"{self.name}="]

    def copy_to(self, room: Path) -> None:
        """Copies what a check reads of the crate into a folder."""
        for part in PARTS:
            if (self.folder / part).is_dir():
                shutil.copytree(self.folder / part, room / part)

    def run_rattle(self, room: Path, words: list[str]) -> str:
        """Runs a command of rattle on the copy in a folder, counts its processor's seconds and its memory, and returns its lines."""
        with tempfile.TemporaryFile() as out:
            command = [str(kit_folder() / "bin/rattle"), *words]
            ran = subprocess.Popen(command, cwd=room, stdin=subprocess.DEVNULL, stdout=out, stderr=subprocess.STDOUT)
            # a limit is at most a day away, or none at all
            killer = threading.Timer(min(self.ends - time.monotonic(), 86_400), ran.kill)
            killer.daemon = True
            killer.start()
            _, status, used = os.wait4(ran.pid, 0)
            killer.cancel()
            ran.returncode = status
            self.seconds += used.ru_utime + used.ru_stime
            self.memory = max(self.memory, used.ru_maxrss << 10)
            out.seek(0)
            return out.read().decode(errors="replace")

    def build_to(self, folder: Path, jobs: int) -> None:
        """Proves the library from nothing and builds it into a folder, for the crates above it. OutOfTime where the time ends first."""
        with tempfile.TemporaryDirectory(prefix="wrong-bodies-") as made:
            self.copy_to(Path(made))
            to = folder / f"{self.name}.rlib"
            words = ["build", *self.rattle_words(), "--statements", "--jobs", str(jobs), "-o", str(to)]
            said = self.run_rattle(Path(made), words)
        if not to.is_dir() and time.monotonic() >= self.ends:
            raise OutOfTime(self.name)
        if not to.is_dir():
            raise SystemExit(f"wrong-bodies: {self.name}: it is not proved, and has to be first: {first_error(said)}")
        self.libraries[self.name] = to

    def check(self, edits: list[Edit], kept: Path, whole: bool) -> str:
        """Checks the functions that these edits change, in a copy with all of them, over what earlier checks proved. The
        others are whole there, or only stated."""
        with tempfile.TemporaryDirectory(prefix="wrong-bodies-") as made:
            room = Path(made)
            self.copy_to(room)
            for path, text in edited(self, edits).items():
                (room / path).write_text(text, encoding="utf-8")
            copy_proofs(room, edits)
            reopen_answers(room, edits)
            if not whole:
                leave_out_others(room, edits)
                want_no_offers(room, edits)
            only = [word for it in edits for word in ("--only", it.function)]
            words = ["check", *self.rattle_words(), "--jobs", "1", "--incremental", str(kept), *only]
            return self.run_rattle(room, words)


def texts_in(room: Path) -> dict[str, str]:
    """The texts of a crate's files of src/, by their paths."""
    return {it.relative_to(room).as_posix(): it.read_text(encoding="utf-8") for it in (room / "src").rglob("*.rt")}


def full_names(texts: dict[str, str], path: str) -> list[tuple[Function, Optional[str]]]:
    """The functions of a file, each with its path below the crate, or None where its type stands in no file."""
    homes = {name: module_of(it) for it, text in texts.items() for name in TYPE.findall(text)}
    homes.update(dict.fromkeys(TYPE.findall(texts[path]), module_of(path)))
    found: list[tuple[Function, Optional[str]]] = []
    for it in functions_of(texts[path], path):
        owner = it.name.rpartition("::")[0]
        module = "" if owner == module_of(path) else homes.get(owner)
        found.append((it, f"{module}::{it.name}" if module else it.name if module == "" else None))
    return found


def leave_out_others(room: Path, edits: list[Edit]) -> None:
    """Leaves out the body and the proof of each function of a copy of a crate that none of these edits is to be judged
    by: it has only to be stated. What is of a trait or of a cycle of calls stays, and what has a text of an edit."""
    judged = [f"::{it.function}" for it in edits]
    texts = texts_in(room)
    for path, text in texts.items():
        lines = text.split("\n")
        changed = [change.new.strip() for it in edits for change in it.changes if change.path == path]
        for it, name in reversed(full_names(texts, path)):
            if name is None or it.cycle or not it.is_plain or any(f"::{name}".endswith(end) for end in judged):
                continue
            if any(new in line for line in lines[it.first : it.last + 1] for new in changed if new):
                continue
            lines[it.body + 1 : it.last] = ["unreachable!()"]
            prove_nothing(room / "proofs" / name.replace("::", "/"))
        (room / path).write_text("\n".join(lines), encoding="utf-8")


def want_no_offers(room: Path, edits: list[Edit]) -> None:
    """Puts beside each function that is judged and has no answers by hand one of nothing, at a name of nothing: where
    the answers are not in order, rattle makes none up for the goals that it leaves open, and prints none of these."""
    judged = [f"::{it.function}" for it in edits]
    texts = texts_in(room)
    for path in texts:
        for it, name in full_names(texts, path):
            if name is None or it.cycle or not it.is_plain or not any(f"::{name}".endswith(end) for end in judged):
                continue
            folder = room / "proofs" / name.replace("::", "/")
            if not (folder / "Answers.antt").exists() and not (folder / "Proof.antt").exists():
                folder.mkdir(parents=True, exist_ok=True)
                (folder / "Answers.antt").write_text(NO_OFFERS, encoding="utf-8")


def copy_proofs(room: Path, edits: list[Edit]) -> None:
    """Copies the files of the proof of each function that has copies in a copy of a crate, for each of these."""
    texts = texts_in(room)
    for edit in edits:
        if not edit.copy:
            continue
        path = edit.changes[0].path
        name = next(name for it, name in full_names(texts, path) if it.name == edit.own)
        if name is None or not (room / "proofs" / name.replace("::", "/")).is_dir():
            continue
        folder = room / "proofs" / name.replace("::", "/")
        own = re.compile(rf"(\bproofs\.{re.escape(name.replace('::', '.'))})(?![-\w])")
        copy = folder.with_name(folder.name + edit.ending())
        copy.mkdir()
        for file in folder.glob("*.antt"):
            text = own.sub(lambda it: it[1] + edit.ending(), file.read_text(encoding="utf-8"))
            (copy / file.name).write_text(text, encoding="utf-8")


def without_reopened(text: str, edit: Edit) -> str:
    """The text of a function's answers by hand, but for those that are to be reopened for an edit."""
    return ANSWER.sub(lambda it: "" if it[1] in edit.reopened else it[0], text)


def reopen_answers(room: Path, edits: list[Edit]) -> None:
    """Takes the answers by hand that are to be reopened out of the proofs of these edits' functions, in a copy of a crate."""
    for edit in edits:
        file = room / "proofs" / f"{edit.folder}{edit.ending()}" / "Answers.antt"
        if edit.reopened and file.is_file():
            left = without_reopened(file.read_text(encoding="utf-8"), edit)
            file.unlink()
            if ANSWER.search(left):
                file.write_text(left, encoding="utf-8")


def unfit_answers(crate: Crate, edit: Edit, folder: str, errors: list[tuple[str, str, str]]) -> Verdict:
    """What is found of an edit whose function has its proof in this folder, with answers by hand that don't fit, by their files, lines and
    errors: those are to be reopened. Of the rest of a proof by hand, as of an invariant, only the error can be told."""
    file = crate.folder / "proofs" / folder / "Answers.antt"
    text = without_reopened(file.read_text(encoding="utf-8"), edit) if file.is_file() else ""
    named = {it[1] for it in ANSWER.finditer(text) for name, line, _ in errors
             if name == "Answers.antt" and text.count("\n", 0, it.start()) < int(line) <= text.count("\n", 0, it.end())}
    others = [words for name, _, words in errors if name != "Answers.antt"]
    if named and not others:
        return Verdict("to be reopened", errors[0][2], edit.reopened | named, folder)
    return Verdict("stale", others[0] if others else errors[0][2])


def prove_nothing(folder: Path) -> None:
    """Puts a file that proves nothing in the place of the files of a function's proof."""
    folder.mkdir(parents=True, exist_ok=True)
    for own in ("Answers.antt", "Invariants.antt"):
        (folder / own).unlink(missing_ok=True)
    (folder / "Proof.antt").write_text("-- left out\n", encoding="utf-8")


def edited(crate: Crate, edits: list[Edit]) -> dict[str, str]:
    """The texts of the crate's files that these edits change, with all of them in, in their functions or in copies."""
    paths = {change.path for it in edits for change in it.changes}
    own = {path: (crate.folder / path).read_text(encoding="utf-8") for path in paths}
    texts = own
    for it in edits:
        texts = put_in(texts, it.changes) if not it.copy else texts
    for it in edits:
        path = it.changes[0].path
        if it.copy:
            texts[path] = put_copy(texts[path], put_in(own, it.changes)[path], it)
    return texts


def put_copy(text: str, alone: str, edit: Edit) -> str:
    """The text of a file, with a copy of an edit's function behind it, as the function stands in the text that has that
    edit alone."""
    path, name = edit.changes[0].path, edit.own.rpartition("::")[2]
    source, it = alone.split("\n"), function_named(alone, path, edit.own)
    first = it.first
    while first and re.search(r"[^\s;{}]$", source[first - 1]):
        first -= 1
    copy = source[first : it.last + 1]
    copy[it.first - first] = re.sub(rf"\bfn {name}\b", f"fn {name}{edit.ending()}", source[it.first])
    lines = text.split("\n")
    behind = function_named(text, path, edit.own).last + 1
    lines[behind:behind] = ["", *copy]
    return "\n".join(lines)


def function_named(text: str, path: str, name: str) -> Function:
    """The function of this name in a file's text."""
    return next(it for it in functions_of(text, path) if it.name == name)


def stand_together(crate: Crate, edits: list[Edit]) -> bool:
    """Whether one check can judge these: each is in one body, no two in the same, each text still stands once."""
    in_place = [it.proof for it in edits if not it.copy]
    if len({*in_place}) < len(in_place) or len(edits) > 1 and not all(it.in_body for it in edits):
        return False
    try:
        edited(crate, edits)
    except BadEdit:
        return False
    return True


def rounds_of(crate: Crate, edits: list[Edit]) -> list[list[Edit]]:
    """The edits, shared out over as few rounds as come by taking each into the first where it may stand: the first of a
    function changes it, and each other one a copy of it that stands beside it."""
    rounds: list[list[Edit]] = []
    for it in edits:
        for some in rounds:
            fitting = next((one for one in ways_beside(it, some) if stand_together(crate, [*some, one])), None)
            if fitting:
                some.append(fitting)
                break
        else:
            rounds.append([it])
    return rounds


def ways_beside(edit: Edit, others: list[Edit]) -> list[Edit]:
    """How an edit may stand beside these: in its function, or in a copy of it."""
    number = 1 + sum(it.proof == edit.proof for it in others)
    return [edit, replace(edit, copy=number)] if edit.has_copies else [edit]


def first_error(said: str) -> str:
    """The first line that tells what was wrong."""
    lines = said.split("\n")
    return next((it for it in lines if "error" in it or it.startswith("rattle:")), lines[0])[:200]


def has_ended(said: str) -> bool:
    """Whether a check came to its last line, which it does only for text that is well formed and typed."""
    return bool(ENDED.search(said.rstrip().rpartition("\n")[2]))


def unknown_names(edits: list[Edit], said: str) -> list[Edit]:
    """Those whose function rattle doesn't find, or finds several of."""
    return [it for it in edits if re.search(rf"^rattle: error: .*`{re.escape(it.function)}`", said, re.M)]


def verdict_of(crate: Crate, edit: Edit, said: str) -> Verdict:
    """What a check that came to its end says of the very function that the edit changes."""
    lines = list(re.finditer(r"^fn (\S+): (.*)", said, re.M))
    ends = [it for it in lines if f"::{it[1]}".endswith(f"::{edit.function}")]
    if len(ends) != 1:
        return Verdict("not judged", f"{len(ends)} functions are called {edit.function}: name one by a line 'fn: NAME'")
    path, told = ends[0][1], ends[0][2]
    ahead = f", with {len(edit.reopened)} answers by hand reopened" if edit.reopened else ""
    goals = re.search(r"`search` did not prove ((?:`[^`]+`(?:, )?)+)", told)
    if goals:
        return Verdict("refused", f"not proved{ahead}: {goals[1]}")
    before = max((it.end() for it in lines if it.end() < ends[0].start()), default=0)
    left_open = OPEN.findall(said, before, ends[0].start())
    if told.startswith("not proved") and left_open:
        return Verdict("refused", f"not proved{ahead}: " + ", ".join(f"`{it}`" for it in left_open))
    modules = path.split("::")[1:]
    own = "/".join([*modules[:-1], f"+{edit.cycle}" if edit.cycle else modules[-1]])
    errors = re.findall(rf"^(?:\./)?proofs/{re.escape(own)}/(\w+\.antt):(\d+):\d+: error: (.*)", said, re.M)
    if told.startswith("not proved") and errors:
        return unfit_answers(crate, edit, own[: len(own) - len(edit.ending())], errors)
    if PROVED.match(told):
        return Verdict("let through", f"{told}{ahead}")
    return Verdict("not judged", told)
