"""Reads the definitions of the crates' folders specs/, and finds those that a word rests on, from one to the next through imports."""
from __future__ import annotations

import re
from dataclasses import dataclass, field
from pathlib import Path
from typing import Dict, Iterator, List, Optional, Set, Tuple

# A word: its module, as Rattle.kmipa_check.specs.Audits, and its name.
Word = Tuple[str, str]
HEAD = re.compile(r"^(?:  )?(abbrev pub |abbrev |unfoldable pub |pub record |record |pub data |data |pub )(\S+)")
USE = re.compile(r"^(?:pub )?use ([\w.\-]+?)(?:\.\{(.*)\})?(?: as (\w+))?$")
TOKEN = re.compile(r"[^\s(){}\[\],;]+")


@dataclass
class Module:
    """A file of specs/: the lines of each of its definitions, without comments; the words that it imports, by the names that it gives them; and
    the modules that it imports whole."""

    file: Path
    lines: Dict[str, List[str]] = field(default_factory=dict)
    words: Dict[str, Word] = field(default_factory=dict)
    modules: Dict[str, str] = field(default_factory=dict)


def read_module(file: Path) -> Module:
    """The definitions and imports of a file."""
    made, current, has_fields = Module(file), "", False
    for line in file.read_text(encoding="utf-8").split("\n"):
        use = USE.match(line.strip()) if not line.startswith("  ") else None
        head = HEAD.match(line) if not line.lstrip().startswith("--") else None
        if use:
            read_use(made, use)
        elif head and not head[2].startswith(("mod", "mutual")) and not (has_fields and head[1] == "pub " and line.startswith("  ")):
            current, has_fields = head[2], "record" in head[1]
            made.lines.setdefault(current, []).append(line)
        elif line.strip() and not line.lstrip().startswith("--"):
            equation = re.match(r"^ {0,2}(\S+)", line)
            if equation and equation[1] in made.lines:
                current = equation[1]
            if current:
                made.lines[current].append(line)
    return made


def read_use(made: Module, use: re.Match[str]) -> None:
    """Notes what a line of imports brings."""
    path, names, alias = use[1], use[2], use[3]
    if names is None:
        made.modules[alias or path.rpartition(".")[2]] = path
        return
    for name in names.split(","):
        own, _, given = name.strip().partition(" as ")
        made.words[given.strip() or own] = (path, own)


class Definitions:
    """All definitions of a repository's crates."""

    def __init__(self, root: Path) -> None:
        self.root = root
        self.modules: Dict[str, Module] = {}
        for file in sorted(root.glob("crates/*/specs/**/*.antt")):
            crate, inner = file.relative_to(root / "crates").parts[0], file.relative_to(root / "crates").parts[2:]
            self.modules[".".join(["Rattle", crate, "specs", *inner])[: -len(".antt")]] = read_module(file)

    def home(self, word: Word, depth: int = 0) -> Optional[Word]:
        """Where a word is defined; None where that is no file of specs/."""
        made = self.modules.get(word[0])
        if made is None or word[1] in made.lines:
            return word if made is not None else None
        return self.home(made.words[word[1]], depth + 1) if word[1] in made.words and depth < 9 else None

    def named(self, word: Word) -> Iterator[Word]:
        """The words that stand in a definition."""
        made = self.modules[word[0]]
        for token in TOKEN.findall("\n".join(made.lines[word[1]])):
            front, _, rest = token.partition(".")
            if token in made.lines:
                yield word[0], token
            elif front in made.words:
                yield made.words[front]
            elif rest and front in made.modules:
                yield made.modules[front], rest

    def below(self, words: List[Word]) -> Set[Word]:
        """These words, and all definitions that they rest on."""
        found: Set[Word] = set()
        left = [it for it in map(self.home, words) if it]
        while left:
            word = left.pop()
            if word not in found:
                found.add(word)
                left += [it for it in map(self.home, self.named(word)) if it]
        return found

    def count(self, word: Word) -> int:
        """The lines of a definition, without comments."""
        return len(self.modules[word[0]].lines[word[1]])
