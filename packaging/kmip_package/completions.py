"""Completions for bash and zsh, made of what the programs say of themselves at --help."""

from __future__ import annotations

import os
import re
import subprocess
import sys
import tempfile
from pathlib import Path
from typing import NamedTuple, Sequence

from .trouble import Trouble

# Lines of help, by clap and by argparse: a word with what it does, and an option with its value.
WORD = re.compile(r"^ {2,4}([a-z]+)(?: {2,}|\n +)(\S.*)$", re.MULTILINE)
OPTION = re.compile(r"^ +(?:-\w, )?(--[a-z-]+)(?: ([<{A-Z]\S*))?(?: {2,}|\n {8,}|$)(.*)$", re.MULTILINE)
# Help stands in so many columns, so that no line of it is broken.
COLUMNS = "400"
FIRST_PART = re.compile(r"[^\[\]:;(\"`]*")


class Option(NamedTuple):
    """An option: what it is for, and the name of its value, if it has one, or the values that it may have."""

    name: str
    about: str
    value: str


class Said(NamedTuple):
    """What a program says of itself: the options at each word, and what each word does. The word '' stands for none."""

    options: dict[str, list[Option]]
    words: dict[str, str]


class Asked:
    """Programs that are asked what they say. What Python compiles meanwhile is kept for the next, beside the
    repository."""

    def __init__(self) -> None:
        self._compiled = tempfile.TemporaryDirectory(prefix="compiled-")

    def __enter__(self) -> Asked:
        return self

    def __exit__(self, *_: object) -> None:
        self._compiled.cleanup()

    def said(self, program: Path) -> Said:
        """What this program says of itself."""
        whole = self.printed(program, "--help")
        words = {name: _short(about) for name, about in WORD.findall(whole) if name != "help"}
        options = {word: _options(self.printed(program, word, "--help")) for word in words}
        return Said({"": _options(whole), **options}, words)

    def printed(self, program: Path, *words: str) -> str:
        """What the program prints at these words."""
        of_python = [sys.executable, "-X", f"pycache_prefix={self._compiled.name}"]
        command = [*(of_python if program.read_bytes()[:2] == b"#!" else []), str(program), *words]
        done = subprocess.run(command, capture_output=True, text=True, check=False, stdin=subprocess.DEVNULL,
                              env={**os.environ, "COLUMNS": COLUMNS})
        if done.returncode != 0:
            raise Trouble(f"{program} {' '.join(words)} ended with status {done.returncode}")
        return done.stdout


def _options(told: str) -> list[Option]:
    return [Option(name, _short(about), value.strip("<>")) for name, value, about in OPTION.findall(told)]


def _short(about: str) -> str:
    """The first part of what is said, which no shell takes for anything but a text."""
    found = FIRST_PART.match(about)
    return found[0].strip(" ,.") if found else ""


def _values(option: Option, known: dict[str, Sequence[str]]) -> Sequence[str]:
    """The values that an option may have, where there are few."""
    return option.value.strip("{}").split(",") if option.value.startswith("{") else known.get(option.name, ())


def bash(name: str, said: Said, known: dict[str, Sequence[str]], usual: str) -> str:
    """A function for bash. `usual` is the word that is meant where none is given."""
    rows = [f"    {word}) options=\"{' '.join(each.name for each in options)}\" ;;"
            for word, options in said.options.items() if word]
    usual_options = said.options[usual] if usual else said.options[""]
    values = {each.name: _values(each, known) for options in said.options.values() for each in options}
    of_values = [f"    {option}) mapfile -t COMPREPLY < <(compgen -W \"{' '.join(found)}\" -- \"$now\"); return ;;"
                 for option, found in values.items() if found]
    first = " ".join([*said.words, *(each.name for each in said.options[""] if each not in usual_options)])
    return "\n".join([
        f"# Completions of {name} for bash: words, options, values of which there are few, and else files.",
        f"_{name}() {{",
        "    local now=${COMP_WORDS[COMP_CWORD]} before=${COMP_WORDS[COMP_CWORD - 1]} options",
        "    COMPREPLY=()",
        "    case $before in", *of_values, "    esac",
        "    case ${COMP_WORDS[1]} in", *rows,
        f"    *) options=\"{' '.join(each.name for each in usual_options)}\" ;;", "    esac",
        *([f"    [ \"$COMP_CWORD\" -ne 1 ] || options=\"{first} $options\""] if said.words else []),
        "    if [[ $now == -* || ( $COMP_CWORD -eq 1 && -n $options ) ]]; then" if said.words else
        "    if [[ $now == -* ]]; then",
        "        mapfile -t COMPREPLY < <(compgen -W \"$options\" -- \"$now\")",
        "    fi", "}", f"complete -o bashdefault -o default -F _{name} {name}", ""])


def zsh(name: str, said: Said, known: dict[str, Sequence[str]], usual: str) -> str:
    """The same for zsh."""
    lines = [f"#compdef {name}", f"# Completions of {name} for zsh."]
    if said.words:
        named = [f"    {_quoted(f'{word}:{about}')}" for word, about in said.words.items()]
        lines += ["local -a named=(", *named, ")",
                  "if (( CURRENT == 2 )) && [[ $words[2] != -* ]]; then", "    _describe -t commands word named",
                  "    return", "fi"]
    lines += ["case $words[2] in"]
    for word, options in said.options.items():
        if word:
            lines += [f"{word}) _arguments -s \\", *(f"    {_zsh(each, known)} \\" for each in options),
                      "    '*:file:_files' ;;"]
    last = said.options[usual] if usual else said.options[""]
    lines += ["*) _arguments -s \\", *(f"    {_zsh(each, known)} \\" for each in last), "    '*:file:_files' ;;"]
    return "\n".join([*lines, "esac", ""])


def _zsh(option: Option, known: dict[str, Sequence[str]]) -> str:
    """What zsh is told of an option, which may be repeated."""
    about = f"[{option.about}]" if option.about else ""
    if not option.value:
        return _quoted(f"*{option.name}{about}")
    values = _values(option, known)
    return _quoted(f"*{option.name}{about}:value:" + (f"({' '.join(values)})" if values else "_files"))


def _quoted(text: str) -> str:
    """The text as a shell reads it, between quotes."""
    return "'" + text.replace("'", "'\\''") + "'"
