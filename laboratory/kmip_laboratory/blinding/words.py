"""The word `blind` on the command line, and what is done at it."""

from __future__ import annotations

import argparse
import os
import re
from typing import TYPE_CHECKING, Optional

from .. import fresh
from ..hiding import Sort
from ..outputs import see_apart
from ..origin import origin_files
from ..records import read_file
from ..transcript import read_unsealed
from ..trouble import Trouble
from . import replacing
from .leaks import Leaks
from .opening import Opened, Text, all_texts

if TYPE_CHECKING:
    from ..front import Words

HELP = "put others in the place of every key's bytes and of all texts, in the files of one recording"
# What each word of `--keep` keeps.
KEEPING = {"names": frozenset({Sort.NAME, Sort.CLIENT}), "identifiers": frozenset({Sort.IDENTIFIER}),
           "texts": frozenset({Sort.TEXT})}
# A longer text is not kept: to look for keys in it would take too long.
LONGEST_KEPT = 1024
# Up to the first of these a client's text says who it is, and behind it over which connection.
BEHIND_IDENTITY = re.compile("([ /])")
COUNTED = (Sort.NAME, Sort.IDENTIFIER, Sort.CLIENT, Sort.TEXT, Sort.SECRET)


def add(words: Words) -> None:
    """Adds the word."""
    word = words.add_parser("blind", help=HELP, usage="kmip_record blind IN.. OUT.. [--keep WHAT].. [--key FILE]",
                            description="See docs/BLINDING.md.")
    word.add_argument("files", nargs="+", metavar="FILE", help="files of one recording, and then a new name for each")
    word.add_argument("--keep", action="append", choices=list(KEEPING), default=[], metavar="WHAT",
                      help="leave names (of objects and clients), identifiers or texts for people as they are; may be "
                      "repeated")
    # What they once asked for is done unless it is to be kept.
    word.add_argument("--names", action="store_true", help=argparse.SUPPRESS)
    word.add_argument("--identifiers", action="store_true", help=argparse.SUPPRESS)
    word.add_argument("--key", metavar="FILE", help="keep the key of the replacing in this file, or take it from there")
    word.set_defaults(run=run, parser=word)


def run(words: argparse.Namespace) -> None:
    """Blinds the first half of the files into the second, and tells what was replaced."""
    half = len(words.files) // 2
    if len(words.files) % 2 or not half:
        words.parser.error("as many new names are needed as there are files")
    print(blind(words.files[:half], words.files[half:], _kept(words), words.key))


def blind(sources: list[str], targets: list[str], kept: frozenset[Sort] = frozenset(),
          key_file: Optional[str] = None) -> str:
    """Blinds files into new ones, all or none, and answers the line that tells what was replaced."""
    has_key = key_file is not None and os.path.exists(key_file)
    outs = targets + ([key_file] if key_file and not has_key else [])
    see_apart(outs, sources + ([key_file] if key_file and has_key else []))
    fresh.refuse_present(outs)
    key = _key(key_file) if key_file and has_key else replacing.fresh_key()
    bytes_of = replacing.Bytes(key)
    read = [read_unsealed(path) for path in sources]
    files = [Opened(path, data, bytes_of) for path, (data, _) in zip(sources, read)]
    chosen = _chosen(files, kept)
    found = replacing.texts(key, (part for text in chosen for part in _parts(text)[::2]))
    for opened in files:
        for text in chosen:
            if text in opened.texts:
                opened.put(text, _replaced(text, found))
    # The new key comes last among them, where there is one.
    made = [bytes(opened.data) for opened in files] + [key.hex().encode("ascii") + b"\n"]
    origins = [origin for path, target, (_, chain) in zip(sources, targets, read)
               for origin in origin_files(target, path, chain)]
    fresh.write_all([*zip(outs, made), *origins])
    for opened in files:
        opened.untranslated.tell()
    return _account(files, chosen)


def _key(path: str) -> bytes:
    """The key in this file."""
    told = read_file(path)
    try:
        key = bytes.fromhex(told.decode("ascii"))
    except ValueError:
        key = b""
    if len(key) != replacing.KEY_LENGTH:
        raise Trouble(f"{path} is no key for blinding: {2 * replacing.KEY_LENGTH} hexadecimal digits are; give a new "
                      "name, and a key is made")
    return key


def _kept(words: argparse.Namespace) -> frozenset[Sort]:
    """What is to stay."""
    for name, asked in (("names", words.names), ("identifiers", words.identifiers)):
        if asked and name in words.keep:
            words.parser.error(f"--{name} and --keep {name} can't be meant at once")
    return frozenset(sort for each in words.keep for sort in KEEPING[each])


def _chosen(files: list[Opened], kept: frozenset[Sort]) -> list[Text]:
    """The texts that are replaced; refused where one that is to stay shows a key."""
    leaks = Leaks(secret for opened in files for secret in opened.secrets) if kept else Leaks(())
    chosen: list[Text] = []
    for text, (path, place) in all_texts(files).items():
        if text.sort not in kept or len(text.value) > LONGEST_KEPT:
            chosen.append(text)
        elif leaks.shows(text.value):
            if text.sort is not Sort.TEXT:
                word = next(each for each, sorts in KEEPING.items() if text.sort in sorts)
                raise Trouble(f"{path} has bytes of a key in the {text.sort.value} at offset {place}: leave --keep "
                              f"{word} away, and nothing of it stays")
            chosen.append(text)
    return chosen


def _parts(text: Text) -> list[str]:
    """Of a client's text who it is, what stands behind that, and the connection; of any other text the whole."""
    return BEHIND_IDENTITY.split(text.value, maxsplit=1) if text.sort is Sort.CLIENT else [text.value]


def _replaced(text: Text, found: dict[str, str]) -> str:
    """What stands in the place of a text."""
    return "".join(part if place % 2 else found[part] for place, part in enumerate(_parts(text)))


def _account(files: list[Opened], chosen: list[Text]) -> str:
    counts = [f"{len(files)} files", f"{sum(opened.strings for opened in files)} strings of bytes",
              f"{sum(opened.numbers for opened in files)} numbers"]
    for sort in COUNTED:
        counts.append(f"{sum(text.sort is sort for text in chosen)} {sort.value}s")
    return ", ".join(counts) + " replaced"
