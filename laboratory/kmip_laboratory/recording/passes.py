"""The words that look at a transcript, or make a new one of it."""

from __future__ import annotations

import argparse
from typing import TYPE_CHECKING, Iterable

from ..outputs import see_apart
from ..plain import plain
from ..sifting import effects, forgetting
from ..sifting import run as sifting
from ..translation import run as translation
from ..trouble import Trouble, WrongWords
from . import cut, listing, resealing, selection, verifying
from .numbers import add_segment_words, read_head
from .segments import Segments

if TYPE_CHECKING:
    from ..front import Words


def add(words: Words) -> None:
    """Adds these words to those of the program."""
    _add_list(words.add_parser("list", help="tell what is in a transcript, call by call"))
    _add_translate(words.add_parser("translate", help="write a transcript of versions 1.0 to 2.0 as one of 2.1"))
    _add_cut(words.add_parser("cut", help="write a transcript as several behind each other"))
    _add_sift(words.add_parser("sift", help="leave out calls that had no effect on what is judged"))
    _add_verify(words.add_parser("verify", help="test that recordings of version 2 are sealed, closed and whole"))
    _add_seal(words.add_parser("seal", help="write a recording of version 1 as one of version 2, sealed as it is now"))


def _add_list(word: argparse.ArgumentParser) -> None:
    word.add_argument("transcript", metavar="TRANSCRIPT")
    word.add_argument("--call", type=int, metavar="N", help="both messages of this call, in place of a line for each")
    word.add_argument("--keys", action="store_true", help="show keys, passwords and all other values too, with --call")
    word.add_argument("--client", action="append", default=[], metavar="NAME",
                      help="the calls of this client alone; may be repeated, as the next two")
    word.add_argument("--object", action="append", default=[], metavar="ID", help="the calls that name this object")
    word.add_argument("--operation", type=selection.read_operation, action="append", default=[], metavar="NAME",
                      help="the calls that ask for this operation")
    word.set_defaults(run=_list)


def _add_cut(word: argparse.ArgumentParser) -> None:
    word.add_argument("transcript", metavar="IN")
    word.add_argument("out", metavar="OUT", help="a new folder for the files; with --calls a new file")
    add_segment_words(word)
    word.add_argument("--calls", type=selection.read_range, metavar="A-B", help="write the calls from A to B, by their "
                      "numbers, and nothing else")
    word.set_defaults(run=_cut)


def _add_translate(word: argparse.ArgumentParser) -> None:
    word.add_argument("transcript", metavar="IN")
    word.add_argument("out", metavar="OUT", help="a new file for the transcript")
    order = word.add_mutually_exclusive_group()
    order.add_argument("--ordered", action="store_true", help="take a batch of 1.0 to 1.2 that does not say whether "
                       "its order counts as ordered where it uses the placeholder, as servers do (the default)")
    order.add_argument("--unordered", action="store_true", help="take all of these as unordered, as those versions say")
    word.set_defaults(run=_translate)


def _add_sift(word: argparse.ArgumentParser) -> None:
    word.add_argument("transcript", metavar="IN")
    word.add_argument("out", metavar="OUT", nargs="?", help="a new file for the transcript; none with --list")
    word.add_argument("--list", action="store_true", help="count the calls by sort, operation, version and client")
    word.add_argument("--also", type=_doubtful, action="append", default=[], metavar="OPERATION",
                      help="leave this doubtful operation out too; may be repeated")
    word.add_argument("--forget", type=attribute_of, action="append", default=[], metavar="NAME",
                      help="take this judged attribute out of what Get Attributes tells; may be repeated")
    word.set_defaults(run=_sift)


def _add_verify(word: argparse.ArgumentParser) -> None:
    word.add_argument("transcripts", metavar="TRANSCRIPT", nargs="+", help="a recording; of several files all of them, "
                      "in their order")
    word.add_argument("--head", type=read_head, metavar="HEX", help="the head that the last of them has to have")
    word.add_argument("--heads", metavar="FILE", help="the heads that the recorder wrote down there have to stand in "
                      "these files")
    word.set_defaults(run=_verify)


def _add_seal(word: argparse.ArgumentParser) -> None:
    word.add_argument("transcript", metavar="IN")
    word.add_argument("out", metavar="OUT", help="a new file for the transcript")
    word.set_defaults(run=_seal)


def _doubtful(words: str) -> int:
    operation = effects.named(words)
    if operation is None:
        names = ", ".join(each.name.replace("_", " ").title() for each in effects.DOUBTFUL)
        raise argparse.ArgumentTypeError(f"{words!r} is no doubtful operation; those are {names}")
    return operation.value


def attribute_of(words: str) -> int:
    """The judged attribute with this name."""
    tag = forgetting.attribute_named(words)
    if tag is None:
        raise argparse.ArgumentTypeError(f"{words!r} is no judged attribute, as 'Initial Date' is one")
    return tag


def _cut(words: argparse.Namespace) -> None:
    see_apart([words.out], [words.transcript])
    segments = Segments(words.segment_calls, words.segment_seconds)
    if words.calls is None:
        print(cut.run(words.transcript, words.out, segments))
    elif segments.are_asked:
        raise WrongWords("--calls writes one file: leave --segment-calls and --segment-seconds away")
    else:
        print(cut.run_of(words.transcript, words.out, words.calls))


def _translate(words: argparse.Namespace) -> None:
    see_apart([words.out], [words.transcript])
    print(translation.run(words.transcript, words.out, not words.unordered))


def _sift(words: argparse.Namespace) -> None:
    if words.out is not None:
        see_apart([words.out], [words.transcript])
    if words.list:
        _print(sifting.table(words.transcript, frozenset(words.also)))
    elif words.out is None:
        raise Trouble("`sift` needs a new file for what is left, or --list: `kmip_record sift IN OUT`")
    else:
        print(sifting.run(words.transcript, words.out, frozenset(words.also), frozenset(words.forget)))


def _list(words: argparse.Namespace) -> None:
    if words.call is None:
        _print(listing.lines(words.transcript, selection.Selection(words.client, words.object, words.operation)))
    elif words.client or words.object or words.operation:
        raise WrongWords("--call names one call: leave --client, --object and --operation away")
    else:
        _print(listing.call_lines(words.transcript, words.call, words.keys))


def _verify(words: argparse.Namespace) -> None:
    _print(verifying.verify(words.transcripts, words.head, words.heads))


def _seal(words: argparse.Namespace) -> None:
    see_apart([words.out], [words.transcript])
    print(plain(resealing.seal(words.transcript, words.out)))


def _print(lines: Iterable[str]) -> None:
    """Prints lines. Names and texts from outside stand in them."""
    for line in lines:
        print(plain(line))
