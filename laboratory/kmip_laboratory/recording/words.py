"""The words of the command line, and what is done at each."""

from __future__ import annotations

import argparse
import asyncio
import socket
import ssl
from typing import Optional

from .. import tls
from ..address import read_address
from ..auditing import words as auditing
from ..blinding import words as blinding
from ..files import OUT_HINT, see_that_free
from ..front import Parser, run_or_help
from ..outputs import see_apart
from ..sealing import NoteKind
from ..shrinking import words as shrinking
from ..trouble import Trouble, WrongWords, say
from ..versions import JUDGED
from . import capture, declaration, identities, inventory, order, passes, proxy, rules
from .admission import Admission
from .connection import Way
from .declaration import Unjudged
from .numbers import add_segment_words, read_count, read_milliseconds, read_seconds, read_version
from .heads import STANDARD_OUTPUT, Heads
from .recorded_files import Keeping
from .recording import Recording, tell_account
from .segments import Gate, Segments, paths_of
from .syncing import Sync

MINOR_HELP = "write messages of versions 1.0 to 2.0 as 2.1, as `translate` does"
FORCE_HELP = "write over the file where it is there already"
MINOR_NOTE = ("versions 1.0 to 2.0 are written as 2.1 in the transcript: what is judged then is not quite what was "
              "said")


def main(arguments: Optional[list[str]] = None) -> int:
    """Does what the words say, and answers the status."""
    return run_or_help(_parser(), arguments)


def _parser() -> Parser:
    parser = Parser(prog="kmip_record", description="Makes the files that kmip_audit judges: see docs/RECORDING.md.")
    words = parser.add_subparsers(required=True, metavar="WORD", parser_class=Parser)
    _add_proxy(words.add_parser("proxy", help="record what goes by between clients and a server"))
    _add_keylog(words.add_parser("keylog", help="make a transcript from a packet capture and a TLS key log"))
    _add_declare(words.add_parser("declare", help="declare which objects the server holds"))
    _add_order(words.add_parser("order", help="guess a witness from a transcript"))
    auditing.add(words)
    passes.add(words)
    blinding.add(words)
    shrinking.add(words)
    return parser


def _add_proxy(word: argparse.ArgumentParser) -> None:
    word.add_argument("--listen", type=read_address, required=True, metavar="HOST:PORT", help="where clients come to")
    word.add_argument("--server", type=read_address, required=True, metavar="HOST:PORT", help="where the server is")
    word.add_argument("--cert", required=True, metavar="FILE", help="certificate that clients are shown, in PEM")
    word.add_argument("--key", required=True, metavar="FILE", help="its key, in PEM")
    word.add_argument("--client-ca", required=True, metavar="FILE", help="authority of the clients' certificates")
    word.add_argument("--server-cert", metavar="FILE", help="certificate that the server is shown (else --cert)")
    word.add_argument("--server-key", metavar="FILE", help="its key (else --key)")
    word.add_argument("--server-ca", metavar="FILE", help="authority of the server's certificate (else --client-ca)")
    word.add_argument("--as", dest="identities", action="append", default=[], metavar="NAME=CERT,KEY", help="show the "
                      "client of this common name to the server with this certificate; or a folder of NAME.pem and "
                      "NAME.key; may be repeated")
    word.add_argument("--answer-within", type=read_seconds, default=10, metavar="SECONDS", help="how long the server's "
                      "answer is waited for when the client broke off (10)")
    word.add_argument("--idle", type=read_seconds, default=3600, metavar="SECONDS", help="end the connection of a "
                      "client that sends no request for so long, or does not take its answer (3600)")
    word.add_argument("--connections", type=read_count, default=100, metavar="N", help="how many connections a client "
                      "may have at once (100)")
    word.add_argument("--hold", type=read_milliseconds, default=1000, metavar="MS", help="how long new requests may be "
                      "held where a new file is due, until no call is under way; one that takes longer stays open in "
                      "its file (1000)")
    word.add_argument("--sync", type=Sync, choices=list(Sync), default=Sync.GROUP, metavar="WHEN", help="a message "
                      "goes on when its mark is on the disk: group (all that wait by one call of the disk, the default)"
                      ", always (each by one of its own), or none (not waited for)")
    word.add_argument("--resume", action="store_true", help="go on behind a recorder that was killed")
    word.add_argument("--heads", metavar="FILE", help="write the head of a sealed recording there each minute and at "
                      "its end (- for standard output)")
    word.add_argument("--note", action="append", default=[], metavar="WORDS", help="words of yours that a sealed "
                      "recording has at its begin; may be repeated")
    _add_transcript_words(word)
    word.set_defaults(run=_proxy)


def _add_keylog(word: argparse.ArgumentParser) -> None:
    word.add_argument("capture", metavar="CAPTURE", help="packets, as pcap or pcapng")
    word.add_argument("keylog", metavar="KEYLOG", help="TLS key log of the client or of the server")
    word.add_argument("--server", type=read_address, required=True, metavar="HOST:PORT",
                      help="the server, by the address that stands in the packets")
    _add_transcript_words(word)
    word.set_defaults(run=_keylog)


def _add_transcript_words(word: argparse.ArgumentParser) -> None:
    add_segment_words(word)
    word.add_argument("--minor", choices=["1"], help=MINOR_HELP)
    word.add_argument("--format", type=int, choices=[1, 2], help="2, which is sealed (the default; with --resume that "
                      "of what is there), or 1, which bears no seals")
    word.add_argument("--out", required=True, metavar="TRANSCRIPT", help="a new file for the transcript")


def _add_declare(word: argparse.ArgumentParser) -> None:
    source = word.add_mutually_exclusive_group(required=True)
    source.add_argument("--empty", action="store_true", help="the server holds nothing")
    source.add_argument("--server", type=read_address, metavar="HOST:PORT", help="ask this server what it holds")
    source.add_argument("--unknown", action="store_true", help="nothing is known of what the server holds")
    word.add_argument("--server-cert", metavar="FILE", help="certificate that the server is shown, in PEM")
    word.add_argument("--server-key", metavar="FILE", help="its key, in PEM")
    word.add_argument("--server-ca", metavar="FILE", help="authority of the server's certificate")
    word.add_argument("--set-aside", action="store_true", help="declare that what isn't judged is set aside, also what "
                      "the server tells of and no entry can say")
    word.add_argument("--as", dest="identities", action="append", default=[], metavar="NAME=CERT,KEY", help="ask as "
                      "this client too, and declare what any of them is told of; or a folder of NAME.pem and NAME.key; "
                      "may be repeated")
    word.add_argument("--bytes", action="store_true", help="ask for the bytes of keys too, and declare them")
    word.add_argument("--owner", type=_read_owner, action="append", default=[], metavar="IDENTIFIER=CLIENT",
                      help="whose an object is that the server tells of; may be repeated")
    word.add_argument("--rules", action="append", default=[], metavar="FILE", help="a file of rules, as "
                      "standard-2.1.rules is one; may be repeated")
    word.add_argument("--unique-names", action="store_true", help="declare that live objects never share a name")
    word.add_argument("--reason", type=rules.read_row, action="append", default=[], metavar="NUMBER=CAUSE",
                      help="a Result Reason that is given only for this cause: NotFound, WrongState or TakenName")
    word.add_argument("--allow", type=rules.read_allow_line, action="append", default=[],
                      metavar="OPERATION,STATE=WORD", help="the server's own word for an operation in a state: must, "
                      "may or not, as Destroy,Active=not")
    word.add_argument("--own", type=rules.read_own, action="append", default=[], metavar="ATTRIBUTE",
                      help="what the server itself may give an object at birth, as ActivationDate; may be repeated")
    word.add_argument("--tolerance", type=rules.read_tolerance, default=0, metavar="SECONDS", help="how far from the "
                      "Time Stamp of its answer a server may have done what it answers (0)")
    word.add_argument("--visibility", type=rules.read_visibility, default=rules.Visibility.everyone, metavar="WORD",
                      help="who sees whose objects: everyone, or the server may-hide or must-hide those of other "
                      "clients (everyone); with the two last what isn't judged is set aside")
    word.add_argument("--version", type=read_version, metavar="MAJOR.MINOR", default=JUDGED,
                      help="ask in this version, from 1.0 on (2.1)")
    word.add_argument("--out", required=True, metavar="DECLARATION", help="a new file for it")
    word.add_argument("--force", action="store_true", help=FORCE_HELP)
    word.set_defaults(run=_declare)


def _add_order(word: argparse.ArgumentParser) -> None:
    word.add_argument("transcript", metavar="TRANSCRIPT")
    word.add_argument("--out", required=True, metavar="WITNESS", help="a new file for it")
    word.add_argument("--force", action="store_true", help=FORCE_HELP)
    word.set_defaults(run=_order)


def _proxy(words: argparse.Namespace) -> None:
    _see_sealed_words(words)
    shown = identities.read_identities(words.identities)
    _see_recording_apart(words, words.cert, words.key, words.client_ca, words.server_cert, words.server_key,
                         words.server_ca, *(path for each in shown for path in (each.certificate, each.key)))
    toward_clients = tls.toward_clients(words.cert, words.key, words.client_ca)
    authority = words.server_ca or words.client_ca
    toward_server = tls.toward_server(words.server_cert or words.cert, words.server_key or words.key, authority)
    clients = identities.contexts(shown, authority)
    if words.minor:
        say(MINOR_NOTE)
    proxy.take_all_room()
    with proxy.listen(words.listen) as listener:
        for context in [toward_server, *clients.values()]:
            asyncio.run(proxy.reach(words.server, context))
        with Recording(words.out, bool(words.minor), _segments(words), keeping=_keeping(words)) as recording:
            for told in words.note:
                recording.note(NoteKind.WORDS, told)
            try:
                asyncio.run(_record(words, recording, toward_clients, toward_server, clients, listener))
            finally:
                tell_account(recording)


async def _record(words: argparse.Namespace, recording: Recording, toward_clients: ssl.SSLContext,
                  toward_server: ssl.SSLContext, clients: dict[str, ssl.SSLContext], listener: socket.socket) -> None:
    gate = Gate(recording.wants_quiet, recording.leave_behind, words.hold / 1000)
    recording.when_quiet = gate.look
    await proxy.run(Way(words.server, toward_clients, toward_server, recording, words.answer_within, words.idle,
                        Admission(words.connections), gate, clients), listener)


def _see_sealed_words(words: argparse.Namespace) -> None:
    """Refuses of a recording of version 1 what only a sealed one has."""
    if (words.heads or words.note) and words.format == 1:
        raise WrongWords("--heads and --note are those of sealed recordings: leave --format 1 away")
    if words.heads and words.heads != STANDARD_OUTPUT:
        see_apart([words.heads], paths_of(words.out, _segments(words)))


def _keeping(words: argparse.Namespace) -> Keeping:
    """How the recording is kept."""
    return Keeping(None if words.format is None else words.format == 2, words.sync, words.resume,
                   Heads(words.heads) if words.heads else None)


def _segments(words: argparse.Namespace) -> Segments:
    return Segments(words.segment_calls, words.segment_seconds)


def _see_recording_apart(words: argparse.Namespace, *inputs: Optional[str]) -> None:
    """Refuses a recording one file of which would be one of these."""
    for path in paths_of(words.out, _segments(words)):
        see_apart([path], inputs)


def _keylog(words: argparse.Namespace) -> None:
    _see_recording_apart(words, words.capture, words.keylog)
    if words.minor:
        say(MINOR_NOTE)
    capture.run(words.capture, words.keylog, words.server, lambda clock, without_end: Recording(
        words.out, bool(words.minor), _segments(words), clock, without_end, Keeping(words.format != 1)))


def _read_owner(words: str) -> tuple[str, str]:
    identifier, _, client = words.rpartition("=")
    if not identifier or not client:
        raise argparse.ArgumentTypeError(f"{words!r} is no IDENTIFIER=CLIENT, as 42=alice is one")
    return identifier, client


def _declare(words: argparse.Namespace) -> None:
    shown = identities.read_identities(words.identities)
    see_apart([words.out], [words.server_cert, words.server_key, words.server_ca, *words.rules,
                            *(path for each in shown for path in (each.certificate, each.key))])
    see_that_free(words.out, words.force, OUT_HINT)
    said = rules.together(words.rules, rules.Rules(words.unique_names, words.reason, words.allow, words.tolerance,
                                                   tuple(words.own), words.visibility))
    print(declaration.run(said, _held(words, shown), words.out, words.force))


def _held(words: argparse.Namespace, shown: list[identities.Identity]) -> declaration.Held:
    """What the server holds, by what it tells where it is asked."""
    if words.unknown:
        return declaration.Held([], unjudged=Unjudged.UNKNOWN)
    unjudged = Unjudged.SET_ASIDE if words.set_aside else Unjudged.REFUSED
    if not words.server:
        return declaration.Held([], unjudged=unjudged)
    if words.version != JUDGED:
        say(f"the server is asked in version {words.version}")
    by_client = {name: asyncio.run(inventory.held(words.server, context, words.version, words.bytes))
                 for name, context in _asking(words, shown).items()}
    entries, left = inventory.entries(by_client, words.bytes, dict(words.owner), words.set_aside)
    return declaration.Held(entries, left if words.set_aside else [], unjudged)


def _asking(words: argparse.Namespace, shown: list[identities.Identity]) -> dict[str, ssl.SSLContext]:
    """TLS toward the server for each as whom it is asked."""
    pair = (words.server_cert, words.server_key)
    if not words.server_ca or None in pair and (any(pair) or not shown):
        raise Trouble("to ask a server, give --server-ca, and --server-cert with --server-key, or --as")
    asking = identities.contexts(shown, words.server_ca)
    if all(pair):
        asking = {inventory.ASKED_PLAINLY: tls.toward_server(*pair, words.server_ca), **asking}
    return asking


def _order(words: argparse.Namespace) -> None:
    see_apart([words.out], [words.transcript])
    see_that_free(words.out, words.force, OUT_HINT)
    print(order.run(words.transcript, words.out, words.force))
