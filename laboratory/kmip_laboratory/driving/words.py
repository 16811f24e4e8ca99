"""The words of kmip_drive's command line, and what is done at each."""

from __future__ import annotations

import argparse
import asyncio
from dataclasses import replace
from pathlib import Path
from typing import Optional

from .. import tls
from ..address import Address, read_address
from ..auditor import Auditor
from ..front import DONE, TROUBLE, Parser, run_or_help
from ..outputs import see_apart
from ..recording import discovery, rules
from ..recording.passes import attribute_of
from ..trouble import Trouble, say
from . import audit, calibrate, certificates, drive, mixes, simulate, wire
from .cuts import HELP, Cut, Cuts
from .faults import FAULTS, description
from .record import recording

# At `audit` 1 says that no order explains the recording.
TROUBLE_OF_AUDIT = 3
USUAL_CALLS = 1000
USUAL_VERSION = "2.1"
OPTIONS = {Cut.BEFORE_SENDING: "--cut-before-sending", Cut.IN_REQUEST: "--cut-in-request", Cut.END: "--end",
           Cut.AFTER_SENDING: "--cut-after-sending", Cut.IN_ANSWER: "--cut-in-answer", Cut.SLOW: "--slow"}


def main(arguments: Optional[list[str]] = None) -> int:
    """Does what the words say, and answers the status. Options without a word are those of `drive`."""
    return run_or_help(_parser(), arguments, usual="drive")


def _parser() -> Parser:
    parser = Parser(prog="kmip_drive", description="Makes a key server work hard, so that its faults show: see "
                    "docs/DRIVING.md. Options without a word are those of drive.")
    parser.set_defaults(unread=TROUBLE)
    words = parser.add_subparsers(required=True, metavar="WORD", parser_class=Parser)
    _add_drive(words.add_parser("drive", help="let clients make calls to a server at once"))
    _add_simulate(words.add_parser("simulate", help="be a key server, with faults that are asked for"))
    _add_calibrate(words.add_parser("calibrate", help="convict the simulated server of each of its faults"))
    _add_audit(words.add_parser("audit", help="declare, drive, record, search, explain and report in one go"))
    faults = words.add_parser("faults", help="list the faults of the simulated server")
    faults.set_defaults(run=_faults)
    made = words.add_parser("certificates", help="make certificates to try things with")
    made.add_argument("folder", type=Path, metavar="FOLDER", help="a new folder for them")
    made.set_defaults(run=_certificates)
    return parser


def _share(words: str) -> float:
    try:
        share = float(words)
    except ValueError:
        share = -1.0
    if not 0 <= share <= 1:
        raise argparse.ArgumentTypeError(f"{words!r} is no share from 0 to 1")
    return share


def _count(words: str) -> int:
    if not words.isascii() or not words.isdigit() or not 0 < int(words) <= 100_000_000:
        raise argparse.ArgumentTypeError(f"{words!r} is no whole number from 1 on")
    return int(words)


def _seconds(words: str) -> float:
    try:
        seconds = float(words)
    except ValueError:
        seconds = 0.0
    if not 0 < seconds < 1_000_000:
        raise argparse.ArgumentTypeError(f"{words!r} is no number above 0")
    return seconds


def _pause(words: str) -> float:
    return 0.0 if words == "0" else _seconds(words)


def add_load(word: argparse.ArgumentParser) -> None:
    """The options that say what is driven."""
    add = word.add_argument
    add("--server", type=read_address, required=True, metavar="HOST:PORT", help="where the server, or a proxy, is")
    add("--cert", required=True, metavar="FILE", help="certificate of the clients, in PEM")
    add("--key", required=True, metavar="FILE", help="its key, in PEM")
    add("--ca", required=True, metavar="FILE", help="authority of the server's certificate")
    add("--kmip", choices=wire.VERSIONS, help="the version that is spoken (2.1; at audit the newest that the server "
        "has)")
    add("--clients", type=_count, default=4, metavar="N", help="clients at once (4)")
    add("--calls", type=_count, metavar="N", help=f"calls of all clients together ({USUAL_CALLS})")
    add("--seconds", type=_seconds, metavar="S", help="how long, in place of --calls")
    add("--seed", type=int, default=1, metavar="N", help="the same seed gives the same plan (1)")
    add("--mix", default="everything", metavar="MIX", help=f"one of {', '.join(mixes.there())}, or a file (everything)")
    add("--patience", type=_seconds, default=30, metavar="S", help="seconds that a client waits for an answer (30)")
    add("--pause", type=_pause, default=0.0, metavar="S", help="mean seconds between the calls of a client (0)")
    for cut in Cut:
        add(OPTIONS[cut], type=_share, default=0.0, metavar="P", dest=cut.name, help=HELP[cut])


def _add_format(word: argparse.ArgumentParser) -> None:
    word.add_argument("--format", type=int, choices=[1, 2], default=2, help="2, which is sealed (the default), or 1, "
                      "which bears no seals")


def job_of(words: argparse.Namespace) -> drive.Job:
    """What the options say is to be driven."""
    if words.calls is not None and words.seconds is not None:
        raise Trouble("--calls and --seconds exclude each other: give one of them")
    shares = {cut: getattr(words, cut.name) for cut in Cut}
    if sum(shares.values()) > 1:
        raise Trouble("the shares of calls that something befalls are above 1 together: give smaller ones")
    calls = USUAL_CALLS if words.calls is None and words.seconds is None else words.calls
    context = tls.toward_server(words.cert, words.key, words.ca)
    version = wire.read_version(words.kmip or USUAL_VERSION)
    return drive.Job(words.server, context, mixes.find(words.mix), version, words.clients, calls, words.seconds,
                     words.seed, words.patience, words.pause, Cuts(shares))


def _see_folder_apart(words: argparse.Namespace, *more: str) -> None:
    """Refuses a folder for the recording that is one of the files which are read."""
    if words.out is not None:
        see_apart([str(words.out)], [words.cert, words.key, words.ca, str(mixes.path_of(words.mix)), *more])


def _add_drive(word: argparse.ArgumentParser) -> None:
    add_load(word)
    word.add_argument("--out", type=Path, metavar="FOLDER", help="record into a new folder, as transcript.ttlv")
    _add_format(word)
    word.set_defaults(run=_drive)


def _drive(words: argparse.Namespace) -> int:
    _see_folder_apart(words)
    job = job_of(words)
    if words.out is None:
        done = drive.drive(job, progress=True)
    else:
        with recording(words.out, job.version, words.format == 2) as transcript:
            done = drive.drive(job, transcript, progress=True)
        print(transcript.summary())
    print("\n".join(done.lines()), flush=True)
    return DONE


def _add_simulate(word: argparse.ArgumentParser) -> None:
    add = word.add_argument
    add("--listen", type=read_address, default=Address("127.0.0.1", 5696), metavar="HOST:PORT",
        help="where clients come to (127.0.0.1:5696)")
    add("--cert", required=True, metavar="FILE", help="certificate of the server, in PEM")
    add("--key", required=True, metavar="FILE", help="its key, in PEM")
    add("--ca", required=True, metavar="FILE", help="authority of the clients' certificates")
    add("--fault", action="append", default=[], metavar="NAME", help="a fault that it has; may be repeated")
    add("--rate", type=_share, metavar="P", help="how often a fault comes about, where it could (its own rate)")
    add("--seed", type=int, default=1, metavar="N", help="of the keys that it makes, and of its faults (1)")
    add("--unique-names", action="store_true", help="live objects never share a name")
    add("--pace", type=_seconds, default=1, metavar="N", help="seconds of its clock that go by in one second (1)")
    word.set_defaults(run=_simulate)


def _simulate(words: argparse.Namespace) -> int:
    engine = simulate.make(simulate.find(words.fault), words.pace, words.seed, words.rate, words.unique_names)
    context = tls.toward_clients(words.cert, words.key, words.ca)
    with simulate.listen(engine, context, words.listen) as server:
        faults = ", ".join(words.fault) or "no fault"
        say(f"a key server with {faults} is at {Address(words.listen.host, server.port)}; Ctrl-C ends")
        simulate.wait()
    print(f"{engine.struck} times a fault came about")
    return DONE


def _add_auditor(word: argparse.ArgumentParser, budget: int) -> None:
    word.add_argument("--auditor", metavar="FILE", help="the program kmip_audit (KMIP_AUDIT, or that on the path)")
    word.add_argument("--budget", type=_count, default=budget, metavar="N", help=f"steps of each search ({budget})")


def _add_calibrate(word: argparse.ArgumentParser) -> None:
    usual = calibrate.Scale()
    add = word.add_argument
    add("--fault", action="append", metavar="NAME", help="a fault; may be repeated (all of them, and none)")
    add("--seed", type=int, default=1, metavar="N", help="of the first recording of each fault (1)")
    add("--clients", type=_count, default=usual.clients, metavar="N", help=f"clients at once ({usual.clients})")
    add("--calls", type=_count, default=usual.calls, metavar="N", help=f"calls of a recording ({usual.calls})")
    add("--most", type=_count, default=usual.most_calls, metavar="N",
        help=f"calls for a fault at most ({usual.most_calls})")
    add("--seconds", type=_seconds, default=usual.seconds, metavar="S",
        help=f"seconds for a fault, after which no recording is begun ({usual.seconds:.0f})")
    _add_auditor(word, usual.budget)
    word.set_defaults(run=_calibrate)


def _calibrate(words: argparse.Namespace) -> int:
    names = list(FAULTS) if words.fault is None else words.fault
    simulate.find(names)
    scale = calibrate.Scale(words.clients, words.calls, words.most, words.seconds, budget=words.budget)
    without = mixes.there() if words.fault is None else []
    right = True
    print("| Fault | Mix | Seed | Calls until convicted | Reason | Seconds |\n|---|---|---|---|---|---|")
    for row in calibrate.run(names, without, words.seed, Auditor(words.auditor), scale):
        print(row.line(), flush=True)
        right = right and row.right
    return DONE if right else TROUBLE


def _add_audit(word: argparse.ArgumentParser) -> None:
    add_load(word)
    word.add_argument("--out", type=Path, required=True, metavar="FOLDER", help="a new folder for all files")
    word.add_argument("--empty", action="store_true", help="the server holds nothing, and need not be asked")
    word.add_argument("--unique-names", action="store_true", help="declare that live objects never share a name")
    word.add_argument("--reason", type=rules.read_row, action="append", default=[], metavar="NUMBER=CAUSE",
                      help="a Result Reason that is given only for NotFound, WrongState or TakenName")
    word.add_argument("--forget", type=attribute_of, action="append", default=[], metavar="NAME",
                      help="take this judged attribute out of what Get Attributes tells; may be repeated")
    _add_format(word)
    _add_auditor(word, 1_000_000)
    word.set_defaults(run=_audit, trouble=TROUBLE_OF_AUDIT, unread=TROUBLE_OF_AUDIT)


def _audit(words: argparse.Namespace) -> int:
    auditor = Auditor(words.auditor)
    _see_folder_apart(words, auditor.file)
    job = job_of(words)
    if words.kmip is None:
        job = replace(job, version=asyncio.run(discovery.newest(job.server, job.context)))
        say(f"the server is spoken to in version {job.version[0]}.{job.version[1]}")
    wanted = audit.Wanted(words.out, words.format == 2, words.empty, words.unique_names, words.reason,
                          frozenset(words.forget), words.budget)
    return audit.run(job, wanted, auditor)


def _faults(_: argparse.Namespace) -> int:
    for name, fault in FAULTS.items():
        unseen = f" Can't be seen: {fault.unseen}." if fault.unseen else ""
        print(f"{name}: {description(fault)}{unseen}")
    return DONE


def _certificates(words: argparse.Namespace) -> int:
    certificates.make(words.folder)
    print(f"authority.pem, server.pem, server.key, client.pem and client.key are in {words.folder}")
    return DONE
