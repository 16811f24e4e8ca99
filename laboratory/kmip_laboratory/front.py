"""The front of each program: its words are read, what they say is done, and trouble is told with a status."""

from __future__ import annotations

import argparse
import sys
from typing import TYPE_CHECKING, NoReturn, Optional

from .telling import TELLER, hold_standard_files
from .trouble import Trouble, WrongWords, hush, say

DONE, TROUBLE, USAGE = 0, 1, 64
if TYPE_CHECKING:
    # Where the words of a program are added.
    Words = argparse._SubParsersAction["Parser"]  # pylint: disable=protected-access


class Parser(argparse.ArgumentParser):
    """A parser whose status for wrong words is that of the auditor."""

    def error(self, message: str) -> NoReturn:
        self.print_usage(sys.stderr)
        self.exit(USAGE, f"{self.prog}: {message}\n")


def run(parser: Parser, arguments: Optional[list[str]] = None) -> int:
    """Does what the words say, those of the command line where none are given, and answers the status. The parser has
    set `run` to what is done at them, which answers a status or nothing, and may have set `trouble` to the status of
    trouble. Where nobody reads what is printed any more, that is no trouble, unless `unread` has a status for it."""
    hold_standard_files()
    TELLER.name = parser.prog
    words = parser.parse_args(arguments)
    trouble: int = getattr(words, "trouble", TROUBLE)
    try:
        status: int = words.run(words) or DONE
        sys.stdout.flush()
        return status
    except WrongWords as wrong:
        say(str(wrong))
        return USAGE
    except Trouble as told:
        say(str(told))
    except KeyboardInterrupt:
        say("ended by Ctrl-C; nothing more was written")
    except BrokenPipeError:
        hush()
        return getattr(words, "unread", DONE)
    return trouble


def run_or_help(parser: Parser, arguments: Optional[list[str]] = None, usual: str = "") -> int:
    """The same, with the help where there are no words; options ahead of all words are those of the usual one."""
    given = sys.argv[1:] if arguments is None else arguments
    if not given:
        parser.print_help()
        return DONE
    has_word = not usual or not given[0].startswith("--") or given[0] == "--help"
    return run(parser, given if has_word else [usual, *given])
