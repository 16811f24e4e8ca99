"""Files that are made whole or not at all, and never over one that is there unless that was asked for.

What is made has a new name beside its own until it is whole, so that what a killed run left hinders no other.
"""

from __future__ import annotations

import contextlib
import os
import shutil
import stat
import tempfile
from contextlib import contextmanager
from typing import BinaryIO, Iterator

from .trouble import Trouble

HINT = "give another name"
OUT_HINT = "give --out another name, or --force"
ANYBODY_MAY_WRITE = 0o222
GROUP, OTHERS = 0o070, 0o007


def see_that_free(path: str, force: bool = False, hint: str = HINT) -> None:
    """Refuses a name that a file has already, unless it may be written over, and can be."""
    if os.path.lexists(path):
        if not force:
            raise _taken(path, hint)
        _what_is_replaced(path)


def write_file(path: str, data: bytes, force: bool = False, hint: str = OUT_HINT) -> None:
    """Makes a file of these bytes, which only its owner may read; `force` puts it in the place of one that is there,
    whose mode and owner it keeps."""
    if force and os.path.lexists(path):
        _replace(path, data)
    else:
        with new_file(path, hint) as file:
            file.write(data)


@contextmanager
def new_file(path: str, hint: str = HINT) -> Iterator[BinaryIO]:
    """A file to write to. It has a name of its own until the block ends well, and is gone where it does not. A link
    gives it its name, which refuses where that has been taken meanwhile, as a rename would not."""
    see_that_free(path, hint=hint)
    with _told(path, hint), _part_of(path) as part:
        with open(part, "wb") as file:
            yield file
        os.link(part, path)


@contextmanager
def new_folder(path: str) -> Iterator[str]:
    """A folder to make files in, its owner's alone, under a name of its own until the block ends well; gone where it
    does not."""
    see_that_free(path)
    with _told(path, HINT):
        made = tempfile.mkdtemp(*_affixes(path))
        try:
            yield made
            os.rename(made, path)
        except BaseException:
            shutil.rmtree(made, ignore_errors=True)
            raise


def _what_is_replaced(path: str) -> os.stat_result:
    """What is there behind all links. Refused are what is read-only, for root too, and what is no file."""
    try:
        there = os.stat(path)
    except OSError:
        raise Trouble(f"{path} is a link that leads nowhere: name the file itself") from None
    if stat.S_ISDIR(there.st_mode):
        raise Trouble(f"{path} is a folder: give the name of a file")
    may_write = there.st_mode & ANYBODY_MAY_WRITE and os.access(path, os.W_OK)
    if stat.S_ISREG(there.st_mode) and not may_write:
        raise Trouble(f"{path} is read-only, and is left as it is: make it writable, or give another name")
    return there


def _replace(path: str, data: bytes) -> None:
    """Puts these bytes in the place of what is there. Behind a link its file is replaced; what is no plain file, as a
    device or a pipe, is written as it stands."""
    there = _what_is_replaced(path)
    with _told(path, HINT):
        if not stat.S_ISREG(there.st_mode):
            with open(path, "wb") as device:
                device.write(data)
            return
        real = os.path.realpath(path)
        with _part_of(real) as part:
            with open(part, "wb") as file:
                file.write(data)
                _keep_owner_and_mode(file.fileno(), there)
            os.replace(part, real)


def _keep_owner_and_mode(file: int, there: os.stat_result) -> None:
    """Gives a new file the mode of the one whose place it takes, and its owner and group where the process may. Where
    the group can't be kept, another one may do what everybody may, and no more."""
    for owner, group in ((-1, there.st_gid), (there.st_uid, -1)):
        with contextlib.suppress(OSError):
            os.fchown(file, owner, group)
    mode = stat.S_IMODE(there.st_mode)
    if os.fstat(file).st_gid != there.st_gid:
        mode &= ~GROUP | (mode & OTHERS) << 3
    os.fchmod(file, mode)


@contextmanager
def _part_of(path: str) -> Iterator[str]:
    """The name of an empty file beside this one, its owner's alone, which nothing had; gone at the end, where it was
    given no other."""
    number, part = tempfile.mkstemp(*_affixes(path))
    os.close(number)
    try:
        yield part
    finally:
        with contextlib.suppress(FileNotFoundError):
            os.remove(part)


def _affixes(path: str) -> tuple[str, str, str]:
    """How the new name beside this one ends and begins, and its folder."""
    folder, name = os.path.split(path)
    return ".part", f"{name}.", folder or os.curdir


@contextmanager
def _told(path: str, hint: str) -> Iterator[None]:
    """Tells a person what hinders that this is made."""
    try:
        yield
    except FileExistsError:
        raise _taken(path, hint) from None
    except OSError as error:
        raise Trouble(f"{path} can't be written: {error.strerror}; give it another name, or make room") from None


def _taken(path: str, hint: str) -> Trouble:
    return Trouble(f"{path} is there already, and is left as it is: {hint}")
