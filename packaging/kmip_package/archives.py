"""Archives whose bytes follow from what is in them alone: sorted, of no owner, all at one moment."""

from __future__ import annotations

import hashlib
import io
import struct
import tarfile
import zlib
from pathlib import PurePosixPath
from typing import NamedTuple

FOLDER, PROGRAM, TEXT = 0o755, 0o755, 0o644
# Deflated, no flags, no moment; by no system.
GZIP_HEAD, GZIP_TAIL = b"\x1f\x8b\x08\0" + bytes(5) + b"\xff", struct.Struct("<II")
# More costs three times the seconds, and saves one byte in a hundred.
COMPRESSION = 6


class File(NamedTuple):
    """A file of a package: a path without a first slash, and its bytes; or where it leads, if it is a link."""

    path: str
    data: bytes = b""
    mode: int = TEXT
    link: str = ""


def gzipped(data: bytes) -> bytes:
    """These bytes, compressed; without a name or a moment."""
    made = zlib.compressobj(COMPRESSION, zlib.DEFLATED, -zlib.MAX_WBITS)
    return GZIP_HEAD + made.compress(data) + made.flush() + GZIP_TAIL.pack(zlib.crc32(data), len(data) & 0xFFFFFFFF)


def tar(files: list[File], moment: int, top: str) -> bytes:
    """A tar archive of these files and the folders that they need, below the folder `top`."""
    made = io.BytesIO()
    with tarfile.open(fileobj=made, mode="w", format=tarfile.GNU_FORMAT) as archive:
        for path in sorted(_folders(files)):
            _add(archive, File(path, mode=FOLDER), tarfile.DIRTYPE, moment, top)
        for file in sorted(files):
            _add(archive, file, tarfile.SYMTYPE if file.link else tarfile.REGTYPE, moment, top)
    return made.getvalue()


def _folders(files: list[File]) -> set[str]:
    """All folders above the files; the topmost is the empty path."""
    return {"" if str(each) == "." else str(each) for file in files for each in PurePosixPath(file.path).parents}


def _add(archive: tarfile.TarFile, file: File, kind: bytes, moment: int, top: str) -> None:
    entry = tarfile.TarInfo(f"{top}/{file.path}")
    entry.type, entry.mode, entry.mtime, entry.linkname = kind, file.mode, moment, file.link
    entry.uname = entry.gname = "root"
    entry.size = len(file.data) if kind == tarfile.REGTYPE else 0
    if kind == tarfile.SYMTYPE:
        entry.mode = 0o777
    archive.addfile(entry, io.BytesIO(file.data))


def deb(control: list[File], files: list[File], moment: int) -> bytes:
    """A Debian package of these files: its form, what tells dpkg of it, and the files."""
    members = [("debian-binary", b"2.0\n"), ("control.tar.gz", gzipped(tar(control, moment, "."))),
               ("data.tar.gz", gzipped(tar(files, moment, ".")))]
    return b"!<arch>\n" + b"".join(_member(name, data, moment) for name, data in members)


def _member(name: str, data: bytes, moment: int) -> bytes:
    head = f"{name:<16}{moment:<12}{0:<6}{0:<6}{'100644':<8}{len(data):<10}`\n".encode("ascii")
    return head + data + b"\n" * (len(data) % 2)


def sums(files: list[tuple[str, bytes]], by: str) -> bytes:
    """A line for each file, as `sha256sum` and `md5sum` write and read them."""
    return "".join(f"{hashlib.new(by, data).hexdigest()}  {name}\n" for name, data in sorted(files)).encode()
