"""The word `--as`: which clients are shown to the server with certificates of their own."""

from __future__ import annotations

import contextlib
import os
import shlex
import ssl
import stat
from pathlib import Path
from typing import Iterator, NamedTuple

from .. import certificate, tls
from ..trouble import Trouble


class Identity(NamedTuple):
    """A client by its common name, and the certificate with its key that the server is shown for it."""

    name: str
    certificate: str
    key: str


def read_identities(words: list[str]) -> list[Identity]:
    """The identities that these words name, each as NAME=CERT,KEY or as a folder of certificates and keys."""
    found: dict[str, Identity] = {}
    for word in words:
        for identity in _identities(word):
            if identity.name in found:
                raise Trouble(f"--as {word}: {identity.name} has two certificates; leave one away")
            found[identity.name] = identity
    return list(found.values())


def contexts(identities: list[Identity], authority: str) -> dict[str, ssl.SSLContext]:
    """TLS toward the server for each of them. A key that everybody may read is refused: who has it is the client."""
    for identity in identities:
        _see_that_secret(identity.key)
    return {identity.name: tls.toward_server(identity.certificate, identity.key, authority) for identity in identities}


def _see_that_secret(key: str) -> None:
    with contextlib.suppress(OSError):
        if os.stat(key).st_mode & stat.S_IROTH:
            raise Trouble(f"{key} is a key that everybody on this machine may read: `chmod 600 {shlex.quote(key)}`, "
                          "and think of whoever has read it")


def _identities(word: str) -> Iterator[Identity]:
    name, equals, files = word.partition("=")
    if equals and files.count(",") == 1:
        yield Identity(name, *files.split(","))
    elif Path(word).is_dir():
        found = list(_in_folder(Path(word)))
        if not found:
            raise Trouble(f"--as {word}: the folder has no NAME.pem with a NAME.key beside it")
        yield from found
    else:
        raise Trouble(f"--as {word}: no NAME=CERT,KEY, as alice=alice.pem,alice.key is one, and no folder of them")


def _in_folder(folder: Path) -> Iterator[Identity]:
    """The certificates of a folder that have keys beside them, by the common names that stand in them."""
    for path in sorted(folder.glob("*.pem")):
        key = path.with_suffix(".key")
        if not key.exists():
            continue
        try:
            name = certificate.common_name(ssl.PEM_cert_to_DER_cert(path.read_text()))
        except (OSError, ValueError):
            name = None
        if name is None:
            raise Trouble(f"{path} can't be read as a certificate in PEM with a common name; take it out of {folder}")
        yield Identity(name, str(path), str(key))
