"""Certificates to try the driver with: an authority, a server's and a client's, made with openssl."""

from __future__ import annotations

import os
import subprocess
from pathlib import Path

from ..trouble import Trouble

DAYS = "30"
NAMES = ("server", "client")
NEW_KEY = ["-newkey", "ec", "-pkeyopt", "ec_paramgen_curve:prime256v1", "-nodes", "-days", DAYS]
USES = "extendedKeyUsage=clientAuth,serverAuth\nsubjectAltName=IP:127.0.0.1\n"


def make(folder: Path) -> None:
    """authority.pem, and server and client as .pem and .key; a folder that is there has to be empty."""
    try:
        folder.mkdir(parents=True, exist_ok=True)
        if any(folder.iterdir()):
            raise Trouble(f"{folder} is not empty: name a new folder for the certificates")
        os.chmod(folder, 0o700)
        (folder / "uses").write_text(USES)
    except OSError as error:
        raise Trouble(f"{folder} can't be made: {error.strerror}; name another folder") from None
    _openssl(folder, ["req", "-x509", *NEW_KEY, "-subj", "/CN=authority", "-keyout", "authority.key", "-out",
                      "authority.pem"])
    for name in NAMES:
        _openssl(folder, ["req", *NEW_KEY[:-2], "-subj", f"/CN={name}", "-keyout", f"{name}.key", "-out",
                          f"{name}.csr"])
        _openssl(folder, ["x509", "-req", "-in", f"{name}.csr", "-CA", "authority.pem", "-CAkey", "authority.key",
                          "-CAcreateserial", "-days", DAYS, "-extfile", "uses", "-out", f"{name}.pem"])
        (folder / f"{name}.csr").unlink()
    (folder / "uses").unlink()


def _openssl(folder: Path, words: list[str]) -> None:
    try:
        subprocess.run(["openssl", *words], cwd=folder, check=True, capture_output=True, text=True)
    except FileNotFoundError:
        raise Trouble("certificates are made by the program openssl, which is not there: install it") from None
    except subprocess.CalledProcessError as error:
        raise Trouble(f"openssl {words[0]} failed: {error.stderr.strip().splitlines()[-1:]}") from None
