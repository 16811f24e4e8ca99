"""Certificates for one run of the tests, made with openssl; none outlives its folder."""

from __future__ import annotations

import subprocess
from pathlib import Path
from typing import Sequence

NEW_KEY = ["-newkey", "ec", "-pkeyopt", "ec_paramgen_curve:prime256v1", "-nodes"]


def _openssl(folder: Path, *words: str) -> None:
    subprocess.run(["openssl", *words], cwd=folder, check=True, capture_output=True)


def make_authority(folder: Path, name: str = "authority") -> None:
    """An authority: NAME.pem and NAME.key."""
    _openssl(folder, "req", "-x509", *NEW_KEY, "-subj", f"/CN={name}", "-days", "2", "-keyout", f"{name}.key",
             "-out", f"{name}.pem")


def make_certificates(folder: Path, names: Sequence[str], authority: str = "authority",
                      subject: str = "/O=Test/CN={name}", also: str = "IP:127.0.0.1") -> None:
    """For each name a certificate that the authority signed, NAME.pem and NAME.key; `also` is its other name."""
    for name in names:
        _openssl(folder, "req", *NEW_KEY, "-subj", subject.format(name=name), "-keyout", f"{name}.key",
                 "-out", f"{name}.csr")
        (folder / "uses").write_text(f"extendedKeyUsage=clientAuth,serverAuth\nsubjectAltName={also}\n")
        _openssl(folder, "x509", "-req", "-in", f"{name}.csr", "-CA", f"{authority}.pem", "-CAkey",
                 f"{authority}.key", "-CAcreateserial", "-days", "2", "-extfile", "uses", "-out", f"{name}.pem")
