"""What dpkg is told of the package, and what it runs."""

from __future__ import annotations

import re

from .archives import PROGRAM, File, sums

MAINTAINER = "Dusklemo maintainers <maintainers@users.noreply.dusklemo.example>"
ARCHITECTURE = "amd64"
GLIBC = re.compile(rb"\0GLIBC_(\d+)\.(\d+)(?=[.\0])")
ABOUT = """\
 It says whether the answers of a key server can all be explained by its
 calls having been done one at a time, in an order that it is given or
 finds. Each verdict of kmip_audit is proved, but not how many steps a
 search tells, nor that a place that it tells is its deepest: STATEMENT, in
 /usr/share/doc/kmip-audit, says what was.
 .
 Beside it are kmip_record, which makes recordings, kmip_drive, which makes
 a server work until its faults show, and kmip_report, which makes a page
 of verdicts.
"""
UNPROVED = """\
 .
 NOT PROVED: this package was made to try how packages are made, and is not
 to be used.
"""
# Programs of Python are compiled when they are installed, since those who run them may not write there.
CONFIGURE = """\
#!/bin/sh
set -e
if [ "$1" = configure ]; then
    python3 -m compileall -q /usr/lib/kmip-audit || true
fi
"""
REMOVE = """\
#!/bin/sh
set -e
find /usr/lib/kmip-audit -depth -type d -name __pycache__ -exec rm -r {} +
"""


def control(version: str, files: list[File], program: bytes, proved: bool) -> list[File]:
    """The files that dpkg reads."""
    told = {"Package": "kmip-audit", "Version": version, "Section": "utils", "Priority": "optional",
            "Architecture": ARCHITECTURE, "Maintainer": MAINTAINER, "Installed-Size": str(_kilobytes(files)),
            "Depends": f"libc6 (>= {_c_library(program)}), python3 (>= 3.9)", "Recommends": "openssl",
            "Suggests": "tshark, python3-pykmip", "Description": "auditor of recorded KMIP 2.1 traffic"}
    text = "".join(f"{name}: {value}\n" for name, value in told.items()) + ABOUT + ("" if proved else UNPROVED)
    md5 = sums([(f"usr/{file.path}", file.data) for file in files if not file.link], "md5")
    return [File("control", text.encode()), File("md5sums", md5), File("postinst", CONFIGURE.encode(), PROGRAM),
            File("prerm", REMOVE.encode(), PROGRAM)]


def _kilobytes(files: list[File]) -> int:
    """What the files take on a disk, as Debian's policy counts it: whole kilobytes of each, and one of each link."""
    return sum(1 if file.link else -(-len(file.data) // 1024) for file in files)


def _c_library(program: bytes) -> str:
    """The lowest version of the C library that has all that the program asks of it."""
    major, minor = max((int(found[1]), int(found[2])) for found in GLIBC.finditer(program))
    return f"{major}.{minor}"
