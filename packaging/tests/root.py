"""A fresh root of Debian's base with Python: by debootstrap, or of the packages that this machine has."""

from __future__ import annotations

import os
import re
import shutil
import stat
import subprocess
from pathlib import Path

# What a Debian has in any case, and what the package depends on and recommends.
WANTED = ("base-files", "base-passwd", "bash", "coreutils", "dash", "diffutils", "dpkg", "findutils", "grep",
          "libc-bin", "openssl", "python3", "sed")
DEVICES = {"null": (1, 3), "zero": (1, 5), "random": (1, 8), "urandom": (1, 9)}
SECONDS = 400
STATUS = Path("/var/lib/dpkg/status")
NAME = re.compile(r"[a-z0-9][a-z0-9+.-]*")
INSTALLED = "\nStatus: install ok installed\n"


class NotHere(Exception):
    """No root can be made here; the text says why."""


def make(folder: Path) -> str:
    """Makes a root in this new folder, and says of what."""
    if os.geteuid() != 0 or not shutil.which("dpkg") or not STATUS.exists():
        raise NotHere("a root is made by root, on a Debian")
    suite = _suite()
    if suite and (shutil.which("debootstrap") or _installed("debootstrap")) and _by_debootstrap(folder, suite):
        return f"{suite}, by debootstrap"
    give_back(folder)
    shutil.rmtree(folder, ignore_errors=True)
    _by_copies(folder)
    return "of packages that this machine has"


def give_back(folder: Path) -> None:
    """Lets go of what is mounted below the root, the last first: what was lent to it, and what a debootstrap left that was ended."""
    places = [line.split(" ")[1] for line in Path("/proc/mounts").read_text("utf-8").splitlines()]
    for place in reversed(places):
        if place.startswith(f"{folder}/"):
            subprocess.run(["umount", place], check=False)


def _suite() -> str:
    """The name of this Debian; nothing on another system."""
    told = dict(line.split("=", 1) for line in Path("/etc/os-release").read_text("utf-8").splitlines() if "=" in line)
    return told.get("VERSION_CODENAME", "") if told.get("ID") == "debian" else ""


def _installed(package: str) -> bool:
    """Whether a package could be installed here."""
    how = {"capture_output": True, "check": False, "env": {**os.environ, "DEBIAN_FRONTEND": "noninteractive"}}
    words = ["-qq", "install", "-y", "--no-install-recommends", package]
    try:
        for each in (["-qq", "update"], words):
            if subprocess.run(["apt-get", *each], timeout=SECONDS, **how).returncode != 0:
                return False
    except (OSError, subprocess.SubprocessError):
        return False
    return True


def _by_debootstrap(folder: Path, suite: str) -> bool:
    """Whether debootstrap could make the root."""
    words = ["debootstrap", "--variant=minbase", "--include=python3,openssl", suite, str(folder)]
    try:
        done = subprocess.run(words, stdin=subprocess.DEVNULL, capture_output=True, check=False, timeout=SECONDS)
    except (OSError, subprocess.SubprocessError):
        return False
    return done.returncode == 0


def _by_copies(folder: Path) -> None:
    """The files of the wanted packages, of all that they depend on, and what dpkg knows of them."""
    known = _known()
    needed: set[str] = set()
    waiting = list(WANTED)
    while waiting:
        name = waiting.pop()
        if name not in needed and name in known:
            needed.add(name)
            waiting += _needs(known[name])
    if "python3" not in needed:
        raise NotHere("neither debootstrap works here, nor has this machine Debian's python3")
    (folder / "var/lib/dpkg/info").mkdir(parents=True)
    (folder / "var/lib/dpkg/updates").mkdir()
    for each in ("usr/bin", "usr/sbin", "usr/lib", "usr/lib64", "dev", "proc", "tmp", "root"):
        (folder / each).mkdir(parents=True, exist_ok=True)
    for each in ("bin", "sbin", "lib", "lib64"):
        (folder / each).symlink_to(f"usr/{each}")
    for name in sorted(needed):
        _copy(name, folder)
    stanzas = [known[name] for name in sorted(needed)]
    (folder / "var/lib/dpkg/status").write_text("\n".join(stanzas), "utf-8")
    _lend_devices(folder)
    subprocess.run(["ldconfig", "-r", str(folder)], check=True)
    for name in ("passwd", "group"):
        shutil.copy(f"/etc/{name}", folder / "etc" / name)
    shutil.copytree("/etc/alternatives", folder / "etc/alternatives", symlinks=True, dirs_exist_ok=True)


def _known() -> dict[str, str]:
    """What dpkg knows of each package that is installed."""
    stanzas = (f"{text}\n" for text in STATUS.read_text("utf-8").strip().split("\n\n"))
    return {text.split("\n", 1)[0].partition(": ")[2]: text for text in stanzas if INSTALLED in text}


def _needs(stanza: str) -> list[str]:
    """The packages that one depends on; of several that would do all, since one of them is there."""
    lines = [line.partition(": ")[2] for line in stanza.splitlines() if line.startswith(("Depends: ", "Pre-Depends: "))]
    return [found[0] for line in lines for part in re.split(r"[,|]", line) if (found := NAME.match(part.strip()))]


def _copy(package: str, folder: Path) -> None:
    """Copies a package's files; what is lacking here is left out."""
    listed = subprocess.run(["dpkg", "--listfiles", package], capture_output=True, text=True, check=True).stdout
    for line in listed.splitlines():
        source = Path(line)
        if not os.path.lexists(source) or line == "/." or not line.startswith("/"):
            continue
        place = folder / line[1:]
        if source.is_symlink():
            place.parent.mkdir(parents=True, exist_ok=True)
            if not os.path.lexists(place):
                place.symlink_to(os.readlink(source))
        elif source.is_dir():
            place.mkdir(parents=True, exist_ok=True)
        elif stat.S_ISREG(source.stat().st_mode):
            place.parent.mkdir(parents=True, exist_ok=True)
            shutil.copy2(source, place)
    for info in Path("/var/lib/dpkg/info").glob(f"{package}[.:]*"):
        shutil.copy2(info, folder / "var/lib/dpkg/info")


def _lend_devices(folder: Path) -> None:
    """The few devices that programs need: made where that is allowed, else lent."""
    for name, (major, minor) in DEVICES.items():
        place = folder / "dev" / name
        try:
            os.mknod(place, 0o666 | stat.S_IFCHR, os.makedev(major, minor))
            os.chmod(place, 0o666)
            place.open("rb").close()
        except OSError:
            place.unlink(missing_ok=True)
            place.touch()
            if subprocess.run(["mount", "--bind", f"/dev/{name}", place], check=False, capture_output=True).returncode:
                raise NotHere("no device can be made or lent here") from None
