"""Captures of the loopback by dumpcap, where that is there and allowed."""

from __future__ import annotations

import shutil
import signal
import subprocess
import time
from contextlib import contextmanager
from pathlib import Path
from typing import Iterator

from laboratory import SECONDS, Laboratory, wait_until

SECONDS_FOR_LAST_PACKETS = 2


def need_tshark(test: Laboratory) -> None:
    """Skips the test where there is nothing that captures and reads packets."""
    if not (shutil.which("tshark") and shutil.which("dumpcap")):
        test.skipTest("tshark is not there (Debian's package tshark)")


def wait_until_it_rests(file: Path) -> None:
    """Waits until a file has not grown for a while."""
    seen, size = -1, file.stat().st_size
    while size != seen:
        time.sleep(SECONDS_FOR_LAST_PACKETS)
        seen, size = size, file.stat().st_size


@contextmanager
def captured(test: Laboratory, port: int) -> Iterator[Path]:
    """Captures all packets of this port into the file that it gives, up to the end of the block."""
    capture, told = test.folder / "capture.pcapng", test.folder / "dumpcap.said"
    with open(told, "w") as said:
        dumpcap = subprocess.Popen(
            ["dumpcap", "-q", "-B", "64", "-i", "lo", "-f", f"tcp port {port}", "-w", capture], stderr=said)
    test.addCleanup(dumpcap.wait, SECONDS)
    test.addCleanup(dumpcap.kill)
    wait_until(lambda: dumpcap.poll() is not None or "File:" in told.read_text(), "the capture")
    if dumpcap.poll() is not None:
        test.skipTest(f"packets can't be captured here: {told.read_text().strip()}")
    yield capture
    wait_until_it_rests(capture)
    dumpcap.send_signal(signal.SIGINT)
    dumpcap.wait(SECONDS)
