"""The recording that the driver makes by itself.

The driver is the client, so its marks keep the recorder's rule by themselves: a begin mark is written ahead of the
first byte of a request, an end mark when the whole answer is there, ahead of the client's next call. Older versions
are written as 2.1, as `kmip_record translate` does.
"""

from __future__ import annotations

import threading
from typing import Optional

from ..message import Side
from ..transcript_writer import TranscriptWriter
from ..translation.messages import Translator


class Marks:
    """Marks of several clients at once, in one transcript; without a transcript nothing is marked."""

    def __init__(self, transcript: Optional[TranscriptWriter], translates: bool) -> None:
        self._transcript = transcript
        self._translator = Translator() if translates else None
        self._lock = threading.Lock()

    def begin(self, client: str, request: bytes) -> int:
        """Marks that a request is about to be sent, and answers its call's number."""
        if self._transcript is None:
            return 0
        with self._lock:
            return self._transcript.begin(client, self._marked(self._transcript.next_call, Side.CLIENT, request))

    def end(self, call: int, response: bytes) -> None:
        """Marks that the answer to a call is there."""
        if self._transcript is not None:
            with self._lock:
                self._transcript.end(call, self._marked(call, Side.SERVER, response))

    def _marked(self, call: int, side: Side, message: bytes) -> bytes:
        return message if self._translator is None else self._translator.message(call, side, message)
