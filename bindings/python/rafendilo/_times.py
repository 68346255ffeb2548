"""Times, as in allowed signers and `expiry-time` of authorized_keys."""
from __future__ import annotations

import ctypes

from ._header import TimeSpan
from ._library import LIBRARY, done, text_of
from ._values import BytesLike


def read_time(text: str | BytesLike) -> tuple[int, int]:
    """The first and the last second since 1970 that a time may mean, which is YYYYMMDD, YYYYMMDDHHMM or YYYYMMDDHHMMSS, alone or
    before Z or UTC. They are the same one if it names its zone; alone, it may be of any.

    Raises Refused where the text is no such time, or one that may be no later than the start of 1970."""
    answer = TimeSpan()
    done(LIBRARY.raf_read_time(*text_of(text), ctypes.byref(answer)))
    return answer.first, answer.last
