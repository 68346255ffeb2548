"""What each status that a call returns is, whichever it is."""
from __future__ import annotations

import enum
from typing import NoReturn


class Answer(enum.IntEnum):
    """A status that a call returns. Compare it with Status.DONE: it is no truth value, and where one is wanted it raises
    TypeError."""

    def __bool__(self) -> NoReturn:
        raise TypeError("compare with Status.DONE: a Status is no truth value")
