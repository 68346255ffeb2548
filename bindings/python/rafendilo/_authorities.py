"""Texts of keys that sign certificates, as sshd's TrustedUserCAKeys."""
from __future__ import annotations

import ctypes
from collections.abc import Callable
from dataclasses import dataclass
from typing import Any

from ._files import entry_lines
from ._header import Sha256, Status
from ._library import LIBRARY, bytes_of, done, text_of
from ._values import BytesLike, Refused


@dataclass(frozen=True)
class Authorities:
    """The keys of a text, by their fingerprints, and the numbers, from 1, of the lines that are passed over: tell of them."""

    keys: tuple[bytes, ...]
    later_lines: tuple[int, ...]


class NoKey(Refused):
    """The line of that number, from 1, is no key's: `status` says why."""

    def __init__(self, status: int, line: int) -> None:
        super().__init__(status)
        self.line = line

    def __str__(self) -> str:
        return f"line {self.line}: {super().__str__()}"

    def __reduce__(self) -> tuple[Any, ...]:
        return type(self), (self.status, self.line)


def authorities(text: str | BytesLike) -> Authorities:
    """The keys of a text, a line each, between empty lines and comments. Lines of a later kind of key (is_later_key_line) are passed
    over. Raises NoKey, which is a Refused, for any other line, and MemoryError: use none of the keys then."""
    return _read(text, LIBRARY.raf_authority)


def user_authorities(text: str | BytesLike, user: str | BytesLike) -> Authorities:
    """The keys that may sign for the user, by a text that says which may for whom: in its lines names of users, with commas between,
    stand before a key. Lines without the user's name are passed over, whatever follows; of the others authorities says more."""
    return _read(text, LIBRARY.raf_user_authority, *text_of(user))


def _read(text: str | BytesLike, call: Callable[..., int], *user: bytes | int) -> Authorities:
    keys: list[bytes] = []
    later_lines: list[int] = []
    for number, piece in enumerate(text_of(text)[0].split(b"\n"), 1):
        for line in entry_lines(piece):
            answer = Sha256()
            status = call(*bytes_of(line), *user, ctypes.byref(answer))
            if status == Status.LATER_KEY:
                later_lines.append(number)
            elif status != Status.END:  # which is a line of other users
                _done(status, number)
                keys.append(bytes(answer.bytes))
    return Authorities(tuple(keys), tuple(later_lines))


def _done(status: int, number: int) -> None:
    try:
        done(status)
    except Refused as refused:
        raise NoKey(refused.status, number) from refused


def is_later_key_line(line: BytesLike) -> bool:
    """Whether a line of a text of authorities is that of a key of a kind that is not read here, as ssh-mldsa44-ed25519 of OpenSSH
    10.6: it signs nothing that is read. False for the line of a key that is, and for what is no key's. Raises Refused for a line
    that is not UTF-8."""
    status = LIBRARY.raf_is_later_key_line(*bytes_of(line))
    if status == Status.LABEL:
        return False
    done(status)
    return True


def names_later_kind(data: BytesLike) -> bool:
    """Whether bytes name, as a string, a kind of key that OpenSSH reads or read and that is not read here, of its certificates or of its
    signatures. It tells why they are no key, no certificate, whose authority may be such a key, or no signature."""
    status: int = LIBRARY.raf_names_later_kind(*bytes_of(data))
    return status == Status.DONE
