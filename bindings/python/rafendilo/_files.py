"""Lines of authorized_keys and known_hosts."""
from __future__ import annotations

import ctypes
from collections.abc import Callable
from functools import partial

from ._header import Entry, LineOptionParts, Marker, Part, Status
from ._library import LIBRARY, ask, bytes_of, done, number_of, parts_of
from ._named import names_blobs
from ._values import AuthorizedEntry, BytesLike, KnownHost, Refused

# the bytes of a buffer for an option; a longer one is asked for again
OF_OPTION = 256


def entry_lines(text: BytesLike) -> list[bytes]:
    """The lines of a text of authorized_keys or known_hosts that may be entries: those that are neither empty nor a comment,
    without the spaces and tabs at their front. Do not use splitlines: it also cuts where sshd and ssh do not."""
    found, place, part = [], 0, Part()
    data, length = bytes_of(text)
    while (status := LIBRARY.raf_next_line(data, length, place, ctypes.byref(part))) != Status.END:
        done(status)
        place = part.start + part.length
        found.append(data[part.start : place])
    return found


def _entry(call: Callable[..., int], line: BytesLike) -> tuple[int, tuple[bytes, ...]]:
    """The marker and the parts of the entry that a call reads."""
    given, answer = bytes_of(line), Entry()
    buffer = ask(lambda *buffer: call(*given, *buffer), answer, given[1])
    return answer.marker, parts_of(buffer, answer.front, answer.key, answer.comment)


def authorized_entry(line: BytesLike) -> AuthorizedEntry:
    """The entry of a line of authorized_keys, as sshd reads it. Raises Refused where the line is none, and MemoryError.

    It shows a line, and decides nothing: whom a text lets in, log_in says."""
    return AuthorizedEntry(*_entry(LIBRARY.raf_authorized_entry, line)[1])


def known_host(line: BytesLike) -> KnownHost:
    """The entry of a line of known_hosts, as ssh reads it. Raises Refused where the line is none, which may be a revocation, and
    MemoryError: to check the key of a host, ask check_host_key about the whole text."""
    marker, parts = _entry(LIBRARY.raf_known_host, line)
    return KnownHost(Marker(marker), *parts)


def line_options(text: BytesLike) -> list[tuple[bytes, bytes | None]]:
    """The options of an entry of authorized_keys: of each its name, which is compared without case, and its value or None. What
    they say of a login, log_in decides.

    Raises Refused where the text is no list of options, and MemoryError."""
    found: list[tuple[bytes, bytes | None]] = []
    given, answer = bytes_of(text), LineOptionParts()
    while True:
        try:
            buffer = ask(partial(LIBRARY.raf_next_line_option, *given, answer.next), answer, OF_OPTION)
        except Refused as refused:
            if refused.status == Status.END:
                return found
            raise
        name, value = parts_of(buffer, answer.name, answer.value)
        found.append((name, value if answer.has_value else None))


@names_blobs
def line_may_name_key(line: BytesLike, key: BytesLike) -> bool:
    """Whether sshd may take a line of authorized_keys for one of the key, given as its blob, whatever it makes of the line's options:
    for a program that has sshd check lines. Leave out none but those for which it is False. Raises Refused where the bytes are no
    key, and MemoryError."""
    return _may_be(LIBRARY.raf_line_may_name_key(*bytes_of(line), *bytes_of(key)))


@names_blobs
def line_may_name_authority(line: BytesLike, certificate: BytesLike) -> bool:
    """Whether sshd may take a line of authorized_keys for one of the authority that signed the certificate, given as its blob: as
    line_may_name_key of a key."""
    return _may_be(LIBRARY.raf_line_may_name_authority(*bytes_of(line), *bytes_of(certificate)))


def _may_be(status: int) -> bool:
    if status == Status.END:
        return False
    done(status)
    return True


def is_safe_mode(owner: int, user: int, mode: int) -> bool:
    """Whether a file or a folder may be believed about a user, as by sshd's StrictModes: root or the user owns it, and neither group
    nor others may write. The numbers are those of os.stat; the user 0 is root. Raises ValueError for a number that does not fit."""
    status = LIBRARY.raf_check_safe_mode(number_of(owner, 64), number_of(user, 64), number_of(mode, 32))
    if status == Status.UNSAFE_MODE:
        return False
    done(status)
    return True
