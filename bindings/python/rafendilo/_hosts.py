"""Whether the key or the certificate that a host shows is the host's, by known_hosts."""
from __future__ import annotations

import ctypes
from collections.abc import Callable, Iterable
from dataclasses import dataclass

from . import _header
from ._certificates import is_certified
from ._header import KnownBy, Status
from ._library import LIBRARY, bytes_of, done, files_of, number_of, parts_of, spans_of, text_of
from ._named import names_blobs
from ._values import BytesLike
from ._verify import Verifier, decided, is_signature


class HeldHosts:
    """The texts of all the files that count, read once to be asked again and again. A question then reads the lines for its host, and those
    that have a pattern or a hash. The others cost it next to nothing. Give it as `known_hosts` of HostLogin."""

    def __init__(self, known_hosts: Iterable[BytesLike]) -> None:
        text, count = b"\n".join(files_of(known_hosts)), ctypes.c_size_t()
        places = (_header.LinePlace * (text.count(b"\n") + 1))()
        done(LIBRARY.raf_place_hosts(text, len(text), places, len(places), ctypes.byref(count)))
        # only calls read them: places of another text would be believed
        self._given = (text, len(text), places, count.value)


@dataclass(frozen=True)
class HostLogin:
    """A host that shows a key or a certificate, and whom the client trusts.

    known_hosts: the texts of all the files that count, the user's and the machine's (known_hosts_of_ssh), or HeldHosts of them
    host: the name or address as the user typed it, without brackets
    port: not 0
    revoked: what the files of ssh's RevokedHostKeys have, or NO_REVOCATIONS; without a file none is trusted
    unix_timestamp: of a key it is not asked
    least_rsa_bits: ssh's RequiredRSASize; below 1,024, as 0, it is 1,024
    """

    known_hosts: Iterable[BytesLike] | HeldHosts
    host: str | BytesLike
    port: int
    revoked: Iterable[BytesLike]
    unix_timestamp: int | None = None
    least_rsa_bits: int = 0


def _asked(login: HostLogin, unix_timestamp: int, call: str, held_call: str) -> Callable[..., None]:
    """The call that asks about the login, by texts or by those that are held; it raises unless it is done."""
    known = login.known_hosts
    held = known if isinstance(known, HeldHosts) else None
    asked = _header.HostLogin(
        known_hosts=spans_of([] if isinstance(known, HeldHosts) else known), host=_header.Span(*text_of(login.host)), revoked=spans_of(login.revoked),
        unix_timestamp=number_of(unix_timestamp, 64), least_rsa_bits=number_of(login.least_rsa_bits, 32), port=number_of(login.port, 16),
    )  # fmt: skip
    of_library = getattr(LIBRARY, held_call if held else call)
    given = held._given if held else ()
    return lambda *rest: done(of_library(ctypes.byref(asked), *given, *rest))


@names_blobs
def check_host_key(login: HostLogin, key: BytesLike) -> None:
    """Returns exactly if the key, given as its blob, is trusted as that of the host, as ssh(1) trusts it, or more strictly
    (docs/OPENSSH.md); else raises Refused, which says what is wrong first. Raises MemoryError, ValueError for a number that does not
    fit its field, and TypeError where a file was not read (None). An address is asked in the text that ssh(1) asks. Whether the host holds the key is not looked at."""
    _asked(login, 0, "raf_check_host_key", "raf_check_held_host_key")(*bytes_of(key))


@names_blobs
def check_host_certificate(login: HostLogin, certificate: BytesLike, verifier: Verifier = is_signature) -> KnownBy:
    """By what a host that shows a certificate is known: by an authority that known_hosts names for the host, where the certificate,
    given as its blob, lists the host in small letters; else by the certified key, as check_host_key says. Raises Refused and what that
    raises, and TypeError also without a time. Asks the library, the verifier and the library again, over copies that nobody changes.
    Whether the host holds the certified key is not looked at."""
    if login.unix_timestamp is None:
        raise TypeError("a certificate is valid at a time, and none is given")
    asked = _asked(login, login.unix_timestamp, "raf_check_host_certificate", "raf_check_held_host_certificate")
    given, length = bytes_of(certificate)
    known_by = ctypes.c_uint32()

    def verdict(is_verified: bool) -> None:
        asked(given, length, is_verified, ctypes.byref(known_by))

    decided(verdict, lambda: is_certified(given, verifier))
    return KnownBy(known_by.value)


def host_and_port(text: str | BytesLike) -> tuple[str, int | None]:
    """The host and the port that a user types: `host:port`, `[host]:port`, `[host]` or a host alone, whose port is None. Without brackets
    a text with several colons is a host alone, as an address of IPv6.

    Raises Refused where something else follows a bracket or the one colon."""
    given, answer = text_of(text), _header.Destination()
    done(LIBRARY.raf_host_and_port(*given, ctypes.byref(answer)))
    (host,) = parts_of(given[0], answer.host)
    return host.decode(), answer.port or None


def unreadable_host_line(known_hosts: BytesLike, host: str | BytesLike, port: int) -> int | None:
    """The number, from 1, of the first line of a text of known_hosts by which the host is HOST_UNREADABLE, and None where there is
    none. Raises Refused where the host is not UTF-8, ValueError for a port that is not from 0 to 65535, and MemoryError."""
    answer = ctypes.c_size_t()
    given = (*bytes_of(known_hosts), *text_of(host), number_of(port, 16))
    status = LIBRARY.raf_unreadable_host_line(*given, ctypes.byref(answer))
    if status == Status.END:
        return None
    done(status)
    return answer.value
