"""Where a client may come from: `source-address` of certificates and `from` of authorized_keys."""
from __future__ import annotations

import ipaddress
from typing import Union

from ._header import Status
from ._library import LIBRARY, bytes_of, done, text_of
from ._values import BytesLike

Address = Union[str, ipaddress.IPv4Address, ipaddress.IPv6Address]


def check_source_address(source_address: str | BytesLike, address: Address) -> bool:
    """Whether the list, the value of a certificate's critical option `source-address`, lets a client in from the address of its
    socket. `::ffff:10.1.2.3` is 10.1.2.3, and an address of fe80::/10 is in no network, as to sshd.

    Raises Refused where the list is malformed, which sshd refuses too, or not UTF-8, and ValueError where the text is no address."""
    return _allowed(LIBRARY.raf_check_source_address(*text_of(source_address), *bytes_of(packed(address))))


def check_from(listed: str | BytesLike, address: Address, host: str | BytesLike = "") -> bool:
    """Whether the list, the value of the option `from` of a line of authorized_keys, lets a client in from the address of its
    socket. The host is its name in the DNS, if it was looked up and looked up back. Go on to the next line where it is False.

    Raises Refused where the list is malformed, an address of fe80::/10, or of ::/96 beyond :: and ::1, may have another text to
    sshd, or the host's name is like an address: refuse the login then, since sshd may let in by this line. Raises ValueError where
    the text is no address, and MemoryError."""
    return _allowed(LIBRARY.raf_check_from(*text_of(listed), *text_of(host), *bytes_of(packed(address))))


def packed(address: Address) -> bytes:
    """The bytes of an address. Raises ValueError where the text is none."""
    return ipaddress.ip_address(address).packed


def _allowed(status: int) -> bool:
    if status == Status.ELSEWHERE:
        return False
    done(status)
    return True
