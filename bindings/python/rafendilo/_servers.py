"""What rafendilo.asyncssh and rafendilo.paramiko share: the package itself needs neither of these packages."""
from __future__ import annotations

import ipaddress
import time
from typing import Any

from ._addresses import Address
from ._logins import Place


def place_now(peer: Any) -> Place:
    """Where a client is whose socket has that name (getpeername(2)), and the time."""
    return Place(_address_in(peer), int(time.time()))


def _address_in(peer: Any) -> Address | None:
    """The address in a socket's name, which is not known where that is none of the Internet."""
    if not isinstance(peer, tuple):
        return None
    try:
        # the zone of an address is no part of it
        return ipaddress.ip_address(str(peer[0]).partition("%")[0])
    except ValueError:
        return None
