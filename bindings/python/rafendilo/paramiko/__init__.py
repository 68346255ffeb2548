"""Logins of servers over the package paramiko, and host keys of its clients, as rafendilo decides them.

    transport.start_server(server=rafendilo.paramiko.Server(transport, trusted))
    client.set_missing_host_key_policy(rafendilo.paramiko.KnownHosts(texts, revoked))
"""
from __future__ import annotations

import logging
import time
from collections.abc import Callable, Iterable
from typing import Any

import paramiko  # type: ignore[import]

from .. import BytesLike, Grant, HostLogin, Offer, Refused, SignedByTransport, SignedRequest, Trusted
from .. import check_host_certificate, check_host_key, host_and_port, is_signature, log_in
from .._servers import place_now
from .._verify import Verifier

__all__ = ["KnownHosts", "Server"]

LOG = logging.getLogger(__name__)
SSH_PORT = 22


class Server(paramiko.ServerInterface):  # type: ignore[misc]
    """A server that lets in by public key alone, exactly whom log_in lets in.

    transport: the client's
    trusted: whom it trusts where a user asks; it is asked at each request, so that it can read the files anew
    verifier: as log_in takes it

    `grant` is what the login is bound to, once the client has signed, and None before: let a class over this one ask it in each
    check_channel_ method. paramiko reads no security key, so none is let in. Who is refused, and why, is logged.
    """

    def __init__(self, transport: Any, trusted: Callable[[str], Trusted], verifier: Verifier = is_signature) -> None:
        self.grant: Grant | None = None
        self._transport, self._trusted, self._verifier = transport, trusted, verifier

    def get_allowed_auths(self, username: str) -> str:
        return "publickey"

    def check_auth_publickey(self, username: str, key: Any) -> int:
        """What paramiko asks before it has the key verify the signature, if there is one: where it says no, nothing is verified."""
        self.grant = None
        blob = _blob_of(key)
        # paramiko tells neither the algorithm nor flags
        if self._granted(Offer(username, "", blob), SignedByTransport(None)) is None:
            return int(paramiko.AUTH_FAILED)

        def verify(request: bytes, signature: Any) -> bool:
            offer = Offer(username, _algorithm_in(request), blob)
            self.grant = self._granted(offer, SignedRequest(self._transport.session_id, signature.asbytes()))
            return self.grant is not None

        # the key is one that paramiko has made for this request
        key.verify_ssh_sig = verify
        return int(paramiko.AUTH_SUCCESSFUL)

    def _granted(self, offer: Offer, signed: SignedByTransport | SignedRequest) -> Grant | None:
        """What the login is bound to, or None."""
        try:
            return log_in(offer, signed, self._trusted(str(offer.user)), place_now(self._transport.getpeername()), self._verifier)
        except Refused as refused:
            LOG.info("%r is not let in: %s", offer.user, refused)
            return None


def _blob_of(key: Any) -> bytes:
    """That of the key, or of the certificate as which it was shown."""
    return bytes(key.public_blob.key_blob if key.public_blob else key.asbytes())


def _algorithm_in(request: bytes) -> bytes:
    """The algorithm that a request names, as it is signed (RFC 4252, section 7)."""
    message = paramiko.Message(request)
    message.get_binary()
    message.get_byte()
    for _ in ("user", "service", "method"):
        message.get_binary()
    message.get_boolean()
    return bytes(message.get_binary())


class KnownHosts(paramiko.MissingHostKeyPolicy):  # type: ignore[misc]
    """Has a client go on only with a host that check_host_key or check_host_certificate trusts; else connect raises Refused.

    known_hosts: the texts of all the files that count (known_hosts_of_ssh)
    revoked: what the files of ssh's RevokedHostKeys have, or NO_REVOCATIONS
    verifier: as check_host_certificate takes it

    Have the client load no host keys itself (load_host_keys, load_system_host_keys): of a host that it has, it does not ask here.
    """

    def __init__(self, known_hosts: Iterable[BytesLike], revoked: Iterable[BytesLike], verifier: Verifier = is_signature) -> None:
        self._known_hosts, self._revoked, self._verifier = list(known_hosts), list(revoked), verifier

    def missing_host_key(self, client: Any, hostname: str, key: Any) -> None:
        # without brackets where the port is ssh's
        host, port = host_and_port(hostname)
        login = HostLogin(self._known_hosts, host, port or SSH_PORT, self._revoked, int(time.time()))
        if key.public_blob:
            check_host_certificate(login, _blob_of(key), self._verifier)
        else:
            check_host_key(login, _blob_of(key))
