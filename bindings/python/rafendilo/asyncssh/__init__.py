"""Logins of servers over the package asyncssh, and host keys of its clients, as rafendilo decides them.

    await asyncssh.create_server(lambda: rafendilo.asyncssh.Server(trusted), port=22, server_host_keys=[..], process_factory=..)
    await asyncssh.connect(host, client_factory=lambda: rafendilo.asyncssh.KnownHosts(texts, revoked), known_hosts=([], [], []))

asyncssh asks about a key, or about who signed a certificate; here a method of each connection is replaced, so that the whole certificate
and the signature are asked about. It takes names that asyncssh keeps for itself (of 2.10.1): without one of them nobody is let in, and no
host is trusted.
"""
from __future__ import annotations

import functools
import logging
import time
from collections.abc import Iterable
from typing import Any, Awaitable, Callable, Union

import asyncssh
from asyncssh.packet import SSHPacket

from .. import BytesLike, Grant, HostLogin, Offer, Permits, Refused, SignedRequest, Trusted
from .. import check_host_certificate, check_host_key, is_signature, log_in, may_offer
from .._servers import place_now
from .._verify import Verifier

__all__ = ["KnownHosts", "Server"]

LOG = logging.getLogger(__name__)
# what a line of authorized_keys forbids to asyncssh, by the option that does
FORBIDDEN = {
    "no-pty": Permits.PTY, "no-port-forwarding": Permits.PORT_FORWARDING, "no-agent-forwarding": Permits.AGENT_FORWARDING,
    "no-X11-forwarding": Permits.X11_FORWARDING, "no-user-rc": Permits.USER_RC,
}  # fmt: skip
# whom the server trusts where a user asks
TrustedBy = Callable[[str], Union[Trusted, Awaitable[Trusted]]]


class Server(asyncssh.SSHServer):
    """A server that lets in by public key alone, exactly whom log_in lets in, by the client's signature and its flags.

    trusted: whom it trusts where a user asks; it is asked at each request, so that it can read the files anew
    verifier: as log_in takes it

    A session has the grant: `process.get_extra_info("grant")`. asyncssh itself keeps to its command, its terminal, its agent and X11, and
    to where ports may be forwarded; ask `may_listen` in server_requested. Who is refused, and why, is logged.

    connection_made of a class over this one has to call this one's; else nobody is let in.
    """

    def __init__(self, trusted: TrustedBy, verifier: Verifier = is_signature) -> None:
        self._trusted, self._verifier = trusted, verifier

    def connection_made(self, conn: asyncssh.SSHServerConnection) -> None:
        setattr(conn, "validate_public_key", functools.partial(self._validate, conn))

    def public_key_auth_supported(self) -> bool:
        return True

    def validate_gss_principal(self, username: str, user_principal: str, host_principal: str) -> bool:
        return False

    async def _validate(self, conn: Any, username: str, key_data: bytes, msg: bytes, signature: bytes) -> bool:
        """Whether the client is let in, or, without a message, whether who signs would be."""
        told = self._trusted(username)
        trusted = told if isinstance(told, Trusted) else await told
        # meanwhile the client may have asked as another user, whom asyncssh takes it for
        if username != conn._username:
            return False
        place = place_now(conn.get_extra_info("peername"))
        try:
            if msg:
                offer, signed = Offer(username, _algorithm_in(msg), key_data), SignedRequest(conn._session_id, signature)
                _bind(conn, log_in(offer, signed, trusted, place, self._verifier))
            else:
                may_offer(Offer(username, "", key_data), trusted, place, self._verifier)
        except Refused as refused:
            LOG.info("%r is not let in: %s", username, refused)
            return False
        return True


def _bind(conn: Any, grant: Grant) -> None:
    """Has the session have the grant, and asyncssh keep to it, as to the options of a line."""
    conn.set_extra_info(grant=grant)
    options: dict[str, object] = {name: True for name, permit in FORBIDDEN.items() if permit not in grant.permits}
    options["permitopen"] = _Places(grant)
    if (command := grant.runs(None)) is not None:
        options["command"] = command
    setattr(conn, "get_key_option", lambda option, default=None: options.get(option, default))
    setattr(conn, "check_key_permission", lambda permission: f"no-{permission}" not in options)


class _Places:
    """The places where the grant lets ports be forwarded."""

    def __init__(self, grant: Grant) -> None:
        self._grant = grant

    def __contains__(self, place: tuple[str, int | None]) -> bool:
        host, port = place
        # asyncssh also asks about any port
        return port is not None and self._grant.may_open(host, port)


def _algorithm_in(request: bytes) -> bytes:
    """The algorithm that a request names (RFC 4252, section 7). What is signed has to be the same request."""
    packet = SSHPacket(request)
    packet.get_byte()
    for _ in ("user", "service", "method"):
        packet.get_string()
    packet.get_boolean()
    return packet.get_string()


class KnownHosts(asyncssh.SSHClient):
    """A client that goes on only with a host that check_host_key or check_host_certificate trusts.

    known_hosts: the texts of all the files that count (known_hosts_of_ssh)
    revoked: what the files of ssh's RevokedHostKeys have, or NO_REVOCATIONS
    verifier: as check_host_certificate takes it

    Give asyncssh.connect known_hosts=([], [], []), by which asyncssh itself trusts nobody: else its own files count too. It raises
    HostKeyNotVerifiable.

    connection_made of a class over this one has to call this one's; else no host is trusted.
    """

    def __init__(self, known_hosts: Iterable[BytesLike], revoked: Iterable[BytesLike], verifier: Verifier = is_signature) -> None:
        self._known_hosts, self._revoked, self._verifier = list(known_hosts), list(revoked), verifier
        self._is_known = False

    def connection_made(self, conn: asyncssh.SSHClientConnection) -> None:
        setattr(conn, "validate_server_host_key", functools.partial(self._validate, conn, conn.validate_server_host_key))

    def validate_host_public_key(self, host: str, addr: str, port: int, key: asyncssh.SSHKey) -> bool:
        return self._is_known

    def validate_host_ca_key(self, host: str, addr: str, port: int, key: asyncssh.SSHKey) -> bool:
        return self._is_known

    def _validate(self, conn: Any, validate: Callable[[bytes], asyncssh.SSHKey], key_data: bytes) -> asyncssh.SSHKey:
        """The key of a host that is known, which asyncssh asks for at each exchange of keys."""
        self._is_known = False
        host = HostLogin(self._known_hosts, conn._host, conn._port, self._revoked, int(time.time()))
        try:
            if _is_certificate(key_data):
                check_host_certificate(host, key_data, self._verifier)
            else:
                check_host_key(host, key_data)
        except Refused as refused:
            raise asyncssh.HostKeyNotVerifiable(str(refused)) from refused
        self._is_known = True
        return validate(key_data)


def _is_certificate(blob: bytes) -> bool:
    """Whether its name is a certificate's: of other bytes the calls say what they are not."""
    return SSHPacket(blob).get_string().endswith(b"-cert-v01@openssh.com")
