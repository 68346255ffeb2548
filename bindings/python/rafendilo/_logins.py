"""Who logs in by public key (RFC 4252, section 7), and what the login is bound to."""
from __future__ import annotations

import ctypes
from collections.abc import Callable, Iterable
from dataclasses import dataclass
from typing import Any, Union

from . import _header
from ._addresses import Address, packed
from ._header import FOREVER, Asks, Permits, PrincipalsFrom, SignedHow, Source, Status
from ._keys import question_in, string, strings
from ._library import LIBRARY, ask, bytes_of, digests_of, done, number_of, parts_of, span_of, spans_of, text_of, texts_of, written
from ._named import names_blobs
from ._values import IN_CERTIFICATE, BytesLike, InCertificate, Refused, Text
from ._verify import Verifier, is_signature

# the bytes of a buffer for what a login is bound to; a longer one is asked for again
OF_GRANT = 4096
# those that the questions take beside twice what they are about
BESIDE_QUESTIONS = 4608


# ---- what is asked about


@dataclass(frozen=True)
class Offer:
    """What a client offers in its request.

    user: whom to log in as
    algorithm: its name in the request: rsa-sha2-512 also for a key of ssh-rsa. Empty only where somebody else verifies the signature,
        and does not tell it
    blob: that of a key or of a certificate, as it was sent
    """

    user: str | BytesLike
    algorithm: str | BytesLike
    blob: BytesLike


@dataclass(frozen=True)
class SignedRequest:
    """The client's signature, about which log_in asks the verifier. The method is publickey-hostbound-v00@openssh.com where a host key is
    given, and else publickey.

    session_id: the server's own, and nothing that the client sent
    signature: its blob (RFC 4253, section 6.6)
    host_key: the blob of the server's own host key, and nothing that the client sent
    """

    session_id: BytesLike
    signature: BytesLike
    host_key: BytesLike | None = None


@dataclass(frozen=True)
class SignedByTransport:
    """Your SSH library verifies the client's signature, under the key that is offered and for this user, and lets nobody in without.

    flags: those of a security key's signature, 1 for touched and 4 for verified, and None where your library does not tell them
    """

    flags: int | None


@dataclass(frozen=True)
class SignedBySshd:
    """sshd verifies the client's signature, and looks at its flags: for programs that sshd runs, and for no server."""


# who has seen the client's signature
Signed = Union[SignedRequest, SignedByTransport, SignedBySshd]


@dataclass(frozen=True)
class Trusted:
    """Whom a server trusts, in the order in which sshd asks. Of texts each is what a file has, or UNREADABLE; empty where it is not there.

    authorized_keys: AuthorizedKeysFile: each text in its turn
    authorities: TrustedUserCAKeys: the fingerprints of the keys that may sign logins of all users
    principals: AuthorizedPrincipalsFile of this user, who need not stand there, or IN_CERTIFICATE. Of the first text that has a line for
        a principal, the first such line decides
    command_keys: AuthorizedKeysCommand: what it wrote, if it ended with 0
    revoked: what the files of RevokedKeys have, or NO_REVOCATIONS; without a file nobody is let in
    least_rsa_bits: RequiredRSASize; below 1,024, as 0, it is 1,024
    requires_touch: PubkeyAuthOptions: whether each security key has to be touched
    requires_verification: PubkeyAuthOptions: whether each has to verify its user
    """

    authorized_keys: Iterable[Text]
    authorities: Iterable[BytesLike]
    principals: InCertificate | Iterable[Text]
    command_keys: Iterable[Text]
    revoked: Iterable[BytesLike]
    least_rsa_bits: int = 0
    requires_touch: bool = False
    requires_verification: bool = False


@dataclass(frozen=True)
class Place:
    """Where a client is, and when it asks.

    client: the address of its socket; without one, what asks for one lets nobody in
    unix_timestamp: seconds since 1970
    host: the name that was found for the address (UseDNS), or none
    """

    client: Address | None
    unix_timestamp: int
    host: str | BytesLike = ""


def _offer_of(offer: Offer) -> _header.Offer:
    return _header.Offer(_header.Span(*text_of(offer.user)), _header.Span(*text_of(offer.algorithm)), span_of(offer.blob))


def _signed_of(signed: Signed) -> _header.Signed:
    if isinstance(signed, SignedRequest):
        host_key = b"" if signed.host_key is None else signed.host_key
        given = span_of(signed.session_id), span_of(host_key), span_of(signed.signature)
        return _header.Signed(*given, SignedHow.REQUEST, signed.host_key is not None, 0)
    if isinstance(signed, SignedByTransport) and signed.flags is not None:
        return _seen(SignedHow.WITH_FLAGS, number_of(signed.flags, 8))
    if isinstance(signed, SignedByTransport):
        return _seen(SignedHow.BY_TRANSPORT)
    if isinstance(signed, SignedBySshd):
        return _seen(SignedHow.BY_SSHD)
    raise TypeError("signed is a SignedRequest, a SignedByTransport or a SignedBySshd")


def _seen(how: int, flags: int = 0) -> _header.Signed:
    """Of a signature that is not here. By 0 nobody has seen one."""
    return _header.Signed(span_of(b""), span_of(b""), span_of(b""), how, 0, flags)


def _trusted_of(trusted: Trusted) -> _header.Trusted:
    is_listed = trusted.principals is IN_CERTIFICATE
    return _header.Trusted(
        authorized_keys=texts_of(trusted.authorized_keys), authorities=_header.Digests(*digests_of(trusted.authorities)),
        principals=texts_of([] if trusted.principals is IN_CERTIFICATE else trusted.principals), command_keys=texts_of(trusted.command_keys),
        revoked=spans_of(trusted.revoked), principals_from=PrincipalsFrom.IN_CERTIFICATE if is_listed else PrincipalsFrom.IN_FILES,
        least_rsa_bits=number_of(trusted.least_rsa_bits, 32), requires_touch=bool(trusted.requires_touch),
        requires_verification=bool(trusted.requires_verification),
    )  # fmt: skip


def _place_of(place: Place) -> _header.Place:
    return _header.Place(
        client=span_of(b"" if place.client is None else packed(place.client)), host=_header.Span(*text_of(place.host)),
        unix_timestamp=number_of(place.unix_timestamp, 64),
    )  # fmt: skip


# ---- what is answered


@dataclass(frozen=True)
class Grant:
    """What a login is let in by, and what it may do. Of a plain key serial and authority are zero, and key_id is empty.

    permits: what it may do, and what it need not
    shown_command: to be shown: the one command that runs; None with Permits.ANY_COMMAND. What runs is said by runs
    source: by what it is let in
    text: the number of the text that lets in among its like, from 0
    line: the number of the line, from 1; 0 where the certificate alone lets in
    key: the fingerprint of the plain key, also of one in a certificate: who wants two methods in a row refuses one that was taken before
    key_id: the certificate's, for logs: a text of the authority's
    serial: the certificate's
    authority: the fingerprint of the key that signed it
    permit_open: to be shown: the hosts and ports to which ports may be forwarded; "*" and None where it is any. may_open reads them
    permit_listen: likewise where may be listened, which may_listen reads
    environment: NAME=VALUE each; by its defaults sshd sets none
    expires: the first and the last second that may be the last at which the line counts; None: at any
    tunnel: the only device of tun(4); None with Permits.ANY_TUNNEL, and without Permits.TUNNELS
    """

    permits: Permits
    shown_command: str | None
    source: Source
    text: int
    line: int
    key: bytes
    key_id: str
    serial: int
    authority: bytes
    permit_open: list[tuple[str, int | None]]
    permit_listen: list[tuple[str, int | None]]
    environment: list[str]
    expires: tuple[int, int] | None
    tunnel: int | None

    def runs(self, asked: str | None) -> str | None:
        """What runs where the client asks for that command, or for a shell (None): the grant's command, which may be empty, and else
        what the client asks for. None is a shell."""
        buffer, length = text_of(self.shown_command or "")
        grant = _header.Grant(force_command=_header.Part(0, length), permits=int(self.permits))
        command, enough = text_of(asked or "")
        given = ctypes.byref(grant), buffer, length, command, enough, asked is not None
        try:
            return written(lambda *to: LIBRARY.raf_runs(*given, *to), length + enough).decode()
        except Refused as refused:
            if refused.status != Status.END:
                raise
            return None

    def may_open(self, host: str | BytesLike, port: int) -> bool:
        """Whether the client may have a port forwarded to that host and port, as its request names them ("direct-tcpip"). Raises
        ValueError for a number that is no port's field."""
        buffer, length = bytes_of(_places_in(self.permit_open))
        grant = _header.Grant(permit_open=_header.Part(0, length), permits=int(self.permits))
        answer: int = LIBRARY.raf_may_open(ctypes.byref(grant), buffer, length, *text_of(host), number_of(port, 32))
        return answer == Status.DONE

    def may_listen(self, host: str | BytesLike, port: int) -> bool:
        """Whether it may have the server listen at that host and port, likewise ("tcpip-forward"). As the request has them, "",
        "localhost" and "127.0.0.1" are three hosts; port 0 is permitted where any port is."""
        buffer, length = bytes_of(_places_in(self.permit_listen))
        grant = _header.Grant(permit_listen=_header.Part(0, length), permits=int(self.permits))
        answer: int = LIBRARY.raf_may_listen(ctypes.byref(grant), buffer, length, *text_of(host), number_of(port, 32))
        return answer == Status.DONE


def _grant_of(answer: _header.Grant, buffer: bytes) -> Grant:
    permits, (command, key_id) = Permits(answer.permits), (it.decode() for it in parts_of(buffer, answer.force_command, answer.key_id))
    to_open, to_listen, environment = map(strings, parts_of(buffer, answer.permit_open, answer.permit_listen, answer.environment))
    expires = answer.expires.first, answer.expires.last
    return Grant(
        permits=permits, shown_command=None if Permits.ANY_COMMAND in permits else command, source=Source(answer.source),
        text=answer.text, line=answer.line, key=bytes(answer.key.bytes), key_id=key_id, serial=answer.serial,
        authority=bytes(answer.authority.bytes), permit_open=_places_of(to_open), permit_listen=_places_of(to_listen),
        environment=[it.decode() for it in environment], expires=None if expires[0] == FOREVER else expires,
        tunnel=answer.tunnel if Permits.TUNNELS in permits and Permits.ANY_TUNNEL not in permits else None,
    )  # fmt: skip


def _places_of(found: list[bytes]) -> list[tuple[str, int | None]]:
    """Hosts and ports, which stand one after the other. A port of no bytes is any."""
    return [(host.decode(), int.from_bytes(port, "big") if port else None) for host, port in zip(found[::2], found[1::2])]


def _places_in(places: Iterable[tuple[str, int | None]]) -> bytes:
    """The bytes that these are."""
    return b"".join(string(host) + string(b"" if port is None else number_of(port, 16).to_bytes(2, "big")) for host, port in places)


# ---- the calls


@names_blobs
def log_in(offer: Offer, signed: Signed, trusted: Trusted, place: Place, verifier: Verifier = is_signature) -> Grant:
    """What the login is let in by, and what it may do, exactly if whoever holds the key that is offered, by itself or in a certificate,
    has signed with it and is let in, as sshd does by its method publickey, or more strictly (docs/OPENSSH.md). Asks the library what has
    to be verified, the verifier, where nothing else is wrong, and the library again, over copies that nobody changes.

    Raises Refused, which says what is wrong first, and in which line of which text; MemoryError; ValueError for a number that does not
    fit its field, or a fingerprint of another length; TypeError where a file was not read (None), and where nothing says who has seen
    the signature. To keep to the grant is yours."""
    asked = _header.Login(_offer_of(offer), _signed_of(signed), _trusted_of(trusted), _place_of(place))
    ticket, answers = _answers(LIBRARY.raf_log_in_questions, asked, verifier)
    answer, given = _header.Grant(), (ctypes.byref(asked), ctypes.byref(ticket), answers)
    try:
        buffer = ask(lambda *buffer: LIBRARY.raf_log_in(*given, *buffer), answer, OF_GRANT)
    except Refused as refused:
        raise Refused(refused.status, answer.line, answer.text, answer.source) from None
    return _grant_of(answer, buffer)


@names_blobs
def may_offer(offer: Offer, trusted: Trusted, place: Place, verifier: Verifier = is_signature) -> None:
    """Returns exactly if what is offered lets in whoever signs with it: the query without a signature (RFC 4252, section 7). It grants
    nothing. Raises what log_in raises, but says nothing of a client's signature."""
    asked = _header.Login(_offer_of(offer), _seen(0), _trusted_of(trusted), _place_of(place))
    ticket, answers = _answers(LIBRARY.raf_may_offer_questions, asked, verifier)
    done(LIBRARY.raf_may_offer(ctypes.byref(asked), ctypes.byref(ticket), answers))


def _answers(call: Callable[..., int], asked: _header.Login, verifier: Verifier) -> tuple[_header.Sha256, int]:
    """The ticket of the questions of a login, and the sum of those to which the verifier says yes; after a no it is asked nothing more.
    Where something else is wrong nothing is asked: then that is no ticket, and what is wrong says the call that decides."""
    answer, signed = _header.LoginQuestions(), asked.signed_by
    given = (asked.offer.user, asked.offer.blob, signed.session_id, signed.host_key, signed.signature)
    try:
        buffer = ask(lambda *buffer: call(ctypes.byref(asked), *buffer), answer, 2 * sum(it.length for it in given) + BESIDE_QUESTIONS)
    except Refused:
        return answer.ticket, 0
    yes = 0
    for bit, question in ((Asks.AUTHORITY, answer.authority), (Asks.CLIENT, answer.client)):
        if answer.asked & bit and verifier(question_in(buffer, question)) is not True:
            break
        yes |= answer.asked & bit
    return answer.ticket, yes
