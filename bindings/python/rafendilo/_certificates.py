"""Certificates: whether they are valid, what they say, and how they are made."""
from __future__ import annotations

import ctypes
import os
from collections.abc import Callable, Iterable, Mapping
from types import MappingProxyType

from ._header import FOREVER, CertificateOptionParts, CertificateType, Draft, Fields, Parts, Span, Status
from ._keys import question_of, string, strings
from ._library import LIBRARY, bytes_of, digests_of, done, number_of, parts_of, text_of, written
from ._named import names_blobs
from ._values import ALL_PRINCIPALS, AllPrincipals, BytesLike, CertificateFields, Contents, Question, Refused
from ._verify import Verifier, is_signature


@names_blobs
def certificate_question(certificate: BytesLike) -> Question:
    """What has to be verified of a certificate, given as its blob. Raises Refused where the bytes are none, or where key and
    signature do not go together, and MemoryError."""
    given = bytes_of(certificate)
    return question_of(lambda *buffer: LIBRARY.raf_certificate_question(*given, *buffer), 2 * given[1] + 256)


def is_certified(certificate: bytes, verifier: Verifier) -> bool:
    """Whether the certificate raises a question to which the verifier says yes."""
    try:
        question = certificate_question(certificate)
    except Refused:
        return False
    return verifier(question) is True


def check_certificate_with_answer(
    certificate: BytesLike, now: int, authorities: Iterable[BytesLike], is_verified: bool,
    principal: str | BytesLike | None = None,
) -> Status:  # fmt: skip
    """Status.DONE exactly if the certificate is valid at that second, which has to be at most 2^63 - 1, for one of the
    authorities, which are fingerprints of 32 bytes, and for the principal if one is given; else what is wrong first. None asks
    about no principal: never pass a user that may be None. `is_verified` is what your verification said of the question of this
    very certificate, True or False, and False where it raised none; anything but True is a no.

    Raises ValueError for a second that is not from 0 to 2^64 - 1 and for a fingerprint of another length, and MemoryError."""
    second = number_of(now, 64)
    whom = () if principal is None else text_of(principal)
    validate = LIBRARY.raf_check_certificate if principal is None else LIBRARY.raf_check_certificate_for
    given = (*bytes_of(certificate), second, *whom, *digests_of(authorities))
    status = Status(validate(*given, 1 if is_verified is True else 0))
    if status == Status.MEMORY:
        raise MemoryError
    return status


@names_blobs
def check_certificate(
    certificate: BytesLike, unix_timestamp: int, authorities: Iterable[BytesLike], principal: str | BytesLike | None = None,
    verifier: Verifier = is_signature,
) -> None:  # fmt: skip
    """Returns exactly if the certificate is valid, as check_certificate_with_answer takes it, and raises what that raises; else Refused, which
    says what is wrong first, and first UNTRUSTED_AUTHORITY, so that no cryptography runs over a key that somebody made up.

    That is no login: whose key it certifies, its type, its options and revocations are not looked at. log_in does that, and
    check_host_certificate."""
    given, by = bytes_of(certificate)[0], list(authorities)
    if check_certificate_with_answer(given, unix_timestamp, by, True, principal) == Status.UNTRUSTED_AUTHORITY:
        raise Refused(Status.UNTRUSTED_AUTHORITY)
    done(check_certificate_with_answer(given, unix_timestamp, by, is_certified(given, verifier), principal))


# ---- what a certificate says


@names_blobs
def certificate_fields(certificate: BytesLike) -> CertificateFields:
    """What a policy asks of a certificate, valid or not. Raises Refused where the bytes are none."""
    answer = Fields()
    done(LIBRARY.raf_certificate_fields(*bytes_of(certificate), ctypes.byref(answer)))
    return CertificateFields(
        answer.serial, answer.valid_after, answer.valid_before, CertificateType(answer.certificate_type),
        answer.lists_principals != 0, answer.has_critical_options != 0,
    )  # fmt: skip


def options(blob: BytesLike) -> dict[str, str]:
    """The names and values of the critical options or of the extensions that the bytes are. Raises Refused where they are none,
    UnicodeDecodeError, which is a ValueError, where one is not UTF-8, and ValueError where two have one name: in a certificate all
    are UTF-8, and each has a name of its own."""
    found: dict[str, str] = {}
    place, option = 0, CertificateOptionParts()
    data, length = bytes_of(blob)
    while (status := LIBRARY.raf_next_certificate_option(data, length, place, ctypes.byref(option))) != Status.END:
        done(status)
        place = option.next
        name, value = (it.decode() for it in parts_of(data, option.name, option.value))
        if name in found:
            raise ValueError(f"two options have the name {name!r}")
        found[name] = value
    return found


@names_blobs
def certificate_contents(certificate: BytesLike) -> Contents:
    """What a certificate lists, valid or not. Raises Refused where the bytes are none, and MemoryError."""
    given, parts = bytes_of(certificate), Parts()
    done(LIBRARY.raf_certificate_parts(*given, ctypes.byref(parts)))
    key_id, principals, critical_options, extensions, authority = parts_of(
        given[0], parts.key_id, parts.principals, parts.critical_options, parts.extensions, parts.authority
    )
    return Contents(
        key_id.decode(), tuple(it.decode() for it in strings(principals)), MappingProxyType(options(critical_options)),
        MappingProxyType(options(extensions)), written(lambda *buffer: LIBRARY.raf_certificate_key(*given, *buffer), given[1]),
        authority,
    )  # fmt: skip


# ---- how a certificate is made


def _text(text: str) -> bytes:
    """The bytes of a text. Raises TypeError where it is none."""
    if not isinstance(text, str):
        raise TypeError(f"{text!r} is no text")
    return text.encode()


def _listed(values: Mapping[str, str] | None) -> bytes:
    """Names and values of options as a certificate lists them: by rising names."""
    given = sorted((_text(name), value) for name, value in (values or {}).items())
    return b"".join(string(name) + string(string(value) if value else b"") for name, value in given)


def _joined(principals: Iterable[str] | AllPrincipals) -> bytes:
    """The principals as a certificate lists them. One name alone is no list, though its letters would be names, too."""
    if principals is ALL_PRINCIPALS:
        return b""
    if principals is None or isinstance(principals, (str, bytes, bytearray, memoryview)):
        raise TypeError("principals is a list of names")
    return b"".join(map(_name, principals))


def _name(principal: str | BytesLike) -> bytes:
    """The string of a principal. Raises ValueError for one with a zero byte: sshd takes the name to end there."""
    name = string(principal)
    if 0 in name[4:]:
        raise ValueError(f"a zero byte stands in the principal {principal!r}")
    return name


@names_blobs
def certificate_to_be_signed(
    key: BytesLike, authority: BytesLike, *, principals: Iterable[str] | AllPrincipals,
    certificate_type: int = CertificateType.USER, key_id: str = "", serial: int = 0, valid_after: int = 0,
    valid_before: int = FOREVER, critical_options: Mapping[str, str] | None = None,
    extensions: Mapping[str, str] | None = None, nonce: BytesLike | None = None,
) -> bytes:  # fmt: skip
    """The bytes that the authority has to sign for a certificate of the key, which are given as their blobs; join_certificate
    makes the certificate of them and the signature.

    `principals` is a list of names, or ALL_PRINCIPALS for a certificate that is for everybody. The window is the seconds from
    `valid_after` on and before `valid_before`. Options are names with their values. The nonce is random unless one is given. Give
    a `serial` of its own to each: to OpenSSH 0 is none, and a list of revoked keys (KRL) can't name it.

    Raises Refused where these tell no certificate: PRINCIPALS for an empty list, LABEL for a key that has a private-use name.
    Raises ValueError for a number that does not fit its field, and for a principal with a zero byte, which sshd takes to end
    there, and so for another user's; TypeError for a single name or None in place of the list, and MemoryError."""
    texts = {
        "key": key, "nonce": nonce or os.urandom(32), "key_id": _text(key_id), "authority": authority,
        "principals": _joined(principals), "critical_options": _listed(critical_options), "extensions": _listed(extensions),
    }  # fmt: skip
    copies = {name: bytes_of(text) for name, text in texts.items()}
    draft = Draft(
        **{name: Span(*copy) for name, copy in copies.items()}, serial=number_of(serial, 64),
        valid_after=number_of(valid_after, 64), valid_before=number_of(valid_before, 64),
        certificate_type=number_of(certificate_type, 32), all_principals=principals is ALL_PRINCIPALS,
    )  # fmt: skip
    given = ctypes.byref(draft)
    return written(lambda *buffer: LIBRARY.raf_certificate_to_be_signed(given, *buffer), 1024)


def join_certificate(to_be_signed: BytesLike, signature: BytesLike) -> bytes:
    """The certificate that the signature's blob (RFC 4253, section 6.6) makes of the bytes that were signed. Raises Refused where
    that is none, and MemoryError. Whether the signature is one of the authority is not asked here: certificate_question asks
    it."""
    given = (*bytes_of(to_be_signed), *bytes_of(signature))
    return written(lambda *buffer: LIBRARY.raf_certificate_make(*given, *buffer), given[1] + given[3] + 4)


def make_certificate(
    key: BytesLike, authority: BytesLike, sign: Callable[[bytes], BytesLike], *, principals: Iterable[str] | AllPrincipals,
    certificate_type: int = CertificateType.USER, key_id: str = "", serial: int = 0, valid_after: int = 0,
    valid_before: int = FOREVER, critical_options: Mapping[str, str] | None = None,
    extensions: Mapping[str, str] | None = None, nonce: BytesLike | None = None,
) -> bytes:  # fmt: skip
    """The blob of a certificate of the key by the authority: certificate_to_be_signed, which says what it takes and raises, and
    join_certificate. Give it a `serial` other than 0, or it can't be revoked by its number. In between `sign` is called with the
    bytes that are to be signed, and gives the signature's blob: string("ssh-ed25519") + string(what Ed25519 makes), for
    example."""
    to_be_signed = certificate_to_be_signed(
        key, authority, principals=principals, certificate_type=certificate_type, key_id=key_id, serial=serial,
        valid_after=valid_after, valid_before=valid_before, critical_options=critical_options, extensions=extensions, nonce=nonce,
    )  # fmt: skip
    return join_certificate(to_be_signed, sign(to_be_signed))
