"""Certificates, signatures, keys, revocation lists, authorized_keys and known_hosts of OpenSSH, by the proved library that
include/rafendilo.h declares.

A login by public key is one call, which decides as sshd does, and has the client's signature in it:

    grant = rafendilo.log_in(
        rafendilo.Offer("alice", algorithm, blob), rafendilo.SignedRequest(session_id, signature),
        rafendilo.Trusted(authorized_keys=[text], authorities=[], principals=rafendilo.IN_CERTIFICATE,
                          command_keys=[], revoked=rafendilo.NO_REVOCATIONS),
        rafendilo.Place(address, int(time.time())))

It asks the library what has to be verified, a verifier whether that is a signature, and the library again, over copies that nobody
changes. The verifier is a function that you may give; else the package `cryptography` is it, which nothing else here imports.
may_offer answers the query without a signature, check_host_key and check_host_certificate say whether a host is trusted.
rafendilo.asyncssh and rafendilo.paramiko have both for servers and clients over these packages.

Each call says what it raises: Refused, which is a ValueError, where what is given is not what it has to be, and MemoryError, of
which nothing follows about it. All raise TypeError for a text in place of bytes and for a number that is not whole, and
UnicodeEncodeError, a ValueError too, for a text that UTF-8 can't write.

The library is the file that RAFENDILO_LIBRARY names in the environment, or else the one that a wheel has, in the sources
out/librafendilo.so (`make` builds it), or else the system's. Whoever sets RAFENDILO_LIBRARY has their code run: it is ignored where
the effective and the real user or group differ, and a helper that keeps its caller's environment in another way has to clear it.
A library of another ABI, or without one of the calls, is refused: OSError, when this package is imported. Calls from several
threads at once are fine.

The calls:
"""
import inspect as _inspect
import textwrap as _textwrap

from ._addresses import Address, check_from, check_source_address
from ._authorities import Authorities, NoKey, authorities, is_later_key_line, names_later_kind, user_authorities
from ._certificates import (
    certificate_contents,
    certificate_fields,
    certificate_question,
    certificate_to_be_signed,
    join_certificate,
    check_certificate,
    make_certificate,
    options,
    check_certificate_with_answer,
)
from ._files import (
    authorized_entry,
    entry_lines,
    line_options,
    known_host,
    line_may_name_authority,
    line_may_name_key,
    is_safe_mode,
)
from ._header import FOREVER, Algorithm, CertificateType, KnownBy, Marker, Permits, Source, Status
from ._hosts import HeldHosts, HostLogin, check_host_certificate, check_host_key, host_and_port, unreadable_host_line
from ._keys import (
    fingerprint,
    fingerprint_sha512,
    fingerprint_sha512_text,
    fingerprint_text,
    may_verify,
    normal_certificate,
    normal_key,
    normal_signature,
    normal_sshsig,
    random_art,
    read_armour,
    read_line,
    signature_question,
    sshsig_hash,
    sshsig_question,
    sshsig_question_of_digest,
    sshsig_reserved,
    string,
    strings,
)
from ._logins import Grant, Offer, Place, Signed, SignedByTransport, SignedBySshd, SignedRequest, Trusted, log_in, may_offer
from ._revocations import check_unrevoked_certificate_by_krl, check_unrevoked_key_by_krl, check_unrevoked_certificate, check_unrevoked_key
from ._ssh import known_hosts_of_ssh
from ._signers import Signers, check_signer_of_digest, check_sshsig, check_sshsig_of_digest, check_signer_with_answer, check_sshsig_with_answer
from ._times import read_time
from ._values import (
    ALL_PRINCIPALS,
    IN_CERTIFICATE,
    NO_REVOCATIONS,
    UNREADABLE,
    AllPrincipals,
    AuthorizedEntry,
    BytesLike,
    CertificateFields,
    Contents,
    InCertificate,
    KnownHost,
    Line,
    Question,
    Refused,
    Text,
    Unreadable,
)
from ._verify import Verifier, is_signature

__version__ = "0.3.0"

__all__ = [
    "ALL_PRINCIPALS", "FOREVER", "IN_CERTIFICATE", "NO_REVOCATIONS", "UNREADABLE", "Address", "Algorithm", "AllPrincipals",
    "Authorities", "AuthorizedEntry", "BytesLike", "CertificateFields", "CertificateType", "Contents", "Grant", "HeldHosts",
    "HostLogin", "InCertificate", "KnownBy", "KnownHost", "Line", "Marker", "NoKey", "Offer", "Permits", "Place", "Question", "Refused",
    "Signed", "SignedBySshd", "SignedByTransport", "SignedRequest", "Signers", "Source", "Status", "Text", "Trusted", "Unreadable",
    "Verifier", "authorities", "authorized_entry", "certificate_contents", "certificate_fields", "certificate_question",
    "certificate_to_be_signed", "check_certificate", "check_certificate_with_answer", "check_from", "check_host_certificate",
    "check_host_key", "check_signer_of_digest", "check_signer_with_answer", "check_source_address", "check_sshsig",
    "check_sshsig_of_digest", "check_sshsig_with_answer", "check_unrevoked_certificate", "check_unrevoked_certificate_by_krl",
    "check_unrevoked_key", "check_unrevoked_key_by_krl", "entry_lines", "fingerprint", "fingerprint_sha512",
    "fingerprint_sha512_text", "fingerprint_text", "host_and_port", "is_later_key_line", "is_safe_mode", "is_signature",
    "join_certificate", "known_host", "known_hosts_of_ssh", "line_may_name_authority", "line_may_name_key", "line_options",
    "log_in", "make_certificate", "may_offer", "may_verify", "names_later_kind", "normal_certificate", "normal_key",
    "normal_signature", "normal_sshsig", "options", "random_art", "read_armour", "read_line", "read_time", "signature_question",
    "sshsig_hash", "sshsig_question", "sshsig_question_of_digest", "sshsig_reserved", "string", "strings", "unreadable_host_line",
    "user_authorities",
]  # fmt: skip


def _listed(name: str) -> str:
    """The call of that name, or nothing of another, with the first sentence of what is said of it."""
    call = globals()[name]
    first = " ".join(str(call.__doc__).split()).partition(". ")[0].rstrip(".")
    return _textwrap.fill(f"{name}: {first}.", 130, subsequent_indent="    ") + "\n" if _inspect.isfunction(call) else ""


# before the classes, which help has first, with all that numbers have; without texts there are none (-OO)
if __doc__:
    __doc__ = f"{__doc__}\n{''.join(map(_listed, sorted(__all__)))}"
