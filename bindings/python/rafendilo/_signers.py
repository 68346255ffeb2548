"""Whether an SSH signature counts: by the keys that are trusted for its namespace, or by a text of allowed signers."""
from __future__ import annotations

from collections.abc import Callable, Collection, Iterable
from dataclasses import dataclass

from ._header import Status
from ._keys import sshsig_question, sshsig_question_of_digest
from ._library import LIBRARY, bytes_of, digests_of, done, number_of, spans_of, text_of
from ._named import names_blobs
from ._values import BytesLike
from ._verify import Verifier, decided, is_signature


@dataclass(frozen=True)
class Signers:
    """By whom a signature has to be, as `ssh-keygen -Y verify` asks, or more strictly (docs/SIGNED-FILE.md): a time without Z in the
    text, which is of the machine's zone there, has to hold in every zone here.

    text: that of a file of allowed signers
    identity: one of those whom it names
    unix_timestamp: when the signature has to count, in seconds since 1970
    revoked: what the files of ssh-keygen's -r have, or NO_REVOCATIONS; without a file no signature counts
    """

    text: BytesLike
    identity: str | BytesLike
    unix_timestamp: int
    revoked: Iterable[BytesLike]


@names_blobs
def check_signer_with_answer(signature: BytesLike, namespace: str | BytesLike, by: Signers, is_verified: bool) -> Status:
    """Status.DONE exactly if an SSH signature (what read_armour gives) counts as the identity's in that namespace, by the
    allowed signers. `is_verified` is your answer to the question of this signature, in the namespace and of the message
    (sshsig_question, sshsig_question_of_digest).

    Else NO_IDENTITY, SIGNER_NOT_ALLOWED, UNREADABLE_REVOCATIONS, REVOKED or NOT_SIGNED, the first that holds. Ask with False first:
    only where that is NOT_SIGNED there is something to verify (check_signer_of_digest does both). Raises Refused where the bytes
    are no signature, or the identity or the namespace is not UTF-8, and MemoryError."""
    revoked, second = spans_of(by.revoked), number_of(by.unix_timestamp, 64)
    texts = (*bytes_of(by.text), *text_of(by.identity), *text_of(namespace), *bytes_of(signature))
    status = Status(LIBRARY.raf_check_signer(*texts, second, revoked.items, revoked.count, is_verified is True))
    if status < Status.NOT_SIGNED:
        done(status)
    return status


@names_blobs
def check_signer_of_digest(
    signature: BytesLike, namespace: str | BytesLike, digest: BytesLike, by: Signers, verifier: Verifier = is_signature
) -> None:  # fmt: skip
    """Returns exactly if the signature, of a message with that digest, by the hash that sshsig_hash names, counts as the identity's in
    that namespace, by the allowed signers; else raises Refused, as check_signer_with_answer answers, and as sshsig_question_of_digest raises it
    of a key that may sign. The verifier is not asked about another."""
    given, _ = bytes_of(signature)

    def is_verified() -> bool:
        return verifier(sshsig_question_of_digest(given, namespace, digest)[0]) is True

    decided(lambda yes: done(check_signer_with_answer(given, namespace, by, yes)), is_verified)


@names_blobs
def check_sshsig_with_answer(signature: BytesLike, namespace: str | BytesLike, signers: Iterable[BytesLike], is_verified: bool) -> Status:
    """Status.DONE exactly if an SSH signature (what read_armour gives) counts in that namespace, where the keys with these
    fingerprints may sign. `is_verified` is your answer to the question of this signature, in the namespace and of the message.

    Else SIGNER_NOT_ALLOWED or NOT_SIGNED, the first that holds. That is also one in another namespace, and one with reserved bytes,
    which ssh-keygen verifies as if these were empty. Ask with False first: only where that is NOT_SIGNED there is something to verify
    (check_sshsig does both). Raises Refused where the bytes are no signature, and MemoryError."""
    texts = (*bytes_of(signature), *text_of(namespace), *digests_of(signers))
    status = Status(LIBRARY.raf_check_sshsig(*texts, is_verified is True))
    if status < Status.NOT_SIGNED:
        done(status)
    return status


@names_blobs
def check_sshsig(
    signature: BytesLike, namespace: str | BytesLike, message: BytesLike, signers: Collection[bytes], verifier: Verifier = is_signature
) -> None:  # fmt: skip
    """Returns exactly if an SSH signature is one of the message in that namespace by one of the signers, which are the fingerprints of
    the keys that you trust for it. Else raises Refused: as check_sshsig_with_answer answers, or, of a key that may sign, as sshsig_question
    does. The verifier is not asked about another signer's key."""
    given, _ = bytes_of(signature)
    _check(given, namespace, signers, lambda: verifier(sshsig_question(given, namespace, message)[0]) is True)


@names_blobs
def check_sshsig_of_digest(
    signature: BytesLike, namespace: str | BytesLike, digest: BytesLike, signers: Collection[bytes], verifier: Verifier = is_signature
) -> None:  # fmt: skip
    """Returns exactly if an SSH signature is one of a message with that digest, by the hash that sshsig_hash names, as check_sshsig
    says it of a message."""
    given, _ = bytes_of(signature)
    _check(given, namespace, signers, lambda: verifier(sshsig_question_of_digest(given, namespace, digest)[0]) is True)


def _check(signature: bytes, namespace: str | BytesLike, signers: Collection[bytes], is_verified: Callable[[], bool]) -> None:
    decided(lambda yes: done(check_sshsig_with_answer(signature, namespace, signers, yes)), is_verified)
