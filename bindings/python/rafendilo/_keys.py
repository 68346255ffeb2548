"""Keys, what they sign, and the strings that both are."""
from __future__ import annotations

import ctypes
import functools
from collections.abc import Callable

from . import _header
from ._header import FINGERPRINT_SHA512_TEXT, FINGERPRINT_TEXT, RANDOM_ART_TEXT, Algorithm, LineKind, Status
from ._library import LIBRARY, ask, bytes_of, digests_of, done, parts_of, text_of, written
from ._named import names_blobs
from ._values import BytesLike, Line, Question

# what stands in front of the strings of an SSH signature: SSHSIG and its version
SSHSIG_FRONT = 10


def question_of(call: Callable[..., int], length: int) -> Question:
    """The question that a call writes, which is given a buffer of that length at first."""
    answer = _header.Question()
    return question_in(ask(call, answer, length), answer)


def question_in(buffer: bytes, answer: _header.Question) -> Question:
    """The question whose parts stand in the buffer."""
    return Question(Algorithm(answer.algorithm), *parts_of(buffer, answer.key, answer.message, answer.signature))


def read_line(line: str | BytesLike) -> Line:
    """What stands in a line of a file of public keys or of certificates. Raises Refused where it is a line of neither, and
    MemoryError."""
    given, answer = text_of(line), _header.Line()
    buffer = ask(lambda *buffer: LIBRARY.raf_read_line(*given, *buffer), answer, given[1])
    blob, comment = parts_of(buffer, answer.blob, answer.comment)
    return Line(blob, comment.decode(), answer.kind == LineKind.CERTIFICATE)


# ---- fingerprints


@names_blobs
def fingerprint(key: BytesLike) -> bytes:
    """The SHA-256 fingerprint of a key, given as its blob: 32 bytes. Raises Refused where the bytes are no key, and
    MemoryError."""
    answer = _header.Sha256()
    done(LIBRARY.raf_fingerprint(*bytes_of(key), ctypes.byref(answer)))
    return bytes(answer.bytes)


def fingerprint_text(digest: BytesLike) -> str:
    """The text of a SHA-256 fingerprint, as ssh-keygen shows it. Raises ValueError where the digest has not 32 bytes."""
    buffer = (ctypes.c_uint8 * FINGERPRINT_TEXT)()
    done(LIBRARY.raf_fingerprint_text(digests_of([digest])[0], buffer, len(buffer)))
    return bytes(buffer).decode("ascii")


@names_blobs
def fingerprint_sha512(key: BytesLike) -> bytes:
    """The SHA-512 fingerprint of a key, given as its blob: 64 bytes. Raises Refused where the bytes are no key, and
    MemoryError."""
    answer = _header.Sha512()
    done(LIBRARY.raf_fingerprint_sha512(*bytes_of(key), ctypes.byref(answer)))
    return bytes(answer.bytes)


def fingerprint_sha512_text(digest: BytesLike) -> str:
    """The text of a SHA-512 fingerprint, as ssh-keygen shows it. Raises ValueError where the digest has not 64 bytes."""
    given, length = bytes_of(digest)
    if length != 64:
        raise ValueError("a SHA-512 fingerprint has 64 bytes")
    buffer = (ctypes.c_uint8 * FINGERPRINT_SHA512_TEXT)()
    done(LIBRARY.raf_fingerprint_sha512_text(_header.Sha512((ctypes.c_uint8 * 64)(*given)), buffer, len(buffer)))
    return bytes(buffer).decode("ascii")


def random_art(digest: BytesLike, header: str | BytesLike) -> str:
    """The random art of a key with that SHA-256 fingerprint, as `ssh-keygen -lv` shows it, whose header is, say, [ED25519 256]: eleven
    lines, without a line end after the last. Raises ValueError where the digest has not 32 bytes, and MemoryError."""
    by, given = digests_of([digest]), text_of(header)
    call = functools.partial(LIBRARY.raf_random_art, by[0], *given)
    return written(call, RANDOM_ART_TEXT + given[1]).decode()


# ---- signatures


def read_armour(text: str | BytesLike) -> bytes:
    """The bytes of an SSH signature in its armour, the text of a file of `ssh-keygen -Y sign`, as OpenSSH 9.5 reads it. What follows
    its last line is passed over. Raises Refused, with Status.FORMAT where the first or the last line is missing, or Status.BASE64,
    and MemoryError."""
    given = text_of(text)
    return written(functools.partial(LIBRARY.raf_read_armour, *given), given[1])


@names_blobs
def may_verify(key: BytesLike) -> bool:
    """Whether a verifier may say yes to a signature under the key, given as its blob: OpenSSH lets somebody in by it, and one of RSA
    has 2,048 bits or more. Raises Refused where the bytes are no key."""
    status = LIBRARY.raf_may_verify(*bytes_of(key))
    if status == Status.KEY_NOT_ACCEPTED:
        return False
    done(status)
    return True


@names_blobs
def signature_question(key: BytesLike, message: BytesLike, signature: BytesLike) -> Question:
    """What has to be verified of a signature of the message under a key, both given as their blobs (RFC 4253, section 6.6): as
    an agent gives it, or a client at a login. Raises Refused where they are none or do not go together, and MemoryError."""
    given = (*bytes_of(key), *bytes_of(message), *bytes_of(signature))
    return question_of(lambda *buffer: LIBRARY.raf_signature_question(*given, *buffer), sum(given[1::2]) + 256)


@names_blobs
def sshsig_question(
    signature: BytesLike, namespace: str | BytesLike, message: BytesLike
) -> tuple[Question, bytes]:  # fmt: skip
    """What has to be verified of an SSH signature (what read_armour gives) of the message in that namespace, and the
    fingerprint of the key that signed, which has to be one that you trust for that namespace. Raises Refused where the bytes are
    none or one for another namespace, or where key and signature do not go together, and MemoryError."""
    return _sshsig_question(LIBRARY.raf_sshsig_question, signature, namespace, message)


@names_blobs
def sshsig_question_of_digest(
    signature: BytesLike, namespace: str | BytesLike, digest: BytesLike
) -> tuple[Question, bytes]:  # fmt: skip
    """What has to be verified of an SSH signature, as sshsig_question says it, of a message with that digest, so that a long one need
    not be in memory: by the hash that sshsig_hash names. Raises Refused, with Status.LENGTH, also where the digest is not as long as one by that hash."""
    return _sshsig_question(LIBRARY.raf_sshsig_question_of_digest, signature, namespace, digest)


def _sshsig_question(
    call: Callable[..., int], signature: BytesLike, namespace: str | BytesLike, covered: BytesLike
) -> tuple[Question, bytes]:  # fmt: skip
    given, signer = (*bytes_of(signature), *text_of(namespace), *bytes_of(covered)), _header.Sha256()
    question = question_of(lambda *buffer: call(*given, *buffer, ctypes.byref(signer)), sum(given[1::2]) + 256)
    return question, bytes(signer.bytes)


def sshsig_hash(signature: BytesLike) -> str:
    """The hash by which an SSH signature digests its message, as hashlib names it: sha256 or sha512. Raises Refused where the
    bytes are none, and MemoryError."""
    return _sshsig_fields(signature)[3].decode("ascii")


def sshsig_reserved(signature: BytesLike) -> bytes:
    """The reserved bytes of an SSH signature, which are signed too. ssh-keygen writes none, and `ssh-keygen -Y verify` takes them as
    empty, whatever they are. Raises Refused where the bytes are no SSH signature, and MemoryError."""
    return _sshsig_fields(signature)[2]


def _sshsig_fields(signature: BytesLike) -> list[bytes]:
    """The signer's key, the namespace, the reserved bytes, the hash's name and the signature."""
    return strings(normal_sshsig(signature)[SSHSIG_FRONT:])


# ---- normal forms


def _normal(call: Callable[..., int], value: BytesLike) -> bytes:
    """What a call writes of the bytes, which is never longer than they are."""
    given = bytes_of(value)
    return written(lambda *buffer: call(*given, *buffer), given[1])


@names_blobs
def normal_key(key: BytesLike) -> bytes:
    """The normal form of a key, given as its blob: two keys are the same exactly if theirs are. Raises Refused where the bytes
    are none, and MemoryError."""
    return _normal(LIBRARY.raf_key_normal, key)


@names_blobs
def normal_certificate(certificate: BytesLike) -> bytes:
    """The normal form of a certificate, given as its blob. Raises Refused where the bytes are none, and MemoryError."""
    return _normal(LIBRARY.raf_certificate_normal, certificate)


@names_blobs
def normal_sshsig(signature: BytesLike) -> bytes:
    """The normal form of an SSH signature. Raises Refused where the bytes are none, and MemoryError."""
    return _normal(LIBRARY.raf_sshsig_normal, signature)


@names_blobs
def normal_signature(signature: BytesLike) -> bytes:
    """The normal form of a signature as signature_question takes it: the bytes themselves. Raises Refused where they are
    none."""
    return _normal(LIBRARY.raf_signature_normal, signature)


# ---- strings


def strings(blob: BytesLike) -> list[bytes]:
    """The strings, one after the other, that the bytes of a question's key or of an ECDSA signature are. Raises Refused where
    they are none."""
    found, place, part = [], 0, _header.Part()
    data, length = bytes_of(blob)
    while (status := LIBRARY.raf_next_string(data, length, place, ctypes.byref(part))) != Status.END:
        done(status)
        place = part.start + part.length
        found.append(data[part.start : place])
    return found


def string(content: str | BytesLike) -> bytes:
    """The bytes, or those of the text, as a string (RFC 4251, section 5): four bytes of length before them. Raises ValueError
    where they are too many."""
    data, length = text_of(content)
    if length >= 1 << 32:
        raise ValueError("a string has fewer than 2^32 bytes")
    return length.to_bytes(4, "big") + data
