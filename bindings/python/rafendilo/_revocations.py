"""Whether revocation files, or a key revocation list (PROTOCOL.krl), leave a key or a certificate unrevoked."""
from __future__ import annotations

from collections.abc import Iterable

from ._library import LIBRARY, bytes_of, done, spans_of
from ._named import names_blobs
from ._values import BytesLike


@names_blobs
def check_unrevoked_key(revoked: Iterable[BytesLike], key: BytesLike) -> None:
    """Returns exactly if none of the files of sshd's RevokedKeys revokes the key, given as its blob: a file is a key revocation
    list, as check_unrevoked_key_by_krl asks it, or keys, one a line. A file of no bytes revokes nothing; where no file is asked,
    NO_REVOCATIONS is the word. Raises Refused, with REVOKED where one does, with UNREADABLE_REVOCATIONS without a file, and for one
    that can't be read, and else where the bytes are no key; TypeError for one that was not read (None); and MemoryError."""
    files = spans_of(revoked)
    done(LIBRARY.raf_check_unrevoked_key(files.items, files.count, *bytes_of(key)))


@names_blobs
def check_unrevoked_certificate(revoked: Iterable[BytesLike], certificate: BytesLike) -> None:
    """Returns exactly if none of the files of sshd's RevokedKeys revokes the certificate, given as its blob: a list as
    check_unrevoked_certificate_by_krl asks it; a text revokes it that has its key or the key that signed it. Raises what check_unrevoked_key does."""
    files = spans_of(revoked)
    done(LIBRARY.raf_check_unrevoked_certificate(files.items, files.count, *bytes_of(certificate)))


@names_blobs
def check_unrevoked_key_by_krl(krl: BytesLike, key: BytesLike) -> None:
    """Returns exactly if a list, as `ssh-keygen -k` makes it, has neither the key, given as its blob, nor its digest by SHA-1 or
    SHA-256. Raises Refused, with REVOKED where it has, and else where the bytes are no list (an empty file is none, nor is a text
    of keys), or no key; and MemoryError."""
    done(LIBRARY.raf_check_unrevoked_key_by_krl(*bytes_of(krl), *bytes_of(key)))


@names_blobs
def check_unrevoked_certificate_by_krl(krl: BytesLike, certificate: BytesLike) -> None:
    """Returns exactly if a list, as `ssh-keygen -k` makes it, does not revoke the certificate, given as its blob: it has not its key,
    the key that signed it, nor its serial number or its key id among the certificates of that key or of every key. The serial number 0 revokes nothing. Raises what
    check_unrevoked_key_by_krl does."""
    done(LIBRARY.raf_check_unrevoked_certificate_by_krl(*bytes_of(krl), *bytes_of(certificate)))
