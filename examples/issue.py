#!/usr/bin/env python3
"""Issues a certificate of a user's key, valid from now on, under a random serial number, by which it can be revoked. The package
`cryptography` signs.

    issue.py AUTHORITY KEY.pub KEY-ID SECONDS PRINCIPAL.. >KEY-cert.pub

AUTHORITY is the file of an Ed25519 private key without a passphrase, which is for a trial: keep a real authority's key in an agent or a
device, and pass make_certificate a function that has it sign. What is issued is checked before it is printed. The status is
0 if it is issued, 1 if these tell no certificate, and 2 where a file can't be read or has no such key, SECONDS is no number, or
KEY-ID has a character that can't be printed.
"""
from __future__ import annotations

import base64
import secrets
import sys
import time
from collections.abc import Sequence

try:
    from cryptography.exceptions import UnsupportedAlgorithm
    from cryptography.hazmat.primitives import serialization
    from cryptography.hazmat.primitives.asymmetric.ed25519 import Ed25519PrivateKey

    import check
    import rafendilo
except (ImportError, OSError) as error:  # a library is not there, or is another
    if __name__ != "__main__":
        raise
    print(f"issue.py: {error}", file=sys.stderr)
    sys.exit(2)


def signer_in(path: str) -> Ed25519PrivateKey:
    """The authority's key. Raises OSError, and ValueError where the file has no such key."""
    with open(path, "rb") as file:
        content = file.read()
    try:
        signer = serialization.load_ssh_private_key(content, None)
    except (TypeError, ValueError, UnsupportedAlgorithm) as error:  # TypeError: it has a passphrase
        raise ValueError(f"{path}: {error}") from error
    if not isinstance(signer, Ed25519PrivateKey):
        raise ValueError(f"{path} has no Ed25519 key")
    return signer


def blob_in(path: str) -> bytes:
    """The blob of the key that is to be certified. Raises OSError, and ValueError where the file has no key."""
    with open(path, "rb") as file:
        line = file.read()
    try:
        return check.read(line, is_certificate=False)
    except rafendilo.Refused as refused:
        raise ValueError(f"{path} has no key: {refused}") from refused


def issue(signer: Ed25519PrivateKey, key: bytes, key_id: str, seconds: int, principals: Sequence[str]) -> bytes:
    """The blob of the certificate. Raises Refused where these tell none, and ValueError for a key id that is not printable: it
    stands in a line."""
    if not key_id.isprintable():
        raise ValueError(f"the key id {key_id!r} is not printable")
    point = signer.public_key().public_bytes(serialization.Encoding.Raw, serialization.PublicFormat.Raw)
    by = rafendilo.string("ssh-ed25519") + rafendilo.string(point)
    now = int(time.time())

    def sign(message: bytes) -> bytes:
        return rafendilo.string("ssh-ed25519") + rafendilo.string(signer.sign(message))

    made = rafendilo.make_certificate(
        key, by, sign, principals=principals, key_id=key_id, serial=1 + secrets.randbelow(2**63 - 1), valid_after=now,
        valid_before=now + seconds, extensions={"permit-pty": ""},
    )  # fmt: skip
    rafendilo.check_certificate(made, now, [rafendilo.fingerprint(by)], principals[0])
    return made


def main() -> int:
    if len(sys.argv) < 6:
        print(__doc__, file=sys.stderr)
        return 2
    authority, key, key_id, seconds, *principals = sys.argv[1:]
    try:
        if sys.stdout is None:
            raise OSError("standard output is closed")
        signer, blob = signer_in(authority), blob_in(key)
        made = issue(signer, blob, key_id, check.second_of(seconds), principals)
        name = made[4 : 4 + int.from_bytes(made[:4], "big")].decode()
        print(name, base64.b64encode(made).decode(), key_id, flush=True)
    except rafendilo.Refused as refused:
        print(f"issue.py: {refused}", file=sys.stderr)
        return 1
    except (OSError, ValueError, MemoryError) as error:
        print(f"issue.py: {error}", file=sys.stderr)
        # or else Python writes what is left, and its status is that of this
        sys.stdout = None  # type: ignore[assignment]
        return 2
    return 0


if __name__ == "__main__":
    sys.exit(main())
