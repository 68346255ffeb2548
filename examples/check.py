#!/usr/bin/env python3
"""Says whether certificates and SSH signatures are valid, or what is wrong first. The package `cryptography` verifies.

    check.py certificates AUTHORITIES PRINCIPAL|- [SECOND] <id_ed25519-cert.pub
    check.py signature SIGNERS NAMESPACE FILE <FILE.sig

AUTHORITIES and SIGNERS are files of public keys, a line each. The first answers of each line of its input. The status is 0 if all is
valid, 1 if not, and 2 where it can't tell: so also where there is no certificate. A valid certificate may be for a host, or for nobody
by name, and - is no name that a client may choose: who logs users in calls `rafendilo.log_in`, and who is shown a host's certificate
`rafendilo.check_host_certificate`.
"""
from __future__ import annotations

import os
import sys
import time
from collections.abc import Callable, Collection
from typing import Any

try:
    import rafendilo
except (ImportError, OSError) as error:  # the library is not there, or is another
    if __name__ != "__main__":
        raise
    print(f"check.py: {error}", file=sys.stderr)
    sys.exit(2)


def read(line: str | bytes, is_certificate: bool) -> bytes:
    """The key or the certificate of a line. Raises Refused where it is none."""
    found = rafendilo.read_line(line)
    if found.is_certificate != is_certificate:
        raise rafendilo.Refused(rafendilo.Status.LABEL)
    return found.blob


def fingerprints(path: str) -> Collection[bytes]:
    """The fingerprints of the keys in a file. Tells of each line that is passed over. Raises OSError, and ValueError where another
    line is no key."""
    with open(path, "rb") as file:
        text = file.read()
    try:
        found = rafendilo.authorities(text)
    except rafendilo.NoKey as error:
        raise ValueError(f"{path}:{error.line}: no key") from error
    for number in found.later_lines:
        print(f"check.py: {path}:{number}: a later kind of key, which is not read", file=sys.stderr)
    return found.keys


def is_valid(ask: Callable[..., None], *given: Any) -> bool:
    """Whether the call does not refuse what it is given, which it prints."""
    try:
        ask(*given)
    except rafendilo.Refused as refused:
        print(f"refused: {refused}")
        return False
    print("valid")
    return True


def check_line(line: bytes, now: int, principal: bytes | None, authorities: Collection[bytes]) -> None:
    """Raises Refused unless the line is that of a valid certificate."""
    rafendilo.check_certificate(read(line, is_certificate=True), now, authorities, principal)


def second_of(word: str) -> int:
    """The number of the digits. Raises ValueError where there is another character, or none."""
    if not (word.isascii() and word.isdecimal()):
        raise ValueError(f"{word!r} is no second")
    return int(word)


def certificates(authorities: str, principal: str, second: str | None = None) -> bool:
    """Whether all are valid."""
    now = int(time.time()) if second is None else second_of(second)
    # the bytes that stand in the command line, also where they are not UTF-8
    whom = None if principal == "-" else os.fsencode(principal)
    by, found = fingerprints(authorities), []
    for line in sys.stdin.buffer:
        found.append(is_valid(check_line, line, now, whom, by))
    if not found:
        raise ValueError("no certificate was given")
    return all(found)


def signature(signers: str, namespace: str, file: str) -> bool:
    """Whether it is valid."""
    given, by = rafendilo.read_armour(sys.stdin.buffer.read()), fingerprints(signers)
    with open(file, "rb") as opened:
        message = opened.read()
    return is_valid(rafendilo.check_sshsig, given, namespace, message, by)


COMMANDS: dict[str, Callable[..., bool]] = {"certificates": certificates, "signature": signature}


def main() -> int:
    if len(sys.argv) < 4 or sys.argv[1] not in COMMANDS:
        print(__doc__, file=sys.stderr)
        return 2
    try:
        if sys.stdin is None or sys.stdout is None:
            raise OSError("standard input or output is closed")
        status = int(not COMMANDS[sys.argv[1]](*sys.argv[2:]))
        sys.stdout.flush()
        return status
    except (ImportError, OSError, TypeError, ValueError, MemoryError) as error:
        print(f"check.py: {error}", file=sys.stderr)
        # or else Python writes what is left, and its status is that of this
        sys.stdout = None  # type: ignore[assignment]
        return 2


if __name__ == "__main__":
    sys.exit(main())
