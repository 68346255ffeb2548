"""Shows fingerprints, and says whether certificates log a user in.

    python -m rafendilo fingerprint <id_ed25519.pub
    python -m rafendilo check AUTHORITIES USER [SECOND] <id_ed25519-cert.pub

The first prints the SHA-256 fingerprint of the key of each line. The second prints for the certificate of each line whether sshd
would let the user in by it and a TrustedUserCAKeys that is the file AUTHORITIES, if the client signs, at that second since 1970, or else
now. The client has no address: a certificate with a source-address is refused. The package `cryptography` verifies. Status 0: all have a fingerprint,
or are valid; 1: not all; 2: it can't tell, as where there is no line.
"""
from __future__ import annotations

import os
import sys
import time
from typing import Callable, Optional

import rafendilo


def fingerprint(line: bytes) -> str:
    """The text of that of the key of a line."""
    return rafendilo.fingerprint_text(rafendilo.fingerprint(rafendilo.read_line(line).blob))


def check(line: bytes, by: rafendilo.Authorities, user: bytes, second: int) -> str:
    """Raises Refused unless the certificate of the line lets the user in, if the client signs."""
    offer = rafendilo.Offer(user, "", rafendilo.read_line(line).blob)
    rafendilo.may_offer(offer, rafendilo.Trusted(
        authorized_keys=[], authorities=by.keys, principals=rafendilo.IN_CERTIFICATE, command_keys=[], revoked=rafendilo.NO_REVOCATIONS,
    ), rafendilo.Place(None, second))  # fmt: skip
    return "valid, if the client signs"


def second_of(word: str) -> int:
    """The number of the digits. Raises ValueError where there is another character, or none."""
    if not (word.isascii() and word.isdecimal()):
        raise ValueError(f"{word!r} is no second")
    return int(word)


def checker(authorities: str, user: str, second: Optional[str] = None) -> Callable[[bytes], str]:
    """The check of a line, by what stands in the file. Tells of each line there that is passed over."""
    now = int(time.time()) if second is None else second_of(second)
    with open(authorities, "rb") as file:
        by = rafendilo.authorities(file.read())
    for number in by.later_lines:
        print(f"rafendilo: {authorities}:{number}: a later kind of key, which is not read", file=sys.stderr)
    # the bytes that stand in the command line, also where they are not UTF-8
    return lambda line: check(line, by, os.fsencode(user), now)


def answer_lines(answer: Callable[[bytes], str]) -> bool:
    """Prints the answer of each line of standard input, and returns whether none is refused."""
    lines = rafendilo.entry_lines(sys.stdin.buffer.read())
    if not lines:
        raise ValueError("no line was given")
    is_good = True
    for line in lines:
        try:
            print(answer(line))
        except rafendilo.Refused as refused:
            print(f"refused: {refused}")
            is_good = False
    return is_good


def answer_words(command: str, words: list[str]) -> bool:
    """Answers the command, and returns whether nothing is refused."""
    if sys.stdin is None or sys.stdout is None:
        raise OSError("standard input or output is closed")
    if command == "fingerprint" and not words:
        is_good = answer_lines(fingerprint)
    elif command == "check" and len(words) in (2, 3):
        is_good = answer_lines(checker(*words))
    else:
        raise ValueError(f"not called as follows\n{__doc__}")
    sys.stdout.flush()
    return is_good


def main() -> int:
    command, *words = sys.argv[1:] or [""]
    try:
        return 0 if answer_words(command, words) else 1
    except (ImportError, OSError, ValueError, MemoryError) as error:
        print(f"rafendilo: {error or type(error).__name__}", file=sys.stderr)
        # or else Python writes what is left, and its status is that of this
        sys.stdout = None  # type: ignore[assignment]
        return 2


if __name__ == "__main__":
    sys.exit(main())
