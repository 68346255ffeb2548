#!/usr/bin/env python3
"""Says what known_hosts files say of the keys of a host, before something is sent to it.

    host.py [--revoked FILE].. HOST PORT KNOWN_HOSTS.. <id_ed25519.pub

The input has a line for each key, as public key files have, or what `ssh-keyscan -p PORT HOST` prints, comments too. The answer to each
key is a word: revoked, unreadable, trusted, changed, unknown, unaccepted for a kind or a size of key that OpenSSH does not take, or later
for a kind that only a later OpenSSH has. FILE is one of ssh's RevokedHostKeys, a key revocation list or keys, one a line; where one can't
be read, no key has an answer. The status is 0 if a key is trusted, and each other is too or is a later one. It is 1 if not, and 2 where
it can't tell: so also where there is no key.
"""
from __future__ import annotations

import sys
from collections.abc import Collection, Iterable, Iterator

try:
    import rafendilo
    from rafendilo import Status
except (ImportError, OSError) as error:  # the library is not there, or is another
    if __name__ != "__main__":
        raise
    print(f"host.py: {error}", file=sys.stderr)
    sys.exit(2)

WORDS = {
    Status.HOST_REVOKED: "revoked", Status.HOST_UNREADABLE: "unreadable", Status.HOST_CHANGED: "changed",
    Status.HOST_UNKNOWN: "unknown", Status.KEY_NOT_ACCEPTED: "unaccepted",
}  # fmt: skip


def word_for(login: rafendilo.HostLogin, key: bytes) -> str:
    """What is said of a key. Raises Refused where the bytes are none, or a file can't be read."""
    try:
        rafendilo.check_host_key(login, key)
    except rafendilo.Refused as refused:
        if refused.status not in WORDS:
            raise
        return WORDS[refused.status]
    return "trusted"


def keys_in(lines: Iterable[bytes], host: str, port: int) -> Iterator[bytes]:
    """The lines without the host that ssh-keyscan writes in front of keys, and without its comments, also where `cut` took the host
    or the sign of a comment away."""
    name = f"{host if port == 22 else f'[{host}]:{port}'} ".encode()
    banner = f"{host}:{port} SSH-".encode()
    for line in lines:
        if not line.startswith((b"#", banner)):
            yield line[len(name) :] if line.startswith(name) else line


def word_of_line(login: rafendilo.HostLogin, line: bytes) -> str:
    """What is said of the key of a line. Raises Refused where there is none."""
    if rafendilo.is_later_key_line(line.rstrip()):
        return "later"
    return word_for(login, rafendilo.read_line(line).blob)


def port_of(word: str) -> int:
    """The number of the digits. Raises ValueError where there is another character, or none."""
    if not (word.isascii() and word.isdecimal()):
        raise ValueError(f"{word!r} is no port")
    return int(word)


def content(path: str) -> bytes:
    with open(path, "rb") as file:
        return file.read()


def are_trusted(host: str, port: int, paths: Collection[str], revoked: Collection[bytes]) -> bool:
    """Whether each key of the input is, but later ones, of which it prints the words. Raises ValueError where a line has no key."""
    texts = [content(it) for it in paths]
    login = rafendilo.HostLogin(texts, host, port, revoked)
    words = []
    for line in keys_in(sys.stdin.buffer, host, port):
        words.append(word_of_line(login, line))
        print(words[-1], flush=True)
    if not words:
        raise ValueError("no key was given")
    if "unreadable" in words:
        tell_unreadable(login, zip(paths, texts))
    return set(words) - {"later"} == {"trusted"}


def tell_unreadable(login: rafendilo.HostLogin, files: Iterable[tuple[str, bytes]]) -> None:
    for path, text in files:
        number = rafendilo.unreadable_host_line(text, login.host, login.port)
        if number is not None:
            print(f"host.py: {path}:{number}: a line that may revoke it and can't be read", file=sys.stderr)


def main() -> int:
    words, revoked = sys.argv[1:], []
    while words[:1] == ["--revoked"]:
        revoked.append(words[1] if len(words) > 1 else "")
        words = words[2:]
    if len(words) < 3:
        print(__doc__, file=sys.stderr)
        return 2
    host, port, *paths = words
    try:
        if sys.stdin is None or sys.stdout is None:
            raise OSError("standard input or output is closed")
        files = [content(it) for it in revoked] or rafendilo.NO_REVOCATIONS
        return int(not are_trusted(host, port_of(port), paths, files))
    except (OSError, ValueError, MemoryError) as error:
        print(f"host.py: {error}", file=sys.stderr)
        # or else Python writes what is left, and its status is that of this
        sys.stdout = None  # type: ignore[assignment]
        return 2


if __name__ == "__main__":
    sys.exit(main())
