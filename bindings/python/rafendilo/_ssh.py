"""Which files of known_hosts ssh(1) reads for a host, as `ssh -G` says."""
from __future__ import annotations

import os
import pwd
import subprocess

OF_USER, OF_MACHINE, COMMAND = b"userknownhostsfile", b"globalknownhostsfile", b"knownhostscommand"


def known_hosts_of_ssh(host: str) -> list[bytes]:
    """The texts of the files of known_hosts that ssh(1) reads for the host, as a HostLogin takes them: those that `ssh -G host` names
    under UserKnownHostsFile and GlobalKnownHostsFile. One that is missing is passed over, as by ssh: where none is there the list is
    empty, and no host is trusted. The configuration of ssh may run programs (Match exec).

    Ask about the name, the alias (HostKeyAlias) and the port that ssh would ask about, and pass what its RevokedHostKeys revoke.

    Raises OSError where ssh or a file can't be read, and ValueError where the configuration names other places than files
    (KnownHostsCommand), or where a path can't be told: one with a blank, or with a percent sign or a variable that ssh left."""
    ran = subprocess.run(["ssh", "-G", "--", host], stdin=subprocess.DEVNULL, capture_output=True, check=False)
    if ran.returncode:
        raise OSError(f"ssh -G {host}: {os.fsdecode(ran.stderr).strip()}")
    said = dict(it.partition(b" ")[::2] for it in ran.stdout.splitlines())
    if said.get(COMMAND, b"none") != b"none":
        raise ValueError("ssh asks KnownHostsCommand too, and not only files")
    paths = [path for name in (OF_USER, OF_MACHINE) for path in _paths_of(said.get(name), name)]
    return [text for text in map(_content, paths) if text is not None]


def _paths_of(value: bytes | None, name: bytes) -> list[bytes]:
    """The paths, which ssh prints with blanks between and without quotes."""
    if value is None:
        raise ValueError(f"ssh -G has no {name.decode()}")
    if value == b"none":
        return []
    paths = [_expanded(it) for it in value.split(b" ")]
    # versions that leave these in the user's files print them; of the machine's a percent sign is one
    if name == OF_USER and any(b"%" in it or b"${" in it for it in paths):
        raise ValueError(f"{os.fsdecode(value)!r} has what ssh replaces")
    spans = ((at, end) for at in range(len(paths)) for end in range(at + 2, len(paths) + 1))
    if b"" in paths or any(os.path.exists(b" ".join(paths[at:end])) for at, end in spans):
        raise ValueError(f"{os.fsdecode(value)!r} has a path with a blank")
    return paths


def _expanded(path: bytes) -> bytes:
    """The path, with the folder of a user in place of ~. Raises ValueError where there is no such user."""
    if not path.startswith(b"~"):
        return path
    name, _, rest = path[1:].partition(b"/")
    try:
        home = (pwd.getpwnam(os.fsdecode(name)) if name else pwd.getpwuid(os.getuid())).pw_dir
    except KeyError:
        raise ValueError(f"{os.fsdecode(path)!r} is of no user") from None
    return os.path.join(os.fsencode(home), rest)


def _content(path: bytes) -> bytes | None:
    """What the file has, and None where there is none."""
    try:
        with open(path, "rb") as file:
            return file.read()
    except (FileNotFoundError, NotADirectoryError):
        return None
