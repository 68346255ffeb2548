#!/usr/bin/python3
"""Connects by rafendilo.asyncssh or rafendilo.paramiko, for checks/servers, whose packages are those of Debian's Python.

    python_client.py asyncssh|paramiko PORT REVOKED KNOWN_HOSTS [KEY]

It prints what is refused of the host; else `trusted`, or, with the file of a key, what a command prints that runs by it as alice.
"""
import asyncio
import sys

import rafendilo

ADDRESS, USER, ASKED, TRUSTED = "127.0.0.1", "alice", "ls -l", "trusted"


def content(path):
    with open(path, "rb") as file:
        return file.read()


def by_asyncssh(port, texts, revoked, *keys):
    import asyncssh
    import rafendilo.asyncssh

    async def asked():
        async with asyncssh.connect(
            ADDRESS, port, username=USER, client_keys=list(keys), agent_path=None, config=None, known_hosts=([], [], []),
            client_factory=lambda: rafendilo.asyncssh.KnownHosts(texts, revoked),
        ) as connection:  # fmt: skip
            return (await connection.run(ASKED)).stdout

    try:
        return asyncio.run(asked())
    except asyncssh.PermissionDenied:
        return TRUSTED
    except asyncssh.HostKeyNotVerifiable as refused:
        return str(refused)


def by_paramiko(port, texts, revoked, *keys):
    import paramiko
    import rafendilo.paramiko

    class Transport(paramiko.Transport):
        """One that asks for certificates first."""

        @property
        def preferred_keys(self):
            return sorted(super().preferred_keys, key=lambda it: "-cert-" not in it)

    with paramiko.SSHClient() as client:
        client.set_missing_host_key_policy(rafendilo.paramiko.KnownHosts(texts, revoked))
        try:
            client.connect(
                ADDRESS, port, username=USER, password=None if keys else "", key_filename=list(keys), allow_agent=False, look_for_keys=False,
                transport_factory=Transport,
            )  # fmt: skip
            return client.exec_command(ASKED)[1].read().decode()
        except paramiko.AuthenticationException:
            return TRUSTED
        except rafendilo.Refused as refused:
            return str(refused)


def main():
    package, port, revoked, known_hosts, *keys = sys.argv[1:]
    files = rafendilo.NO_REVOCATIONS if revoked == "none" else [content(revoked)]
    by = {"asyncssh": by_asyncssh, "paramiko": by_paramiko}[package]
    print(by(int(port), [content(known_hosts)], files, *keys), end="")


if __name__ == "__main__":
    main()
