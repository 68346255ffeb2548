#!/usr/bin/env python3
"""A server over asyncssh. Whom authorized_keys lets in, or a certificate of the authorities, rafendilo decides; to these it says what runs.

    asyncssh_server.py PORT HOST-KEY AUTHORIZED-KEYS AUTHORITIES
"""
import asyncio
import sys
from pathlib import Path
from typing import Any

import asyncssh
import rafendilo
import rafendilo.asyncssh

port, host_key, keys, authorities = sys.argv[1:]


def trusted(user: str) -> rafendilo.Trusted:
    return rafendilo.Trusted(
        authorized_keys=[Path(keys).read_bytes()], authorities=rafendilo.authorities(Path(authorities).read_bytes()).keys,
        principals=rafendilo.IN_CERTIFICATE, command_keys=[], revoked=rafendilo.NO_REVOCATIONS,
    )  # fmt: skip


def handle(process: Any) -> None:
    process.stdout.write(f"{process.get_extra_info('username')} runs {process.command}\n")
    process.exit(0)


async def main() -> None:
    server = await asyncssh.create_server(
        lambda: rafendilo.asyncssh.Server(trusted), "127.0.0.1", int(port), server_host_keys=[host_key], process_factory=handle)  # fmt: skip
    await server.wait_closed()


asyncio.run(main())
