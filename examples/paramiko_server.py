#!/usr/bin/env python3
"""A server over paramiko. Whom authorized_keys lets in, or a certificate of the authorities, rafendilo decides; to these it says what runs.

    paramiko_server.py PORT HOST-KEY AUTHORIZED-KEYS AUTHORITIES
"""
import socket
import sys
import threading
from pathlib import Path
from typing import Any, Optional

import paramiko  # type: ignore[import]
import rafendilo
import rafendilo.paramiko

port, host_key, keys, authorities = sys.argv[1:]


def trusted(user: str) -> rafendilo.Trusted:
    return rafendilo.Trusted(
        authorized_keys=[Path(keys).read_bytes()], authorities=rafendilo.authorities(Path(authorities).read_bytes()).keys,
        principals=rafendilo.IN_CERTIFICATE, command_keys=[], revoked=rafendilo.NO_REVOCATIONS,
    )  # fmt: skip


class Server(rafendilo.paramiko.Server):
    def check_channel_request(self, kind: str, chanid: int) -> int:
        return int(paramiko.OPEN_SUCCEEDED if self.grant and kind == "session" else paramiko.OPEN_FAILED_ADMINISTRATIVELY_PROHIBITED)

    def check_channel_exec_request(self, channel: Any, command: bytes) -> bool:
        if self.grant is None:
            return False
        # after paramiko has told the client that it runs
        threading.Timer(0.1, run, (channel, self.grant.runs(command.decode()))).start()
        return True


def run(channel: Any, command: Optional[str]) -> None:
    channel.send(f"{channel.transport.get_username()} runs {command}\n".encode())
    channel.send_exit_status(0)
    channel.close()


def serve(client: socket.socket) -> None:
    transport = paramiko.Transport(client)
    transport.add_server_key(paramiko.Ed25519Key.from_private_key_file(host_key))
    transport.start_server(event=threading.Event(), server=Server(transport, trusted))


with socket.create_server(("127.0.0.1", int(port))) as listening:
    while True:
        serve(listening.accept()[0])
