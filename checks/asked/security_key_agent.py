"""An agent that has one security key without a device (asked/security_key_calls.py), for logins at a real sshd."""
import socketserver
import struct
import threading

from lib.harness import string, take

from .security_key_calls import TOUCHED

# messages of draft-miller-ssh-agent
FAILURE, LIST, LISTED, SIGN, SIGNED = 5, 11, 12, 13, 14


class Agent(socketserver.ThreadingUnixStreamServer):
    """The agent at the socket of that path. It signs with these flags, until it is closed."""

    daemon_threads = True

    def __init__(self, path, key, flags=TOUCHED):
        super().__init__(path, Peer)
        self.path, self.key, self.flags = path, key, flags
        threading.Thread(target=self.serve_forever, daemon=True).start()

    def answer(self, request):
        if request[0] == LIST:
            return struct.pack(">BI", LISTED, 1) + string(self.key.blob()) + string(b"")
        if request[0] != SIGN:
            return bytes([FAILURE])
        _, rest = take(request[1:])
        raw = self.key.raw(self.key.device_message(take(rest)[0], self.flags))
        return bytes([SIGNED]) + string(self.key.signature(raw, self.flags))


class Peer(socketserver.StreamRequestHandler):
    """A connection to the agent."""

    def handle(self):
        while len(head := self.rfile.read(4)) == 4:
            self.wfile.write(string(self.server.answer(self.rfile.read(int.from_bytes(head, "big")))))
