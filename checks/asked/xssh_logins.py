"""Logins of a real ssh, with the keys of a real ssh-agent, at the example of a server of bindings/go/xssh, for checks/xssh: each is let
in as by a real sshd with the same files, but by a security key, whose flags nobody tells the server."""
import getpass
import os
import re
import socket
import subprocess
import threading
from dataclasses import dataclass

from lib.harness import SSHD, string

from .made import Maker
from .security_key_agent import LIST, SIGN, SIGNED, Agent
from .security_key_calls import TOUCHED, VERIFIED, SecurityKey

SECONDS = 60
ADDRESS = "127.0.0.1"
CONFIGURATION = """\
HostKey {0}/host
AuthorizedKeysFile {0}/authorized_keys
TrustedUserCAKeys {0}/authorities
RevokedKeys {0}/revoked
StrictModes no
PidFile none
UsePAM no
PasswordAuthentication no
KbdInteractiveAuthentication no
PermitRootLogin yes
"""
# what ssh asks for, and what lines and certificates make of it
ASKED, FORCED = "echo asked", "echo forced"
# the numbers of include/rafendilo.h for what is refused
DONE, NOT_LISTED, NO_FLAGS = 0, 90, 85


@dataclass(frozen=True)
class Login:
    """A login: its name, the key, the agent that has it, what the files of the server have (None where there is no such file), and the
    number that the server logs, 0 where it lets in, None where it logs none. An sshd with these files lets in where the server does, unless
    `by_sshd` says otherwise."""

    name: str
    key: str
    agent: str
    lines: str | None
    number: int | None
    revoked: bytes | None = b""
    certificate: str | None = None
    by_sshd: bool | None = None

    def wanted_of_sshd(self):
        return self.number == DONE if self.by_sshd is None else self.by_sshd


class Forger(Agent):
    """An agent of who has the public key alone, whose signatures are zeros."""

    def answer(self, request):
        if request[0] == SIGN:
            return bytes([SIGNED]) + string(string(b"ssh-ed25519") + string(bytes(64)))
        return super().answer(request)


class Public:
    """A public key for an agent."""

    def __init__(self, data):
        self.data = data

    def blob(self):
        return self.data


class Sshd:
    """A real sshd at a port of this machine, one for each client, with the configuration of that file."""

    def __init__(self, maker, configuration):
        self.words = [SSHD, "-i", "-f", maker.path(configuration), "-E", maker.path(f"{configuration}.log")]
        self.server = socket.create_server((ADDRESS, 0))
        self.port = self.server.getsockname()[1]
        threading.Thread(target=self.serve, daemon=True).start()

    def serve(self):
        while True:
            client, _ = self.server.accept()
            threading.Thread(target=self.serve_one, args=(client,), daemon=True).start()

    def serve_one(self, client):
        with client:
            subprocess.run(self.words, stdin=client, stdout=client, stderr=subprocess.DEVNULL, check=False, timeout=SECONDS)


class Room(Maker):
    """A folder with the keys of a host, an authority and clients, the agents that have these, and an sshd."""

    def __init__(self, folder):
        super().__init__(folder)
        self.user = getpass.getuser()
        for name in ("host", "authority", "stranger"):
            self.key(name, "ed25519")
        self.fields = {name: self.key(name, "rsa -b 2048" if name == "rsa" else "ed25519") for name in ("own", "other", "rsa")}
        self.agent = subprocess.Popen(["ssh-agent", "-D", "-a", self.path("agent")], stdout=subprocess.DEVNULL)
        self.add_keys()
        Forger(self.path("forger"), Public(self.blob("own")))
        self.security_keys = {}
        for kind in ("Ed25519", "ECDSA"):
            self.security_keys[kind] = key = SecurityKey(kind, b"ssh:")
            self.fields[kind] = key.line()
            self.write(f"{kind}.pub", f"{key.line()}\n")
            for flags in (0, TOUCHED, VERIFIED, TOUCHED | VERIFIED):
                Agent(self.path(f"{kind}{flags}"), key, flags)
        self.write("authorities", self.read("authority.pub") + "\n")
        self.port = self.another_sshd("conf")

    def add_keys(self):
        """The agent alone has the private keys."""
        while not os.path.exists(self.path("agent")):
            if self.agent.poll() is not None:
                raise RuntimeError("ssh-agent has ended")
        for name in self.fields:
            words = ["ssh-add", "-q", self.path(name)]
            subprocess.run(words, env={**os.environ, "SSH_AUTH_SOCK": self.path("agent")}, check=True, capture_output=True)
            os.remove(self.path(name))

    def another_sshd(self, name, configuration=""):
        """The port of another sshd, whose configuration has these lines too, and stands in a file of that name."""
        self.write(name, CONFIGURATION.format(self.folder) + configuration)
        return Sshd(self, name).port

    def close(self):
        self.agent.terminate()
        self.agent.wait()

    def certified(self, name, authority, key, *words):
        """The path of a certificate of the key, by that authority, in a file of that name."""
        return self.write(f"{name}-cert.pub", self.certificate(authority, key, "-V", "-5m:+5m", *words) + "\n")

    def put(self, login):
        """Has the files of the server have what the login says."""
        for name, data in (("authorized_keys", login.lines and login.lines.encode()), ("revoked", login.revoked)):
            if data is None:
                if os.path.exists(self.path(name)):
                    os.remove(self.path(name))
                continue
            with open(self.path(name), "wb") as file:
                file.write(data)

    def log_in(self, login, port):
        """The command that ran, or would run, by its last word; None where ssh was refused."""
        certificate = ["-o", f"CertificateFile={login.certificate}"] if login.certificate else []
        words = ["ssh", "-F", "none", "-T", "-i", self.path(f"{login.key}.pub"), "-p", str(port), *certificate]
        for option in (
            "StrictHostKeyChecking=yes", f"UserKnownHostsFile={self.path('known_hosts')}", "GlobalKnownHostsFile=none", "BatchMode=yes",
            "IdentitiesOnly=yes", f"IdentityAgent={self.path(login.agent) if login.agent else 'none'}", "HostKeyAlias=host", "LogLevel=ERROR",
            "PreferredAuthentications=publickey",
        ):  # fmt: skip
            words += ["-o", option]
        ran = subprocess.run([*words, f"{self.user}@{ADDRESS}", ASKED], stdin=subprocess.DEVNULL, capture_output=True, text=True, check=False, timeout=SECONDS)
        found = re.search(r"(\w+)\W*\Z", ran.stdout)
        return found[1] if ran.returncode == 0 and found else None


def by_keys(room):
    """Logins by lines of authorized_keys."""
    own, other, rsa = (f"{room.fields[it]}\n" for it in ("own", "other", "rsa"))
    yield Login("its key", "own", "agent", f"# keys\n{other}{own}", DONE)
    yield Login("its key of RSA", "rsa", "agent", rsa, DONE)
    yield Login("another key", "own", "agent", other, NOT_LISTED)
    yield Login("no file of keys", "own", "agent", None, NOT_LISTED)
    yield Login("a line with a command", "own", "agent", f'command="{FORCED}" {own}', DONE)
    yield Login("the second line that is from here", "own", "agent", f'from="192.0.2.1" {own}from="{ADDRESS}",command="{FORCED}" {own}', DONE)
    yield Login("a line that is from elsewhere", "own", "agent", f'from="192.0.2.1" {own}', 93)
    yield Login("a line whose time is over", "own", "agent", f'expiry-time="20010101Z" {own}', 91)
    yield Login("a key that is revoked", "own", "agent", own, 56, own.encode())
    yield Login("no file of what is revoked", "own", "agent", own, None, None)
    yield Login("public files alone", "own", None, own, None)
    yield Login("public files alone, and a signature of zeros", "own", "forger", own, None)


def by_certificates(room):
    """Logins by certificates of the authority, which alone let in: no line is for the key."""
    listed, here = ["-n", f"x,{room.user}"], ["source-address=127.0.0.0/8", "source-address=192.0.2.0/24"]
    for name, authority, words, number in (
        ("its certificate", "authority", listed, DONE), ("a certificate with a command", "authority", [*listed, "-O", f"force-command={FORCED}"], DONE),
        ("a certificate from here", "authority", [*listed, "-O", here[0]], DONE), ("one from elsewhere", "authority", [*listed, "-O", here[1]], 57),
        ("one for another user", "authority", ["-n", "x"], NOT_LISTED), ("one for nobody", "authority", [], None),
        ("one by another authority", "stranger", listed, NOT_LISTED), ("one whose time is over", "authority", [*listed, "-V", "20010101:20010102"], 33),
    ):  # fmt: skip
        path = room.certified(name.replace(" ", "-"), authority, "own", *words)
        yield Login(name, "own", "agent", None, number, certificate=path)
        if number == DONE:
            yield Login(f"{name}, of public files alone", "own", None, None, None, certificate=path)
            yield Login(f"{name}, and a signature of zeros", "own", "forger", None, None, certificate=path)
    path = room.certified("lined", "stranger", "own", *listed)
    yield Login("a line cert-authority", "own", "agent", f'cert-authority,command="{FORCED}" {room.read("stranger.pub")}\n', DONE, certificate=path)


def by_security_keys(room):
    """Logins by security keys, whose flags nobody tells the server: it lets one in only if nobody wants them."""
    for kind in ("Ed25519", "ECDSA"):
        line = f"{room.fields[kind]}\n"
        for name, flags, options, number, by_sshd in (
            ("touched", TOUCHED, "", NO_FLAGS, True), ("that nobody touched", 0, "", NO_FLAGS, False),
            ("that may be untouched", 0, "no-touch-required ", DONE, True), ("that is verified", TOUCHED | VERIFIED, "verify-required ", NO_FLAGS, True),
            ("that is not verified", TOUCHED, "verify-required ", NO_FLAGS, False),
            ("that has to be verified alone", VERIFIED, "no-touch-required,verify-required ", NO_FLAGS, True),
        ):  # fmt: skip
            yield Login(f"a security key of {kind} {name}", kind, f"{kind}{flags}", options + line, number, by_sshd=by_sshd)
        listed = ["-n", room.user]
        for name, words, number in (("", [], NO_FLAGS), (" that may be untouched", ["-O", "no-touch-required"], DONE)):
            path = room.certified(f"{kind}-of{len(words)}", "authority", kind, *listed, *words)
            yield Login(f"a certificate{name} of a security key of {kind} that nobody touched", kind, f"{kind}0", None, number, certificate=path)


def logins(room):
    for of in (by_keys, by_certificates, by_security_keys):
        yield from of(room)


def check_logins(count, room, port, log):
    """The server at the port lets in whom it has to, to what an sshd with the same files runs, and logs why it refuses: `log` gives what
    it has logged since it was asked last, and waits for something where it is told so."""
    room.write("known_hosts", f"host {room.read('host.pub')}\n")
    for login in logins(room):
        room.put(login)
        by_sshd, ran = (room.log_in(login, it) for it in (room.port, port))
        logged = log(ran is None)
        as_wanted = (ran is not None) == (login.number == DONE) and (by_sshd is not None) == login.wanted_of_sshd()
        same = ran is None or ran == by_sshd
        told = not login.number or f"({login.number})" in logged
        count.check(f"login: {login.name}", as_wanted and same and told, login, ran, by_sshd, logged[-1000:])
