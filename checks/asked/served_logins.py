"""Logins at the servers of examples/ over asyncssh and paramiko, for checks/servers: whom a real ssh is let in as, by the keys of a real
ssh-agent, by an agent that has another key than it shows, and by security keys without a device. What is wanted follows from sshd(8)
and ssh-keygen(1); paramiko reads no security key."""
import getpass
import os
import shlex
import socket
import subprocess
import time
from dataclasses import dataclass

from lib.harness import ROOT, blob_of, string

from .linked import run
from .made import Maker
from .security_key_agent import FAILURE, LIST, LISTED, SIGN, SIGNED, Agent
from .security_key_calls import TOUCHED, VERIFIED, SecurityKey

# Debian's, which has the packages
PYTHON = "/usr/bin/python3"
ADDRESS, USER, ASKED, SECONDS = "127.0.0.1", "alice", "ls -l", 30
# who runs this, whom a real sshd can let in
PRINCIPALS = f"{USER},{getpass.getuser()}"
KINDS = {"own": "ed25519", "rsa": "rsa -b 2048", "ecdsa": "ecdsa -b 256", "strange": "ed25519"}
NOW = ["-V", "-5m:+5m"]
TEMPLATE = ["-F", "none", "-o", "BatchMode=yes", "-o", "IdentitiesOnly=yes", "-o", "StrictHostKeyChecking=no", "-o", "UserKnownHostsFile=/dev/null"]


class RealAgent:
    """An ssh-agent at the socket of that path, with the keys of these files."""

    def __init__(self, path, *keys):
        self.path = path
        quiet = {"stdin": subprocess.DEVNULL, "stdout": subprocess.DEVNULL, "stderr": subprocess.DEVNULL}
        self.process = subprocess.Popen(["ssh-agent", "-D", "-a", path], **quiet)
        words, named, end = ["ssh-add", "-q", *keys], {**os.environ, "SSH_AUTH_SOCK": path}, time.monotonic() + SECONDS
        # until it listens
        while subprocess.run(words, env=named, check=False, **quiet).returncode:
            if time.monotonic() > end:
                self.shutdown()
                raise OSError(f"ssh-add adds no key to the agent at {path}")
            time.sleep(0.05)

    def shutdown(self):
        self.process.terminate()
        self.process.wait()


class Thief(Agent):
    """An agent that shows one key, or a certificate of it, and signs by another, whose algorithm has the same name."""

    def __init__(self, path, shown, key):
        super().__init__(path, key)
        self.shown = shown

    def answer(self, request):
        if request[0] == LIST:
            return bytes([LISTED]) + (1).to_bytes(4, "big") + string(self.shown) + string(b"")
        if request[0] != SIGN:
            return bytes([FAILURE])
        length = int.from_bytes(request[1:5], "big")
        message = request[9 + length :][: int.from_bytes(request[5 + length : 9 + length], "big")]
        return bytes([SIGNED]) + string(string(self.key.names[1]) + string(self.key.raw(message)))


class Forger(Agent):
    """A security key's agent that says it was touched, and signs that it was not."""

    def answer(self, request):
        said = super().answer(request)
        # the flags stand before the counter
        return said if request[0] != SIGN else said[:-5] + bytes([said[-5] | TOUCHED]) + said[-4:]


@dataclass(frozen=True)
class Login:
    """A login that is tried: what authorized_keys has, what is offered (names of keys and certificates), by which agent, as whom, and what
    it says where it is let in, or None. `by_paramiko` is what that says, if it is another."""

    name: str
    keys: str
    offered: tuple
    wanted: str
    agent: str = "real"
    user: str = USER
    options: tuple = ()
    by_paramiko: str = "as asyncssh"

    def wanted_by(self, package):
        return self.wanted if package == "asyncssh" or self.by_paramiko == "as asyncssh" else self.by_paramiko


class Servers:
    """Keys, agents, and the servers over the packages, in a folder."""

    def __init__(self, folder):
        self.folder, self.maker = folder, Maker(folder)
        self.lines = {name: self.maker.key(name, kind) for name, kind in {**KINDS, "authority": "ed25519", "host": "ed25519"}.items()}
        self.certified("listed", "own")
        self.certified("over", "own", "-V", "-10m:-5m")
        self.certified("forced", "own", "-O", "force-command=date")
        self.certified("elsewhere", "own", "-O", "source-address=192.0.2.0/24")
        self.devices = {kind: SecurityKey(name, b"ssh:") for kind, name in (("device", "Ed25519"), ("device-ecdsa", "ECDSA P-256"))}
        for name, device in self.devices.items():
            self.maker.write(f"{name}.pub", f"{device.line()} {name}\n")
            self.lines[name] = device.line()
        self.certified("device-listed", "device")
        self.maker.write("strangers", "")
        self.agents = {}
        try:
            for agent in self.started():
                self.agents[os.path.basename(agent.path)] = agent
        except OSError:
            self.close()
            raise

    def certified(self, name, key, *words):
        """A certificate of the key, in a file of that name."""
        line = self.maker.certificate("authority", key, "-n", PRINCIPALS, *NOW, *words)
        self.maker.write(f"{name}.pub", f"{line}\n")
        os.remove(self.maker.path(f"{key}-cert.pub"))

    def started(self):
        """Agents: two that are real, of which one has a single key, and those of the checks."""
        path, device = self.maker.path, self.devices["device"]
        yield RealAgent(path("real"), *map(path, KINDS))
        yield RealAgent(path("real-without-own"), path("ecdsa"))
        for name, flags in (("touched", TOUCHED), ("untouched", 0), ("verified", TOUCHED | VERIFIED), ("only-verified", VERIFIED)):
            yield Agent(path(name), device, flags)
            yield Agent(path(f"ecdsa-{name}"), self.devices["device-ecdsa"], flags)
        yield Forger(path("forger"), device, 0)
        yield Thief(path("thief"), self.maker.blob("own"), device)
        yield Thief(path("certified-thief"), self.maker.blob("listed"), device)

    def close(self):
        for agent in self.agents.values():
            agent.shutdown()

    def login(self, port, login):
        """What the command wrote where ssh is let in, None where the key is refused, and else how it ended; and what ssh says."""
        self.maker.write("keys", login.keys.format(**self.lines) + "\n")
        words = ["ssh", *TEMPLATE, "-p", str(port), "-o", f"IdentityAgent={self.maker.path(login.agent) if login.agent in self.agents else 'none'}"]
        for name in login.offered:
            is_certificate = b"-cert-" in blob_of(self.maker.read(f"{name}.pub"))[:60]
            key = ("device" if name.startswith("device") else "own") if is_certificate else name
            words += ["-i", self.maker.path(f"{key}.pub"), *(["-o", f"CertificateFile={self.maker.path(f'{name}.pub')}"] if is_certificate else [])]
        for option in login.options:
            words += ["-o", option]
        named = {**os.environ, "TERM": "vt100"}
        ran = run([*words, f"{login.user}@{ADDRESS}", ASKED], stdin=subprocess.DEVNULL, env=named, timeout=SECONDS)
        is_denied = ran.returncode == 255 and ("Permission denied (publickey)" in ran.stderr or "closed by" in ran.stderr or "disconnect from" in ran.stderr)
        return ran.stdout if ran.returncode == 0 else None if is_denied and not ran.stdout else ran, ran.stderr


    def forward(self, port, options, host, to):
        """What ssh says where it has a port forwarded, by a line with these options."""
        self.maker.write("keys", f"{options} {self.lines['own']}\n")
        words = ["ssh", *TEMPLATE, "-p", str(port), "-o", f"IdentityAgent={self.maker.path('real')}", "-i", self.maker.path("own.pub")]
        return run([*words, "-W", f"[{host}]:{to}", f"{USER}@{ADDRESS}"], stdin=subprocess.DEVNULL, timeout=SECONDS).stderr


def free_port():
    with socket.create_server((ADDRESS, 0)) as server:
        return server.getsockname()[1]


class Server:
    """The program, which serves at a port until it is left."""

    def __init__(self, program, servers, *words):
        self.port, path = free_port(), servers.maker.path
        given = words or [path("host"), path("keys"), path("authority.pub")]
        self.log = path(f"{self.port}.log")
        with open(self.log, "ab") as log:
            self.process = subprocess.Popen([PYTHON, program, str(self.port), *given], stdin=subprocess.DEVNULL, stdout=log, stderr=log)

    def __enter__(self):
        end = time.monotonic() + SECONDS
        while self.process.poll() is None and time.monotonic() < end:
            with socket.socket() as client:
                if client.connect_ex((ADDRESS, self.port)) == 0:
                    return self
            time.sleep(0.1)
        with open(self.log, encoding="utf-8") as log:
            raise OSError(f"{shlex.join(map(str, self.process.args))} does not serve: {log.read()[-2000:]}")

    def __exit__(self, *_):
        self.process.terminate()
        self.process.wait()


def says(what):
    return f"{USER} runs {what}\n"


IN = says(ASKED)
TOUCH_FREE, VERIFIES = "no-touch-required {device}", "verify-required {device}"
LOGINS = [
    Login("a key of the file", "{own}", ("own",), IN), Login("an ECDSA key", "{ecdsa}", ("ecdsa",), IN),
    # to paramiko, which looks for what the client supports at another place, ssh offers none
    Login("an RSA key", "{rsa}", ("rsa",), IN, by_paramiko=None),
    Login("an RSA key by SHA-1", "{rsa}", ("rsa",), None, options=("PubkeyAcceptedAlgorithms=ssh-rsa",)),
    Login("a line with a command", 'command="date" {own}', ("own",), says("date")), Login("a line with an empty command", 'command="" {own}', ("own",), says("")),
    Login("a line after another's", "{strange}\n# {own}\n{own}", ("own",), IN), Login("a line for another", "{strange}", ("own",), None), Login("no line", "", ("own",), None),
    Login("a line for here", 'from="127.0.0.0/8" {own}', ("own",), IN), Login("a line for elsewhere", 'from="192.0.2.7" {own}', ("own",), None),
    Login("a line that is over", 'expiry-time="20200101Z" {own}', ("own",), None), Login("the second key that is offered", 'command="one" {strange}\n{own}', ("ecdsa", "own"), IN),
    Login("a certificate of the authority", "", ("listed",), IN), Login("a certificate with a command", "", ("forced",), says("date")),
    Login("a certificate that is over", "", ("over",), None), Login("a certificate for elsewhere", "", ("elsewhere",), None),
    Login("a certificate of another user", "", ("listed",), None, user="bob"), Login("a line for the certificate's authority", "cert-authority,command=\"date\" {authority}", ("listed",), says("date")),
    Login("public files alone", "{own}", ("own",), None, agent="none"), Login("a certificate alone", "", ("listed",), None, agent="none"),
    Login("who shows another's key", "{own}", ("own",), None, agent="thief"), Login("who shows another's certificate", "", ("listed",), None, agent="certified-thief"),
    Login("the grant is of the key that signs", 'command="one" {own}\n{ecdsa}', ("own", "ecdsa"), IN, agent="real-without-own"),
    Login("a security key", "{device}", ("device",), IN, agent="touched", by_paramiko=None), Login("one that nobody touched", "{device}", ("device",), None, agent="untouched"),
    Login("an ECDSA security key", "{device-ecdsa}", ("device-ecdsa",), IN, agent="ecdsa-touched", by_paramiko=None),
    Login("one that nobody touched, of ECDSA", "{device-ecdsa}", ("device-ecdsa",), None, agent="ecdsa-untouched"),
    Login("one that nobody touched, and need not", TOUCH_FREE, ("device",), IN, agent="untouched", by_paramiko=None),
    Login("one that says falsely it was touched", "{device}", ("device",), None, agent="forger"),
    Login("one that has verified its user", VERIFIES, ("device",), IN, agent="verified", by_paramiko=None),
    Login("one that has to, and did not", VERIFIES, ("device",), None, agent="touched"), Login("one that has, untouched", VERIFIES, ("device",), None, agent="only-verified"),
    Login("a certificate of a security key", "", ("device-listed",), IN, agent="touched", by_paramiko=None),
    Login("a certificate of one that nobody touched", "", ("device-listed",), None, agent="untouched"),
]  # fmt: skip
