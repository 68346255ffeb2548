"""Whole logins at a real sshd, for checks/publickey: ssh asks an agent of the checks to sign, which keeps what it was asked. Each key and
certificate is offered to each server, and sshd says whether it asks for a signature, whether it lets in, and which command runs."""
import getpass
import os
import struct
import subprocess
import time
from concurrent.futures import ThreadPoolExecutor
from dataclasses import dataclass, field, replace

from lib.harness import SSHD, blob_of, line_of, string, take

from .login_options import certificate_by
from .option_lists import SECONDS, listening
from .publickey_material import BOUND, OTHER_SESSION, PLAIN, RSA, SESSION, Material, Request, Shown, Signer, turned
from .publickey_questions import REQUEST, SSHD_ASKS, TOUCH, VERIFY, Login
from .security_key_agent import FAILURE, LIST, LISTED, SIGN, SIGNED, Agent
from .user_key_logins import ADDRESS
from .user_key_material import ALWAYS, Made

# a shell that another one has started reads no file of the user's, which may take long
CONFIGURATION = """\
SetEnv SHLVL=2
HostKey {0}/host
StrictModes no
PidFile none
UsePAM no
PasswordAuthentication no
KbdInteractiveAuthentication no
PermitRootLogin yes
LogLevel VERBOSE
"""
CLIENT = (
    "StrictHostKeyChecking=no", "UserKnownHostsFile=/dev/null", "BatchMode=yes", "IdentityFile=none", "KexAlgorithms=curve25519-sha256", "LogLevel=ERROR",
)  # fmt: skip
# the words by which an agent is told the hash of RSA (draft-miller-ssh-agent)
HASHED = {2: RSA[0], 4: RSA[1]}
ASKED = "asked"


class Recorder(Agent):
    """An agent at the socket of that path, which offers one key or certificate and keeps what it is asked to sign, and how it signs."""

    def __init__(self, path, offered, blob):
        self.offered, self.blob, self.signed = offered, blob, None
        super().__init__(path, None, offered.flags)

    def answer(self, request):
        if request[0] == LIST:
            return struct.pack(">BI", LISTED, 1) + string(self.blob) + string(b"")
        if request[0] != SIGN:
            return bytes([FAILURE])
        message, rest = take(take(request[1:])[1])
        algorithm = HASHED.get(int.from_bytes(rest[:4], "big"))
        session, what = take(message)
        signed = string(OTHER_SESSION) + what if self.offered.is_of_another_session else message
        self.signed = session, what, self.offered.signer.sign(signed, algorithm, self.offered.flags)
        return bytes([SIGNED]) + string(self.signed[2])


@dataclass
class Offered:
    """What a client has: the key that signs, with these flags, the line that it shows, and the number of the authority."""

    name: str
    signer: Signer
    line: str
    authority: int | None = None
    flags: int = 1
    is_of_another_session: bool = False


@dataclass
class Answered:
    """A login: what was asked, and whether sshd asked for a signature, and the word of the command that ran, or none."""

    name: str
    material: Material
    login: Login
    session: bytes
    is_offered: bool
    told: str | None
    details: list = field(default_factory=list)


def telling(word):
    return f'command="echo {word}"'


class Place(Made):
    """Keys, certificates and servers in a folder, and logins there."""

    def __init__(self, folder):
        super().__init__(folder, 0)
        self.user, self.host = getpass.getuser(), Signer(self, "ed25519")
        os.rename(self.path(self.host.name), self.path("host"))
        self.authorities = [Signer(self, it) for it in ("ed25519", "Ed25519")]
        with open(self.path("conf"), "w", encoding="ascii") as file:
            file.write(CONFIGURATION.format(folder))

    def certificate(self, name, key, authority=0, critical=None, extensions=None, principals=None, is_forged=False, **more):
        signer, names = self.authorities[authority], [self.user] if principals is None else principals
        extensions = {"permit-pty": b""} if extensions is None else extensions
        users = b"".join(string(it.encode()) for it in names)
        line = certificate_by(signer.line, signer.sign, key.line, users, critical or {}, extensions, b"id1", 1, 7, ALWAYS)
        if is_forged:
            line = line_of(turned(blob_of(line)))
        return Offered(name, key, line, authority, **more)

    def offered(self):
        """What is offered to each server."""
        plain, rsa, ecdsa, device, other = (Signer(self, it) for it in ("ed25519", "rsa -b 2048", "ecdsa -b 256", "Ed25519", "ECDSA P-256"))
        yield Offered("a key", plain, plain.line)
        yield Offered("an RSA key", rsa, rsa.line)
        yield Offered("a key that signs for another session", ecdsa, ecdsa.line, is_of_another_session=True)
        yield Offered("an untouched security key", device, device.line, flags=0)
        yield Offered("a touched security key", device, device.line)
        yield Offered("a security key of a verified user", other, other.line, flags=5)
        yield self.certificate("a certificate", plain)
        yield self.certificate("a certificate of an RSA key", rsa)
        yield self.certificate("a certificate with a command", plain, critical={"force-command": string(b"echo certified")})
        yield self.certificate("a certificate for nobody", plain, principals=[])
        yield self.certificate("a certificate for elsewhere", plain, critical={"source-address": string(b"10.0.0.0/8")})
        yield self.certificate("a forged certificate", plain, is_forged=True)
        yield self.certificate("a certificate of an untouched security key", device, 1, extensions={"no-touch-required": b""}, flags=0)

    def servers(self, offered):
        """Names of servers, and what they trust: the lines are those of the key or of the authority of what is offered."""
        is_certified = offered.authority is not None
        signer = self.authorities[offered.authority or 0].line
        mark, line = ("cert-authority,", signer) if is_certified else ("", offered.line)

        def text(word, *options):
            return ",".join([*options, f"{mark}{telling(word)}"]).encode() + f" {line}\n".encode()

        refusing = text("refused", 'from="10.0.0.0/8"')
        trusting, user = {"authorities": [signer]}, f"{self.user}\n".encode()
        yield "a file", {"keys": [text("keys0")]}
        yield "a file that refuses, and another", {"keys": [refusing, text("keys1")]}
        yield "a line that refuses, and another", {"keys": [b"# x\n" + refusing + text("keys0")]}
        yield "an authority", trusting
        yield "a file that refuses, an authority, and a command", {"keys": [refusing], "command": text("command0"), **trusting}
        yield "a command", {"keys": [b""], "command": text("command0")}
        yield "a file, and an authority", {"keys": [text("keys0")], **trusting}
        yield "principals", {"principals": [f"{telling('principals0')} {self.user}\n".encode()], **trusting}
        yield "principals, the first of which refuse", {"principals": [b'from="10.0.0.0/8" ' + user + user], "command": text("command0"), **trusting}
        yield "principals of another, and more", {"principals": [b"other\n", f"{telling('principals1')} {self.user}\n".encode()], **trusting}
        yield "a revoked key", {"keys": [text("keys0")], "revoked": f"{offered.signer.line}\n".encode(), **trusting}
        yield "another revoked key", {"keys": [text("keys0")], "revoked": f"{signer}\n".encode(), **trusting}
        yield "touches", {"keys": [text("keys0", "no-touch-required")], "options": TOUCH, **trusting}
        yield "verified users, and larger RSA", {"keys": [text("keys0", "no-touch-required")], "options": VERIFY, "bits": 3072}
        yield "a line that lets touches be", {"keys": [text("keys0", "no-touch-required")]}
        yield "a line for verified users", {"keys": [text("keys0", "verify-required", "no-touch-required")], **trusting}

    def configured(self, number, login):
        """The options of sshd, whose files these are."""
        named = {}
        for kind, texts in {**login.texts(), "authorities": ["".join(f"{it}\n" for it in login.authorities).encode()], "revoked": [login.revoked or b""]}.items():
            named[kind] = [self.path(f"{kind}{it}-{number}") for it in range(len(texts))]
            for path, text in zip(named[kind], texts):
                with open(path, "wb") as file:
                    file.write(text)
        principals = dict(zip(("AuthorizedPrincipalsFile", "AuthorizedPrincipalsCommand"), named["principals"]))
        found = {"AuthorizedKeysFile": " ".join(named["keys"]) or "none", "TrustedUserCAKeys": named["authorities"][0], **principals}
        if named["command"]:
            found["AuthorizedKeysCommand"] = named["command"][0]
        for name in ("AuthorizedKeysCommand", "AuthorizedPrincipalsCommand"):
            if name in found:
                found |= {name: f"/bin/cat {found[name]}", f"{name}User": self.user}
        if login.revoked:
            found["RevokedKeys"] = named["revoked"][0]
        asked = [name for name, bit in (("touch-required", TOUCH), ("verify-required", VERIFY)) if login.options & bit]
        found |= {"PubkeyAuthOptions": ",".join(asked) or "none", "RequiredRSASize": str(max(login.bits, 1024))}
        return [word for name, value in found.items() for word in ("-o", f"{name}={value}")]

    def serve(self, server, number, options):
        """Serves one client."""
        server.settimeout(SECONDS)
        with server, server.accept()[0] as client:
            words = [SSHD, "-i", "-f", self.path("conf"), "-E", self.path(f"log{number}"), *options]
            subprocess.run(words, stdin=client, stdout=client, stderr=subprocess.DEVNULL, check=False, timeout=SECONDS)

    def log_in(self, number, offered, name, trusts):
        """Offers that to such a server."""
        method = BOUND if number % 2 else PLAIN
        login = replace(Login(0, [], [], None, None, None, second=int(time.time()), address=ADDRESS), **trusts)
        agent = Recorder(self.path(f"agent{number}"), offered, blob_of(offered.line))
        server = listening(ADDRESS)
        words = ["ssh", "-F", "none", "-T", "-p", str(server.getsockname()[1]), "-o", f"IdentityAgent={agent.path}"]
        words += ["-o", f"PubkeyAuthentication={'yes' if method == BOUND else 'unbound'}", *(word for it in CLIENT for word in ("-o", it))]
        with ThreadPoolExecutor(1) as pool:
            serving = pool.submit(self.serve, server, number, self.configured(number, login))
            quiet = {"stdin": subprocess.DEVNULL, "stdout": subprocess.PIPE, "stderr": subprocess.PIPE}
            run = subprocess.run([*words, f"{self.user}@{ADDRESS}", f"echo {ASKED}"], **quiet, check=False, timeout=SECONDS)
            serving.result()
        agent.shutdown()
        agent.server_close()
        with open(self.path(f"log{number}"), encoding="utf-8", errors="replace") as file:
            log = file.read()
        told = run.stdout.decode().strip() if "Accepted publickey" in log else None
        material = Material([Shown(offered.line, offered.authority, "")], [it.line for it in self.authorities], [], [self.host.line] * 2)
        session, algorithm, signature = SESSION, "", b""
        if agent.signed:
            session, what, signature = agent.signed
            method, algorithm = request_of(what)
        material.requests.append(Request(0, self.user, algorithm or "unknown", method, offered.flags, signature, ""))
        # where sshd asks for no signature, nothing else may let in here
        login = replace(login, is_named=bool(algorithm), seen=REQUEST if algorithm else SSHD_ASKS)
        return Answered(f"{offered.name} at {name}", material, login, session, agent.signed is not None, told, [log[-1500:], run.stderr[-500:]])


def request_of(what):
    """The method of what is signed, and the name of the algorithm."""
    rest = what[1:]
    parts = []
    for _ in range(3):
        part, rest = take(rest)
        parts.append(part)
    return BOUND if parts[2].startswith(b"publickey-hostbound") else PLAIN, take(rest[1:])[0].decode()


def logins(folder):
    """All logins, each answered."""
    if not os.path.exists(SSHD):
        print(f"there is no {SSHD}, so no login is compared with it")
        return []
    if os.getuid() == 0:
        # where sshd separates its privileges
        os.makedirs("/run/sshd", mode=0o755, exist_ok=True)
    place = Place(folder)
    asked = [(it, *server) for it in place.offered() for server in place.servers(it)]
    with ThreadPoolExecutor(len(os.sched_getaffinity(0))) as pool:
        return list(pool.map(lambda it: place.log_in(it[0], *it[1]), enumerate(asked)))
