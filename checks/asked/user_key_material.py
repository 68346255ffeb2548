"""Keys and certificates that checks/user-keys asks about, as they are made anew and as they are stored."""
import hashlib
import itertools

from lib.harness import blob_of, line_of, reads_dsa, string

from .login_options import certificate
from .made import Maker
from .security_key_calls import SecurityKey
from .user_key_questions import CIDR, COMMANDS, NAMES, NOW, Certificate, Draw, Material

KEYS = [
    *["ed25519"] * 4, *["ecdsa -b 256"] * 2, "ecdsa -b 384", "ecdsa -b 521", *["rsa -b 2048"] * 2, *["Ed25519"] * 3, *["ECDSA P-256"] * 2,
    "dsa",
]  # fmt: skip
AUTHORITIES = ["ed25519", "ed25519", "ecdsa -b 256", "rsa -b 2048"]
OTHERS = ["ed25519", "ecdsa -b 256", "rsa -b 2048", "Ed25519"]
CERTIFICATES = 240
FLAGS = ["permit-X11-forwarding", "permit-agent-forwarding", "permit-port-forwarding", "permit-pty", "permit-user-rc", "no-touch-required"]
ALWAYS = (0, 2**64 - 1)
WINDOWS = [*[ALWAYS] * 16, (NOW - 60, NOW + 60), (NOW, NOW + 1), (NOW + 1, NOW + 60), (NOW - 60, NOW), (NOW - 60, NOW + 1)]


class Made(Maker):
    """Makes keys and certificates in a folder, drawn from a seed but for the keys."""

    def __init__(self, folder, seed):
        super().__init__(folder)
        self.draw, self.numbers = Draw(seed), itertools.count()

    def new(self, kind):
        """The file of a new key and its line: one of those kinds, or a security key without a device."""
        name = f"key{next(self.numbers)}"
        line = self.key(name, kind) if kind[0].islower() else SecurityKey(kind, b"ssh:").line()
        return name, " ".join(line.split()[:2])

    def options(self):
        """Critical options and extensions."""
        critical, happens = {}, self.draw.happens
        if happens(0.2):
            critical["force-command"] = string(self.draw.pick(COMMANDS).encode())
        if happens(0.02):
            critical["odd"] = b""
        if happens(0.2):
            critical["source-address"] = string(self.draw.pick(CIDR).encode())
        if happens(0.15):
            critical["verify-required"] = string(b"x") if happens(0.05) else b""
        extensions = {it: string(b"y") if happens(0.01) else b"" for it in sorted(FLAGS) if happens(0.6)}
        if happens(0.03):
            extensions = {**extensions, "zodd@example.com": string(b"y")}
        return critical, extensions

    def principals(self):
        if self.draw.happens(0.04):
            return []
        names = [self.draw.pick(NAMES) for _ in range(self.draw.pick([0, 1, 1, 1, 2, 2, 3]))]
        return sorted({*names, *["alice"] * self.draw.happens(0.7)}, key=lambda it: self.draw.random())

    def certificate_by(self, authority, signer, key):
        critical, extensions = self.options()
        names = b"".join(string(it.encode()) for it in self.principals())
        key_id, kind = f"id{self.draw.below(99)}".encode(), 1 if self.draw.happens(0.97) else 2
        window, serial = self.draw.pick(WINDOWS), self.draw.below(2**32)
        line = certificate(self, authority, key, names, critical, extensions, key_id, kind, serial, window)
        is_forged = self.draw.happens(0.02)
        if is_forged:
            blob = blob_of(line)
            line = line_of(blob[:-1] + bytes([blob[-1] ^ 1]))
        return Certificate(line, signer, is_forged)


def made(folder, seed):
    """New keys, and certificates that are drawn from the seed."""
    maker = Made(folder, seed)
    kinds = [it for it in KEYS if it != "dsa" or reads_dsa()]
    keys, authorities, others = ([maker.new(it) for it in each] for each in (kinds, AUTHORITIES, OTHERS))
    keys, others = ([line for _, line in it] for it in (keys, others))
    certificates = [maker.certificate_by(*maker.draw.pick(authorities), maker.draw.pick(keys)) for _ in range(CERTIFICATES)]
    return Material(keys, [line for _, line in authorities], others, certificates)


def lines_of(material):
    """The material as it is stored, a line each."""
    for name, lines in (("key", material.keys), ("authority", material.authorities), ("other", material.others)):
        yield from (f"{name} {it}" for it in lines)
    for it in material.certificates:
        yield f"{'forged' if it.is_forged else 'certificate'} {material.authorities.index(it.authority)} {it.line}"


def read_material(lines):
    """The material of such lines."""
    found = Material([], [], [], [])
    of_keys = {"key": found.keys, "authority": found.authorities, "other": found.others}
    for line in lines:
        name, rest = line.split(" ", 1)
        if name in of_keys:
            of_keys[name].append(rest)
        else:
            number, certified = rest.split(" ", 1)
            found.certificates.append(Certificate(certified, found.authorities[int(number)], name == "forged"))
    return found


def sum_of(asked):
    """The checksum of all questions: another Python that drew others is told apart."""
    return hashlib.sha256(b"\n".join(it.spelled() for it in asked)).hexdigest()
