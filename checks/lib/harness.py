"""What the checks share: how they count, what they make with ssh-keygen, and how they spell questions of the table."""
import base64
import functools
import os
import re
import shutil
import struct
import subprocess

ROOT = os.path.dirname(os.path.dirname(os.path.dirname(os.path.abspath(__file__))))
# that of the system is on no user's PATH, and checks/with-openssh has another one there
SSHD = shutil.which("sshd", path=f"{os.environ.get('PATH', os.defpath)}:/usr/sbin") or "/usr/sbin/sshd"


def unproved_program(crate):
    """The program that checks/unproved --optimized builds of that crate."""
    return f"{ROOT}/crates/{crate}/out/unproved/{crate}"


def built(crate):
    """The program of that crate, the proved or the unproved one, whichever was built last."""
    programs = [unproved_program(crate), f"{ROOT}/crates/{crate}/out/{crate}"]
    return max(programs, key=lambda it: os.path.getmtime(it) if os.path.isfile(it) else 0)


# the built program that answers lines of questions
BUILT_TABLE = built("sshkey_cases")


class Count:
    """Counts what holds, and says the name of each check."""

    def __init__(self):
        self.passed = self.failed = 0

    def check(self, name, holds, *details):
        self.note(name, holds, *details)
        if holds:
            print(f"ok: {name}", flush=True)

    def note(self, name, holds, *details):
        """The same for one of many, whose name is said only where it fails."""
        self.passed += bool(holds)
        self.failed += not holds
        if not holds:
            print(f"FAILED: {name}", *(f"  {it}" for it in details), sep="\n", flush=True)

    def add(self, other):
        """Counts what the other counted, too."""
        self.passed += other.passed
        self.failed += other.failed

    def finish(self):
        """Prints the last line of a check and returns its status."""
        print(f"{self.passed} passed, {self.failed} failed")
        return 1 if self.failed or not self.passed else 0


def string(data):
    """A string as SSH writes it: its length in four bytes, and its bytes."""
    return struct.pack(">I", len(data)) + data


def take(data):
    """The string in front of the bytes, and what follows it."""
    length = struct.unpack(">I", data[:4])[0]
    return data[4 : 4 + length], data[4 + length :]


def blob_of(line):
    """The bytes in the line of a key or of a certificate."""
    return base64.b64decode(line.split()[1])


def line_of(blob):
    """The line of the bytes of a key or of a certificate, under the name that they begin with, if that may stand there."""
    name = blob[4:][: int.from_bytes(blob[:4], "big")].decode("latin-1")
    first = name if re.fullmatch(r"[A-Za-z0-9@.-]{1,80}", name) else "certificate"
    return f"{first} {base64.b64encode(blob).decode()}"


def unarmoured(text):
    """The bytes in a text of Base64 between a first and a last line."""
    return base64.b64decode("".join(text.splitlines()[1:-1]))


@functools.cache
def openssh():
    """The version of the programs that are first in PATH, as 10 and 6: where versions differ, a row says since which."""
    said = subprocess.run(["ssh", "-V"], capture_output=True, encoding="utf-8", check=True).stderr
    return tuple(map(int, re.match(r"OpenSSH_(\d+)\.(\d+)", said).groups()))


def reads_dsa():
    """Whether OpenSSH reads DSA."""
    return openssh() < (10, 0)


def ssh_keygen(*words, **how):
    """A run of ssh-keygen, which has to succeed unless check=False is given."""
    return subprocess.run(["ssh-keygen", *words], **{"check": True, "capture_output": True, "stdin": subprocess.DEVNULL, **how})


def new_key(path, kind, comment=""):
    """The line of a new public key, whose parts stand in the files path and path.pub; None where ssh-keygen makes no such key,
    as newer versions do for DSA."""
    for file in (path, f"{path}.pub"):
        if os.path.exists(file):
            os.remove(file)
    run = ssh_keygen("-q", "-t", *kind.split(), "-N", "", "-C", comment, "-f", path, check=kind != "dsa")
    if run.returncode:
        return None
    with open(f"{path}.pub", "rb") as file:
        return file.read().removesuffix(b"\n")


def spelled(text):
    """The text as a question of the table spells it."""
    return " ".join(byte.encode("utf-8", "surrogateescape").hex() for byte in text) if text else '""'
