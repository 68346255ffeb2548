"""What checks/foreign and checks/bindings are made of: keys, certificates and signatures by ssh-keygen, hostile byte strings, and the
Python package over the library, with the examples that use it."""
import importlib.machinery
import importlib.util
import os
import random
import sys
import tempfile
import time

from lib.harness import ROOT, blob_of, new_key, ssh_keygen
from lib.signatures import armoured, unarmoured

from .linked import BINDINGS, run

# the kinds of authorities: the words that make the key, and those that have it sign so
AUTHORITIES = {
    "Ed25519": ("ed25519", []), "ECDSA P-256": ("ecdsa -b 256", []), "ECDSA P-384": ("ecdsa -b 384", []),
    "ECDSA P-521": ("ecdsa -b 521", []), "RSA with SHA-512": ("rsa -b 2048", ["-t", "rsa-sha2-512"]),
    "RSA with SHA-256": ("rsa -b 2048", ["-t", "rsa-sha2-256"]),
}  # fmt: skip
# the first second of certificates, and the one after their last
FIRST, END = 1704067200, 1706745600
WINDOW = ["-V", "20240101000000:20240201000000"]
MIDDLE = (FIRST + END) // 2


def loaded(name):
    """A check without an ending, as a module."""
    loader = importlib.machinery.SourceFileLoader(name.replace("-", "_"), os.path.join(ROOT, "checks", name))
    module = importlib.util.module_from_spec(importlib.util.spec_from_loader(loader.name, loader))
    loader.exec_module(module)
    return module


def module(library):
    """The Python module over that library."""
    os.environ["RAFENDILO_LIBRARY"] = library
    # for the programs in Python, too
    os.environ["PYTHONPATH"] = os.path.join(BINDINGS, "python")
    sys.path.insert(0, os.environ["PYTHONPATH"])
    import rafendilo  # pylint: disable=import-error,import-outside-toplevel

    return rafendilo


class Maker:
    """Keys, certificates and signatures of ssh-keygen in a folder."""

    def __init__(self, folder):
        self.folder = folder

    def path(self, name):
        return f"{self.folder}/{name}"

    def key(self, name, kind):
        return new_key(self.path(name), kind, name).decode()

    def certificate(self, authority, key, *words):
        """The line of a certificate of the key."""
        ssh_keygen("-q", "-s", self.path(authority), "-I", "id", *words, self.path(f"{key}.pub"))
        return self.read(f"{key}-cert.pub")

    def read(self, name):
        with open(self.path(name), encoding="utf-8") as file:
            return file.read().rstrip("\n")

    def blob(self, name):
        """The bytes of the public key of that name, or of the certificate."""
        return blob_of(self.read(f"{name}.pub"))

    def write(self, name, text):
        with open(self.path(name), "w", encoding="utf-8") as file:
            file.write(text)
        return self.path(name)

    def signature(self, key, text, namespace="file", *words):
        """The bytes of an SSH signature of the text by the key, or by the certificate of that name, as the words say."""
        path = self.write("signed", text)
        if os.path.exists(f"{path}.sig"):
            os.remove(f"{path}.sig")
        ssh_keygen("-q", "-Y", "sign", *words, "-n", namespace, "-f", self.path(key), path)
        return unarmoured(self.read("signed.sig"))


def is_verified(folder, number, signature, text, principal, second, allowed, namespace="file"):
    """Whether ssh-keygen takes the bytes for an SSH signature of the text by the principal at that second."""
    room = f"{folder}/judged{number}"
    for name, content in (("allowed", allowed), ("sig", armoured(signature))):
        with open(f"{room}.{name}", "w", encoding="utf-8") as file:
            file.write(content + "\n")
    at = time.strftime("%Y%m%d%H%M%S", time.gmtime(second))
    words = ["ssh-keygen", "-Y", "verify", "-O", f"verify-time={at}", "-f", f"{room}.allowed", "-I", principal]
    return run([*words, "-n", namespace, "-s", f"{room}.sig"], input=text).returncode == 0


class Kind:
    """An authority, whose key stands in the file at `path`, a certificate by it, and a signature by the key of the certificate."""

    def __init__(self, maker, name, number):
        kind, words = AUTHORITIES[name]
        self.name, self.maker, self.authority = name, maker, f"authority{number}"
        self.path = maker.path(f"{self.authority}.pub")
        maker.key(self.authority, kind)
        maker.key(f"user{number}", kind)
        self.line = maker.certificate(self.authority, f"user{number}", "-n", "alice,bob", *WINDOW, *words)
        self.blob = blob_of(self.line)
        self.signature = maker.signature(f"user{number}-cert.pub", "text")

    def cases(self, other):
        """Names, authorities, principals, seconds, and what is wanted."""
        yield "good", self, "alice", MIDDLE, "DONE"
        yield "for another that is listed", self, "bob", MIDDLE, "DONE"
        for name, second in (("the first second", FIRST), ("the second after the first", FIRST + 1), ("the last second", END - 1)):
            yield name, self, "alice", second, "DONE"
        for name, second in (("a second too early", FIRST - 1), ("the second after the last", END), ("one later", END + 1)):
            yield name, self, "alice", second, "OUT_OF_WINDOW"
        yield "another principal", self, "eve", MIDDLE, "USER_NOT_LISTED"
        yield "a beginning of a principal", self, "alic", MIDDLE, "USER_NOT_LISTED"
        yield "another authority", other, "alice", MIDDLE, "USER_NOT_LISTED"

    def is_verified(self, number, authority, principal, second):
        key = " ".join(self.maker.read(f"{authority.authority}.pub").split()[:2])
        allowed = f"{principal} cert-authority {key}"
        return is_verified(self.maker.folder, f"{self.authority}-{number}", self.signature, "text", principal, second, allowed)


def hostile_of():
    """The values and byte strings of checks/hostile: kinds, bytes, and what has to be answered."""
    hostile, chance = loaded("hostile"), random.Random(2)
    with tempfile.TemporaryDirectory() as folder:
        made = list(hostile.values(folder))
    for kind in ("certificate", "key", "ssh-signature"):
        of_kind = [data for other, data in made if other == kind]
        for data in of_kind:
            yield kind, data, "read"
            for changed, wanted in hostile.hostile(kind, data, of_kind, chance):
                yield kind, changed, wanted


class Made:
    """What the cases are made of, in a folder: a certificate under each kind of authority, and hostile bytes. And the Python package
    over the library, a librafendilo.so."""

    def __init__(self, folder, library):
        # ssh-keygen is given local times
        os.environ.update(TZ="UTC", LC_ALL="C.UTF-8")
        self.folder, self.middle = folder, MIDDLE
        self.rafendilo = module(library)
        self.maker = Maker(folder)
        self.kinds = [Kind(self.maker, name, number) for number, name in enumerate(AUTHORITIES)]
        self.hostile = list(hostile_of())

    def key(self, number=0):
        """The blob of the key of a user, by the number of its kind."""
        return self.maker.blob(f"user{number}")

    def authority(self, number=0):
        """The fingerprint of the authority of that kind."""
        return self.rafendilo.fingerprint(self.maker.blob(self.kinds[number].authority))
