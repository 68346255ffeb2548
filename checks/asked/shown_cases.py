"""What the programs of docs/LOGIN.md, HOST.md, SIGNED-FILE.md and ISSUING.md are given, and what they have to say, for checks/readme. Keys and
certificates are public: whoever has these alone has signed nothing. What a client signs is put together in userauth_calls.py."""
import base64
import os
import sys
import tempfile
import time
from dataclasses import dataclass

from cryptography.hazmat.primitives import serialization
from lib.harness import blob_of
from lib.signatures import signed

from .userauth_calls import SESSION, Request

ALGORITHM, ADDRESS = "ssh-ed25519-cert-v01@openssh.com", "192.0.2.1"
# said of what is let in, known, or signed; else the number of the refusal
GOOD = "good"
# by which the listings of docs/ISSUING.md in C and Rust have a message signed: with the key of the seed beside it
SIGN = f"""\
#!{sys.executable}
import os
import sys
from cryptography.hazmat.primitives.asymmetric.ed25519 import Ed25519PrivateKey
os.chdir(os.path.dirname(os.path.abspath(__file__)))
read = lambda name: open(name, "rb").read()
string = lambda data: len(data).to_bytes(4, "big") + data
with open("signed", "wb") as file:
    file.write(string(b"ssh-ed25519") + string(Ed25519PrivateKey.from_private_bytes(read("seed")).sign(read("message"))))
"""


@dataclass(frozen=True)
class Case:
    """What a listing is given, by the names of shown_frames.py, and what it says: GOOD or a number."""

    decision: str
    name: str
    given: dict
    wanted: object

    def folder(self, room):
        """A folder of its own with what is given."""
        path = tempfile.mkdtemp(dir=room)
        for name, data in self.given.items():
            with open(f"{path}/{name}", "wb") as file:
                file.write(data)
            os.chmod(f"{path}/{name}", 0o700 if name == "sign" else 0o600)
        return path


def logins(maker):
    authority, own, strange = (maker.key(f"shown-{it}", "ed25519") for it in ("authority", "own", "strange"))
    listed, unlisted = (maker.certificate("shown-authority", "shown-own", "-V", "-5m:+5m", "-n", it) for it in ("alice", "eve"))

    def of(key, line, certificate=listed, session=SESSION):
        return signed(maker.path(f"shown-{key}"), line, Request(ALGORITHM.encode(), blob_of(certificate), session=session).message())

    # the authority's signature, of one of its keys, stands last in the certificate
    theirs, good = blob_of(listed)[-83:], of("own", own)
    for name, offered, signature, wanted in (
        ("its user, who has signed", listed, good, GOOD), ("public files alone", listed, b"", 86),
        ("public files alone, and the signature in one", listed, theirs, 84), ("who signs by another key", listed, of("strange", strange), 84),
        ("who has signed another session", listed, of("own", own, session=SESSION[::-1]), 84),
        ("who has signed with another certificate", listed, of("own", own, unlisted), 84),
        ("another user's", unlisted, of("own", own, unlisted), 90), ("a plain key", own, good, 90),
    ):  # fmt: skip
        yield Case("LOGIN", name, {
            "authority_line": authority.encode(), "blob": blob_of(offered), "algorithm": ALGORITHM.encode(), "signature": signature,
            "authorized_keys": b"", "session_id": SESSION, "client": bytes(map(int, ADDRESS.split("."))),
        }, wanted)  # fmt: skip


def hosts(maker, words=("-V", "-5m:+5m")):
    by, key = (maker.key(f"shown-{it}", "ed25519") for it in ("host-authority", "host-key"))
    line = f"@cert-authority db.example.org {by}\n"
    for name, texts, listed, wanted in (
        ("its authority", ("\n", line), "db.example.org", GOOD), ("its key", (f"db.example.org {key}\n", "\n"), "db.example.org", GOOD),
        ("a revoked key", (line, f"@revoked * {key}\n"), "db.example.org", 50), ("another host's", (line, "\n"), "www.example.org", 34),
        ("nobody's", ("\n", "\n"), "db.example.org", 53),
    ):  # fmt: skip
        certificate = blob_of(maker.certificate("shown-host-authority", "shown-host-key", "-h", *words, "-n", listed))
        yield Case("HOST", name, {"known_hosts": texts[0].encode(), "ssh_known_hosts": texts[1].encode(), "certificate": certificate}, wanted)


def signed_files(maker, lines=1 << 18):
    own = maker.key("shown-signer", "ed25519")
    text, line = "text\n" * lines, f'alice@example.org namespaces="file" {own}\n'
    for name, signers, content, words, wanted in (
        ("by SHA-256", line, text, ("-O", "hashalg=sha256"), GOOD), ("by SHA-512", line, text, (), GOOD), ("another text", line, text + text, (), 30),
        ("another identity's", line.replace("alice", "eve"), text, (), 55), ("for another namespace", line.replace("file", "git"), text, (), 55),
    ):  # fmt: skip
        maker.signature("shown-signer", text, "file", *words)
        yield Case("SIGNED-FILE", name, {
            "file": content.encode(), "file.sig": maker.read("signed.sig").encode() + b"\n", "allowed_signers": signers.encode(),
        }, wanted)  # fmt: skip


def seed_of(path):
    """The private half of an Ed25519 key."""
    with open(path, "rb") as file:
        key = serialization.load_ssh_private_key(file.read(), None)
    return key.private_bytes(serialization.Encoding.Raw, serialization.PrivateFormat.Raw, serialization.NoEncryption())


def issuings(maker):
    """What is made is asked about by is_issued() and is_valid()."""
    authority, own = (maker.key(f"shown-{it}", "ed25519") for it in ("issuer", "issued"))
    given = {"key": blob_of(own), "authority": blob_of(authority), "nonce": os.urandom(32), "seed": seed_of(maker.path("shown-issuer"))}
    yield Case("ISSUING", "a certificate", {**given, "sign": SIGN.encode()}, None)


def cases(maker):
    return [*logins(maker), *hosts(maker), *signed_files(maker), *issuings(maker)]


def is_issued(rafendilo, case, certificate, now):
    """Whether the bytes are the certificate that docs/ISSUING.md shows."""
    try:
        contents, fields = rafendilo.certificate_contents(certificate), rafendilo.certificate_fields(certificate)
    except rafendilo.Refused:
        return False
    said = contents.key, contents.key_id, contents.principals, dict(contents.critical_options), dict(contents.extensions), fields.serial
    window = fields.valid_before - fields.valid_after == 3600 and abs(now - fields.valid_after) < 300
    return said == (case.given["key"], "alice's laptop", ("alice",), {}, {"permit-pty": ""}, 1) and window


def is_valid(rafendilo, case, certificate):
    """Whether it is valid for alice by the authority alone."""
    try:
        rafendilo.check_certificate(certificate, int(time.time()), [rafendilo.fingerprint(case.given["authority"])], "alice")
    except rafendilo.Refused:
        return False
    return True


def in_rattle(case):
    """The line of a case for the program in Rattle, which has no file for what is empty."""
    names = {
        "HOST": ("known_hosts", "ssh_known_hosts", "certificate"), "SIGNED-FILE": ("allowed_signers", "file", "file.sig"),
        "ISSUING": ("key", "authority", "nonce"),
    }  # fmt: skip
    return " ".join([case.decision, *(base64.b64encode(case.given[it]).decode() for it in names[case.decision])])
