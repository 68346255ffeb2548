"""Security keys, for checks/foreign: keys that are made in software and sign as a device does (PROTOCOL.u2f), as authorities, as
what is certified, and as signers of files. Debian has no tool that makes one without a device; ssh-keygen and sshd, which verify
what they sign, are the judges."""
import hashlib
import os
import struct
from concurrent.futures import ThreadPoolExecutor

from cryptography.hazmat.primitives import hashes, serialization
from cryptography.hazmat.primitives.asymmetric import ec, ed25519, utils
from lib.harness import blob_of, line_of, ssh_keygen, string, take
from lib.signatures import mpint, signed_data, ssh_signature

from .key_calls import question_of
from .linked import turned, word
from .made import MIDDLE, WINDOW, is_verified
from .verdicts import LET_IN, said, said_by_checker, said_by_python, status_of

TOUCHED, VERIFIED = 1, 4
COUNTER = 5
# every how many-th turned byte ssh-keygen is asked about
SAMPLED = 9
RAW = (serialization.Encoding.Raw, serialization.PublicFormat.Raw)
POINT = (serialization.Encoding.X962, serialization.PublicFormat.UncompressedPoint)


class SecurityKey:
    """A security key without a device. `names` are that of its type and that of the plain key within."""

    def __init__(self, kind, application):
        self.kind, self.application = kind, application
        if kind == "Ed25519":
            self.names, self.algorithm = (b"sk-ssh-ed25519@openssh.com", b"ssh-ed25519"), "ED25519"
            self.private = ed25519.Ed25519PrivateKey.generate()
            self.parts = [self.private.public_key().public_bytes(*RAW)]
        else:
            self.names, self.algorithm = (b"sk-ecdsa-sha2-nistp256@openssh.com", b"ecdsa-sha2-nistp256"), "P256"
            self.private = ec.generate_private_key(ec.SECP256R1())
            self.parts = [b"nistp256", self.private.public_key().public_bytes(*POINT)]

    def blob(self, application=None):
        return b"".join(map(string, (self.names[0], *self.parts, application or self.application)))

    def plain(self):
        return b"".join(map(string, (self.names[1], *self.parts)))

    def line(self, application=None):
        return line_of(self.blob(application))

    def device_message(self, message, flags=TOUCHED, counter=COUNTER):
        """What the device signs."""
        digests = (hashlib.sha256(it).digest() for it in (self.application, message))
        return struct.pack(">BI", flags, counter).join(digests)

    def raw(self, data):
        """The plain key's signature of the bytes."""
        if self.kind == "Ed25519":
            return self.private.sign(data)
        r, s = utils.decode_dss_signature(self.private.sign(data, ec.ECDSA(hashes.SHA256())))
        return string(mpint(r) + mpint(s))[4:]

    def signature(self, raw, flags=TOUCHED, counter=COUNTER):
        """The blob of the signature, which says these flags and that counter."""
        return string(self.names[0]) + string(raw) + struct.pack(">BI", flags, counter)


def signatures(key, message):
    """Names, keys' blobs, signatures of the message, and whether each is one."""
    blob, raw = key.blob(), key.raw(key.device_message(message))
    yield "as a device signs", blob, key.signature(raw), True
    for name, flags, counter in (
        ("untouched", 0, COUNTER), ("by who is verified", TOUCHED | VERIFIED, COUNTER), ("with all flags", 255, 0),
        ("with the last counter", TOUCHED, 2**32 - 1),
    ):  # fmt: skip
        yield name, blob, key.signature(key.raw(key.device_message(message, flags, counter)), flags, counter), True
    yield "the counter is another", blob, key.signature(raw, counter=COUNTER + 1), False
    yield "the flags are others", blob, key.signature(raw, flags=TOUCHED | VERIFIED), False
    yield "the application is another", key.blob(key.application + b"x"), key.signature(raw), False
    yield "of another message", blob, key.signature(key.raw(key.device_message(message + b"s"))), False
    yield "the message itself is signed", blob, key.signature(key.raw(message)), False
    yield "the digest of the message is signed", blob, key.signature(key.raw(hashlib.sha256(message).digest())), False
    yield "another key signed", blob, key.signature(SecurityKey(key.kind, key.application).raw(key.device_message(message))), False
    yield "as a plain key signs", blob, string(key.names[1]) + string(key.raw(message)), False
    yield "as a plain key says it", blob, string(key.names[1]) + string(key.raw(key.device_message(message))), False


def check_signatures(judge):
    """What security keys sign, and do not, under the key: nothing is asked where key and signature do not go together."""
    for kind in ("Ed25519", "ECDSA"):
        cases = []
        for name, blob, signature, is_one in signatures(SecurityKey(kind, b"ssh:"), b"text"):
            question = f"is-{question_of(blob, b'text', signature)}"
            is_unasked = not is_one and judge.answers.to(question) == "40"
            cases.append((name, question, "40" if is_unasked else f"0 {int(is_one)}"))
        judge.hold(f"a signature by a security key of {kind}", cases)


class Judges:
    """What the library, the examples over it and OpenSSH say."""

    def __init__(self, judge, built):
        self.judge, self.count, self.built, self.maker = judge, judge.count, built, judge.made.maker
        self.rafendilo = judge.made.rafendilo

    def of_certificates(self, lines, authority, principal, second):
        """What sshkey-check and the Python package say of each line."""
        path = self.maker.write("authority.pub", f"{authority}\n")
        by_c = said_by_checker([f"{self.built.sanitized}/sshkey-check"], path, principal, second, lines)
        by = [self.rafendilo.fingerprint(blob_of(authority))]
        return by_c, said_by_python(self.rafendilo, by, principal, second, lines)

    def is_taken(self, lines):
        """Whether ssh-keygen takes each line for one of a certificate: it verifies what the authority signed."""

        def taken(numbered):
            path = self.maker.write(f"taken{numbered[0]}", f"{numbered[1]}\n")
            return ssh_keygen("-L", "-f", path, check=False).returncode == 0

        with ThreadPoolExecutor(len(os.sched_getaffinity(0))) as pool:
            return list(pool.map(taken, enumerate(lines)))


def with_signer(signature, signer):
    """The SSH signature with other bytes in the place of the key that signed, which it is not over (PROTOCOL.sshsig)."""
    return signature[:10] + string(signer) + take(signature[10:])[1]


def certified(key, certificate, authority, counter):
    """The certificate with a security key in place of the authority, which signs with COUNTER and says another, if one is given."""
    signed = certificate[: certificate.rindex(string(authority))] + string(key.blob())
    return signed + string(key.signature(key.raw(key.device_message(signed)), counter=counter))


def fields_by(maker, words):
    """What ssh-keygen writes of a certificate in front of the authority's key."""
    made = blob_of(maker.certificate("authority0", "user1", *words))
    return made[: made.rindex(string(blob_of(maker.read("authority0.pub"))))]


# ---- authorities


def check_question(judges, key, certificate, signed, raw):
    """The question is about the plain key and what the device signed."""
    wanted = (key.plain(), key.device_message(signed), raw)
    answer = f"0 {int(judges.rafendilo.Algorithm[key.algorithm])} {' '.join(map(word, wanted))}"
    judges.judge.hold("the question of a certificate", [(f"by a security key of {key.kind}", f"certificate {certificate.hex()}", answer)])


def check_authority(judges, key, window):
    """Certificates that a security key signed, and others, are valid as OpenSSH says."""
    middle, words = window
    fields = fields_by(judges.maker, words)
    raw = key.raw(key.device_message(fields + string(key.blob())))
    good = fields + string(key.blob()) + string(key.signature(raw))
    check_question(judges, key, good, fields + string(key.blob()), raw)
    names, lines, wanted = [], [], []
    for name, _, _, _ in signatures(key, b""):
        # what is signed has the authority's key in it, so that each is made of its own bytes
        authority = key.blob(key.application + b"x") if "application" in name else key.blob()
        _, blob, signature, is_one = next(it for it in signatures(key, fields + string(authority)) if it[0] == name)
        lines.append(line_of(fields + string(blob) + string(signature)))
        names.append((name, line_of(blob)))
        wanted.append(is_one)
    for (name, signer), line, is_one, taken in zip(names, lines, wanted, judges.is_taken(lines)):
        by_c, by_python = judges.of_certificates([line], signer, "alice", middle)
        answer = said(judges.rafendilo, judges.rafendilo.Status.DONE if is_one else judges.rafendilo.Status.NOT_SIGNED)
        same = by_c == by_python == [answer] and taken == is_one
        judges.count.check(f"a certificate by a security key of {key.kind}: {name}", same, by_c, by_python, f"ssh-keygen: {taken}")
    check_window(judges, key, good, window)
    check_made(judges, key, middle)
    check_turned_certificate(judges, key, good, middle)


def check_made(judges, key, middle):
    """A certificate of a security key that the library makes, and the same key signs, is one for OpenSSH too."""
    made = judges.rafendilo.make_certificate(
        key.blob(), key.blob(), lambda message: key.signature(key.raw(key.device_message(message))), principals=["alice"],
        valid_before=middle + 1, extensions={"no-touch-required": ""},
    )  # fmt: skip
    line = line_of(made)
    found = judges.of_certificates([line], key.line(), "alice", middle)
    taken = judges.is_taken([line])
    same = found == ([LET_IN],) * 2 and taken == [True]
    judges.count.check(f"a certificate that is made for a security key of {key.kind}", same, found, taken)


def check_window(judges, key, certificate, window):
    """Where the certificate is valid for another second or principal, as `ssh-keygen -Y verify` says of what its key signs."""
    maker, middle = judges.maker, window[0]
    signature = with_signer(maker.signature("user1", "text"), certificate)
    for principal, second, wanted in (
        ("alice", middle, "DONE"), ("eve", middle, "USER_NOT_LISTED"), ("alice", 0, "OUT_OF_WINDOW"),
        ("alice", 2 * middle, "OUT_OF_WINDOW"),
    ):  # fmt: skip
        found = judges.of_certificates([line_of(certificate)], key.line(), principal, second)
        # ssh-keygen takes no time before its first day
        at = max(second, 86400)
        judged = is_verified(maker.folder, "device", signature, "text", principal, at, f"{principal} cert-authority {key.line()}")
        same = found == ([said(judges.rafendilo, judges.rafendilo.Status[wanted])],) * 2 and judged == (wanted == "DONE")
        judges.count.check(f"and for {principal} at {second}", same, found, f"ssh-keygen: {judged}")


def check_turned_certificate(judges, key, certificate, middle):
    lines = [line_of(it) for it in turned(certificate)]
    by_c, by_python = judges.of_certificates(lines, key.line(), "alice", middle)
    none = len(by_c) == len(lines) and LET_IN not in by_c
    name = f"a certificate by a security key of {key.kind}, the lowest bit of each of {len(lines)} bytes turned"
    judges.count.check(f"{name}: none is valid", none, *[it for it in by_c if it == LET_IN][:1])
    judges.count.check(f"{name}: C and Python say the same", by_c == by_python)
    # the flags, the counter and the signature stand at the end
    taken = judges.is_taken([*lines[:-80:SAMPLED], *lines[-80:]])
    judges.count.check(f"and ssh-keygen takes none of {len(taken)} of them", not any(taken), sum(taken))


# ---- what is certified


def check_subject(judges, key, window):
    """A security key that ssh-keygen certifies, and what it signs under that certificate."""
    maker, (middle, words) = judges.maker, window
    name = f"device-{key.kind}"
    maker.write(f"{name}.pub", f"{key.line()}\n")
    line = maker.certificate("authority0", name, *words)
    certificate, authority = blob_of(line), maker.read("authority0.pub")
    by_c, by_python = judges.of_certificates([line], authority, "alice", middle)
    listed = judges.judge.ask("certificates of a security key", [f"lists {certificate.hex()}"])[0].split(" ")
    valid = by_c == by_python == [LET_IN] and judges.is_taken([line]) == [True]
    whole = listed[2] == key.blob().hex() and judges.rafendilo.certificate_contents(certificate).key == key.blob()
    judges.count.check(f"a certificate of a security key of {key.kind} is valid, and has the key", valid and whole, by_c, listed)
    signed = signed_data(b"file", b"", b"sha512", b"text")
    file = ssh_signature(certificate, key.signature(key.raw(key.device_message(signed))))
    allowed = f"alice cert-authority {authority}"
    judged = [is_verified(maker.folder, "subject", file, "text", whom, middle, allowed) for whom in ("alice", "eve")]
    judges.count.check("and ssh-keygen takes what it signs, by the principal", judged == [True, False], judged)


# ---- files


def check_file(judges, key):
    """Signatures of files by a security key, as `ssh-keygen -Y verify` says."""
    signed = signed_data(b"file", b"", b"sha512", b"text")
    for name, blob, signature, is_one in signatures(key, signed):
        file, line = ssh_signature(blob, signature), line_of(blob)
        status = status_of(judges.rafendilo, judges.rafendilo.check_sshsig, file, "file", b"text", {judges.rafendilo.fingerprint(blob)})
        judged = is_verified(judges.maker.folder, "file", file, "text", "signer", MIDDLE, f"signer {line}")
        same = (status == 0) == judged == is_one
        judges.count.check(f"a file's signature by a security key of {key.kind}: {name}", same, status, judged)
    check_turned_signature(judges, key, signed)


def check_zero(judges, kind):
    """A zero byte in the application, where OpenSSH reads otherwise, as docs/OPENSSH.md says: at the end it is no part of the text,
    and within the text is none. Here it is a byte like others."""
    signed, ended, cut = signed_data(b"file", b"", b"sha512", b"text"), SecurityKey(kind, b"ssh:\0"), SecurityKey(kind, b"ssh:")
    for name, application, is_one in (("with", ended.application, True), ("without", cut.application, False)):
        cut.application = application
        file = ssh_signature(ended.blob(), ended.signature(ended.raw(cut.device_message(signed))))
        status = status_of(judges.rafendilo, judges.rafendilo.check_sshsig, file, "file", b"text", {hashlib.sha256(ended.blob()).digest()})
        judged = is_verified(judges.maker.folder, "zero", file, "text", "signer", MIDDLE, f"signer {ended.line()}")
        same = (status == 0) == is_one and judged != is_one
        judges.count.check(f"a zero byte after the application of {kind}, signed {name} it", same, status, f"ssh-keygen: {judged}")
    within = SecurityKey(kind, b"ssh:\0x")
    taken = ssh_keygen("-l", "-f", judges.maker.write("zero.pub", f"{within.line()}\n"), check=False).returncode == 0
    digest = judges.rafendilo.fingerprint(within.blob())
    same = not taken and digest == hashlib.sha256(within.blob()).digest()
    judges.count.check(f"a zero byte within the application of {kind}", same, f"ssh-keygen: {taken}")


def check_zero_in_principal(judges, key):
    """The same of a principal: who is listed with a zero byte after is nobody else here."""
    certified_key = blob_of(judges.maker.read("user0.pub"))
    for principal, is_taken in (("alice\0", True), ("al\0ice", False)):
        # the package makes none with a zero byte
        plain = principal.replace("\0", "~")
        message = judges.rafendilo.certificate_to_be_signed(certified_key, key.blob(), principals=[plain])
        message = message.replace(plain.encode(), principal.encode())
        made = judges.rafendilo.join_certificate(message, key.signature(key.raw(key.device_message(message))))
        found = judges.of_certificates([line_of(made)], key.line(), "alice", MIDDLE)
        file = with_signer(judges.maker.signature("user0", "text"), made)
        judged = is_verified(judges.maker.folder, "zero", file, "text", "alice", MIDDLE, f"alice cert-authority {key.line()}")
        refused = said(judges.rafendilo, judges.rafendilo.Status.USER_NOT_LISTED)
        same = judged == is_taken and found == ([refused],) * 2
        judges.count.check(f"the principal {principal!r} is not alice", same, found, f"ssh-keygen: {judged}")


def check_turned_signature(judges, key, signed):
    """With a bit turned of the key or of the signature, nothing is one; C asks the same questions as Python."""
    blob, signature = key.blob(), key.signature(key.raw(key.device_message(signed)))
    others = [*((it, signed, signature) for it in turned(blob)), *((blob, signed, it) for it in turned(signature))]
    said = judges.judge.ask("signatures of a security key with a bit turned", [f"is-{question_of(*it)}" for it in others])
    judges.judge.ask("and the same without a verification", [question_of(*it) for it in others])
    valid = [at for at, it in enumerate(said) if it == "0 1"]
    judges.count.check(f"of {len(others)} keys and signatures of {key.kind} with a bit turned libcrypto verifies none", not valid, valid)


def check_security_keys(judge, built):
    judges, window = Judges(judge, built), (MIDDLE, ["-n", "alice,bob", *WINDOW])
    for key in (SecurityKey("Ed25519", b"ssh:"), SecurityKey("ECDSA P-256", b"ssh:an application")):
        check_authority(judges, key, window)
        check_subject(judges, key, window)
        check_file(judges, key)
        check_zero(judges, key.kind)
    check_zero_in_principal(judges, key)
