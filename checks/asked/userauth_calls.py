"""What a client signs at a login, and whether a signature by a security key has the flags that server and grant want. Keys and
signatures are made here, by ssh-keygen's keys and by security keys without a device, over the bytes of RFC 4252 (section 7) and of
OpenSSH's PROTOCOL (publickey-hostbound-v00@openssh.com), which are put together here too."""
import hashlib
import itertools
from dataclasses import dataclass, replace

from lib.harness import blob_of, line_of, string, take
from lib.signatures import mpint, signed

from .issued_keys import line as issued_line
from .issued_keys import of_bits
from .linked import data_of, word
from .made import WINDOW
from .publickey import AUTHORITY, KEYS, REQUEST, SSHD, TRANSPORT, WITH_FLAGS, Granted, Login, refused
from .security_key_calls import TOUCHED, VERIFIED, SecurityKey

SESSION, USER = bytes(range(32)), b"alice"
NO_TOUCH, NO_VERIFICATION = 64, 128
KINDS = {"Ed25519": "ed25519", "ECDSA P-256": "ecdsa -b 256", "ECDSA P-384": "ecdsa -b 384", "ECDSA P-521": "ecdsa -b 521", "RSA": "rsa -b 2048"}
# the name of a certificate's algorithm has this; of an RSA key's signature with SHA-512 it is that of SHA-256
CERTIFICATE, OTHER_HASH = b"-cert-v01@openssh.com", {b"rsa-sha2-512": b"rsa-sha2-256"}
# how a security key's signature is asked about
BY_WHOM = {"asked about here": REQUEST, "by a transport": TRANSPORT, "by one that tells flags": WITH_FLAGS, "by sshd": SSHD}


@dataclass(frozen=True)
class Request:
    """A client's request."""

    algorithm: bytes
    key: bytes
    signature: bytes = b""
    session: bytes = SESSION
    user: bytes = USER
    host_key: bytes = None

    def message(self, service=b"ssh-connection"):
        """What the client signs."""
        method = b"publickey" if self.host_key is None else b"publickey-hostbound-v00@openssh.com"
        fields = [string(self.session), b"\x32", *map(string, (self.user, service, method)), b"\1", string(self.algorithm), string(self.key)]
        return b"".join([*fields, *([] if self.host_key is None else [string(self.host_key)])])

    def login(self, **trusted):
        """The login in which it is asked about."""
        given = {"session": self.session, "host_key": self.host_key, "signature": self.signature, "how": REQUEST}
        return Login(self.key, self.user, self.algorithm, **given, **trusted)


@dataclass(frozen=True)
class Signer:
    """Who signs requests: the name of the plain key's signature, that in the request, what is offered, and whom the server trusts."""

    kind: str
    path: str
    line: str
    plain: bytes
    algorithm: bytes
    offered: bytes
    trusted: dict

    @property
    def is_of_certificate(self):
        return b"-cert-" in self.algorithm

    def request(self, host_key=None):
        unsigned = Request(self.algorithm, self.offered, host_key=host_key)
        return replace(unsigned, signature=self.signature(unsigned.message()))

    def signature(self, message):
        return signed(self.path, self.line, message)

    def granted(self):
        """What is wanted where it is let in: the front, up to the line."""
        return f"0 {1 + self.is_of_certificate} {AUTHORITY if self.is_of_certificate else KEYS} 0 {int(not self.is_of_certificate)}"


def signers(maker):
    """Signers with keys of each kind, and with certificates of them."""
    for number, (kind, words) in enumerate(KINDS.items()):
        line, path = maker.key(f"client{number}", words), maker.path(f"client{number}")
        # RFC 8332: an RSA key has two algorithms; signed() signs with SHA-512
        plain = line.split()[0].encode().replace(b"ssh-rsa", b"rsa-sha2-512")
        yield Signer(kind, path, line, plain, plain, blob_of(line), {"keys": (f"{line}\n".encode(),)})
        certificate, by = blob_of(maker.certificate("authority0", f"client{number}", *WINDOW, "-n", "alice")), hashlib.sha256(maker.blob("authority0")).digest()
        yield Signer(f"{kind}, with a certificate", path, line, plain, plain + CERTIFICATE, certificate, {"authorities": by})


def by_keys(maker):
    """Names, signed requests by each signer, bound to the host and not, and the signers."""
    host = blob_of(maker.key("userauth-host", "ed25519"))
    for signer in signers(maker):
        for bound, host_key in (("", None), (", bound to the host", host)):
            yield f"by {signer.kind}{bound}", signer.request(host_key), signer


def questions_of(judge, request, signer):
    """The words of the questions of a login by the request: the authority's, and the client's, which is about these bytes."""
    rafendilo, key = judge.made.rafendilo, blob_of(signer.line)
    told = []
    if signer.is_of_certificate:
        of = rafendilo.certificate_question(request.key)
        told += [(int(of.algorithm), of.key, of.message, of.signature)]
    name, value = take(request.signature)
    algorithm = {
        b"ssh-ed25519": "ED25519", b"ecdsa-sha2-nistp256": "P256", b"ecdsa-sha2-nistp384": "P384", b"ecdsa-sha2-nistp521": "P521", b"rsa-sha2-512": "RSA_SHA512",
    }[name]  # fmt: skip
    told.append((int(rafendilo.Algorithm[algorithm]), key, request.message(), take(value)[0]))
    return " ".join(f"{number} {' '.join(map(word, parts))}" for number, *parts in told)


def changes(request):
    """What may be another than what was signed: names, and the fields."""
    yield from (("of another session", {"session": SESSION[::-1]}), ("of no session", {"session": b""}))
    # a signature for another host, which the client says is its host's, is none for one's own; and none without a host
    yield from ((f"of a host {it}", {"host_key": it}) for it in (None, request.key, b"") if it != request.host_key)


def names_of(signer):
    """Names of other algorithms than the one that is signed by: of the other hash, of the other form, and of none."""
    end = CERTIFICATE if signer.is_of_certificate else b""
    yield from (it + end for it in OTHER_HASH.values() if signer.plain in OTHER_HASH)
    yield signer.plain + (b"" if signer.is_of_certificate else CERTIFICATE)
    yield from (b"ssh-rsa" + end, b"ssh-dss" + end, b"", b"x", signer.algorithm + b"x")


def check_requests(judge):
    """The question is about these bytes, and whoever has signed others, or under another name of an algorithm, is refused."""
    asked, whole, maker = [], [], judge.made.maker
    number = judge.number
    for name, request, signer in by_keys(maker):
        login, both = request.login(**signer.trusted), 1 + signer.is_of_certificate
        asked.append((name, login.words("log-in-questions"), f"0 {questions_of(judge, request, signer)}"))
        whole.append((name, login.words(), signer.granted()))
        unsigned, other_user = refused(number("CLIENT_NOT_SIGNED"), both), replace(request, user=b"bob")
        for what, fields in changes(request):
            whole.append((f"{name}, {what}", replace(login, **fields).words(), unsigned))
        for what, message in (
            ("of another service", request.message(b"ssh-userauth")), ("of a byte less", request.message()[:-1]), ("of no bytes", b""),
            ("of another user", other_user.message()), ("under another name", replace(request, algorithm=b"x").message()),
        ):  # fmt: skip
            whole.append((f"{name}, {what}", replace(login, signature=signer.signature(message)).words(), unsigned))
        for other in names_of(signer):
            whole.append((f"{name}, under the name {other}", replace(login, algorithm=other).words(), refused(number("OTHER_ALGORITHM"))))
        for what, signature in (("cut off", request.signature[:-1]), ("and more", request.signature + b"!"), ("of nothing", b"")):
            whole.append((f"{name}, a signature {what}", replace(login, signature=signature).words(), refused(number("NO_SIGNATURE"))))
        # for the query nobody has signed
        query, granted = replace(login, signature=b"", session=b""), f"0 {int(signer.is_of_certificate)}"
        whole.append((f"{name}, the query", query.query(), granted))
        whole.append((f"{name}, the query under no name", replace(query, algorithm=b"").query(), granted))
        whole.append((f"{name}, the query under another name", replace(query, algorithm=b"ssh-dss").query(), f"{number('OTHER_ALGORITHM')} 0"))
        whole.append((f"{name}, the query of another user", replace(query, user=b"bob", keys=()).query(), f"{number('USER_NOT_LISTED')} 0"))
        for how in (TRANSPORT, WITH_FLAGS, SSHD):
            seen = replace(login, how=how, signature=b"", session=b"", host_key=None)
            front = signer.granted().replace(f"0 {both}", f"0 {both - 1}", 1)
            whole += [(f"{name}, seen by {how}", seen.words(), front), (f"{name}, seen by {how}, under no name", replace(seen, algorithm=b"").words(), front)]
            whole.append((f"{name}, seen by {how}, under another", replace(seen, algorithm=b"ssh-dss").words(), refused(number("OTHER_ALGORITHM"))))
    judge.hold("what a client signs", asked)
    judge.hold("a client's signature", whole)


# ---- security keys


def wanted_of(flags, wants_touch, wants_verification, how):
    """What is wanted of a security key's signature with these flags."""
    if how == SSHD:
        return "DONE"
    if how == TRANSPORT:
        return "NO_FLAGS" if wants_touch or wants_verification else "DONE"
    if wants_touch and not flags & TOUCHED:
        return "UNTOUCHED"
    return "UNVERIFIED" if wants_verification and not flags & VERIFIED else "DONE"


def check_flags(judge):
    """A security key's flags, and what server and grant want of them: the grant a touch, but by no-touch-required, and a verified user
    by verify-required; the server what PubkeyAuthOptions says, whatever the grant lets be."""
    whole = []
    for kind, flags, permits in itertools.product(("Ed25519", "ECDSA P-256"), (0, TOUCHED, VERIFIED, TOUCHED | VERIFIED), range(0, 256, NO_TOUCH)):
        device = SecurityKey(kind, b"ssh:")
        options = [*["no-touch-required"] * bool(permits & NO_TOUCH), *["verify-required"] * (not permits & NO_VERIFICATION)]
        text = " ".join([*[",".join(options)] * bool(options), line_of(device.blob())]).encode()
        request = Request(device.names[0], device.blob())
        request = replace(request, signature=device.signature(device.raw(device.device_message(request.message(), flags)), flags))
        for touch, verification, (by, how) in itertools.product((False, True), (False, True), BY_WHOM.items()):
            wants = touch or not permits & NO_TOUCH, verification or not permits & NO_VERIFICATION
            wanted, name = wanted_of(flags, *wants, how), f"{by}, {kind}, flags {flags}, permits {permits}, {touch} {verification}"
            login = replace(request.login(keys=(text,)), touch=touch, verification=verification, how=how, flags=flags)
            asked = int(how == REQUEST)
            whole.append((name, login.words(), f"0 {asked} {KEYS} 0 1" if wanted == "DONE" else refused(judge.number(wanted))))
            if how == REQUEST and wanted == "DONE" and permits & NO_TOUCH and not touch:
                turned = replace(login, signature=device.signature(take(take(login.signature)[1])[0], flags ^ TOUCHED))
                whole.append((f"{name}, and others are said", turned.words(), refused(judge.number("CLIENT_NOT_SIGNED"), 1)))
        whole.append((f"the query, {kind}, permits {permits}", replace(request.login(keys=(text,)), touch=True, signature=b"").query(), "0 0"))
    judge.hold("a client's signature by a security key", whole)


def check_seen(judge):
    """Of a plain key nobody asks for flags."""
    whole, of = [], judge.made.rafendilo
    for signer in signers(judge.made.maker):
        login = replace(signer.request().login(**signer.trusted), touch=True, verification=True)
        front = signer.granted().split(" ")
        for how, asked in ((REQUEST, front[1]), (TRANSPORT, str(int(front[1]) - 1)), (WITH_FLAGS, str(int(front[1]) - 1))):
            whole.append((f"{signer.kind}, seen by {how}", replace(login, how=how).words(), " ".join(["0", asked, *front[2:]])))
    judge.hold("a plain key where a touch is wanted", whole)
    assert of.Permits.NO_TOUCH == NO_TOUCH and of.Permits.NO_VERIFICATION == NO_VERIFICATION


def check_longest(judge):
    """The longest question for its parts, of an RSA key of 16,384 bits whose signature left out all zeros but for one byte, takes no more
    room than the header says: twice the length of the parts, and 4,608 bytes."""
    line = issued_line(b"ssh-rsa", mpint(3), of_bits(16384))
    request = Request(b"rsa-sha2-512", blob_of(line), string(b"rsa-sha2-512") + string(b"\1"))
    asked = request.login(keys=(line.encode(),)).words("log-in-questions")
    number, *parts = judge.ask("the longest question of a login", [asked])[0].split(" ")
    lengths = [len(data_of(it)) for it in parts[1:]]
    enough = 2 * sum(map(len, (request.user, request.key, request.session, request.signature))) + 4608
    judge.check("it is 0 for 2,047 of 2,048 bytes, and has room", number == "0" and lengths[-1] == 2048 and sum(lengths) <= enough, lengths, enough)


def check_userauths(judge):
    check_requests(judge)
    check_longest(judge)
    check_flags(judge)
    check_seen(judge)
