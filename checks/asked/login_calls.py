"""Whether a certificate lets a user in by its authority, and to what it binds the login: the library's verdict, with a verifier of each
language between its two calls. What is wanted follows from the words that ssh-keygen was given, which makes the certificates, and from
the rows of login_options.py, about which checks/callers asks a real sshd."""
import hashlib
import ipaddress
import time
from dataclasses import replace

from lib.harness import blob_of, string

from .login_options import (
    APPLICATIONS, CASES, CRITICAL, EXTENSIONS, KEY_ID, MOST, NO_NORMAL_FORM, PRINCIPALS, RSA, TEXTS, UNACCEPTED, certificate,
    certificate_by, judged_keys, no_signature, respelled,
)  # fmt: skip
from .made import WINDOW
from .publickey import Granted, Login, refused
from .revocation_calls import EMPTY, made_list
from .security_key_calls import SecurityKey

# what the program callers answers, and the library
NUMBERED = {
    CRITICAL: "CRITICAL_OPTIONS", EXTENSIONS: "EXTENSIONS", KEY_ID: "KEY_ID", PRINCIPALS: "VALID_PRINCIPALS", UNACCEPTED: "KEY_NOT_ACCEPTED",
    NO_NORMAL_FORM: "NOT_NORMAL_FORM",
}  # fmt: skip
# the numbers of what a grant permits (include/rafendilo.h)
PERMITS = {
    "permit-pty": 1, "permit-port-forwarding": 2, "permit-agent-forwarding": 4, "permit-X11-forwarding": 8, "permit-user-rc": 16,
    "any command": 32, "no-touch-required": 64, "no verification": 128,
}  # fmt: skip
# what no certificate takes away without words: tunnels, too, on whichever device
FREE = PERMITS["any command"] | PERMITS["no verification"] | 256 | 512
# what ssh-keygen allows without words
USUAL = FREE | 31
INSIDE, OUTSIDE = (ipaddress.ip_address(it).packed for it in ("192.0.2.7", "198.51.100.7"))


class Terms:
    """What is wanted where the user is let in by a certificate: what it permits, its number, its command and its key id."""

    def __init__(self, permits=USUAL, serial=0, command=b"", key_id=b"id"):
        self.permits, self.serial, self.command, self.key_id = permits, serial, command, key_id

    def words(self, login, key):
        """By the first authority if no other is named: the one that signed is the last of them."""
        more = {} if self.permits & PERMITS["permit-port-forwarding"] else {"opened": (), "listened": ()}
        by = login.authorities[-32:]
        return Granted(self.permits, key, serial=self.serial, command=self.command, key_id=self.key_id, authority=by, asked=1, **more).words()


def granted(answer, key_id=b"id"):
    """What is wanted where the program callers answers `ok` and what the grant has."""
    permits = {*PERMITS} & {it.partition("=")[0] for it in answer.split()}
    bound = PERMITS["no verification"] if "verify-required" in answer.split() else 0
    return Terms(FREE - bound | sum(PERMITS[it] for it in permits), 1, key_id=key_id)


def wanted_of(answer, key_id=b"id"):
    return granted(answer, key_id) if answer.startswith("ok ") else NUMBERED[answer]


class Certificates:
    """Logins by certificates of a key by an authority, that are made as ssh-keygen's words say, or as its options and texts are given."""

    def __init__(self, maker, key="user0", authority="authority0"):
        self.maker, self.key, self.authority = maker, key, authority
        self.held, self.by = maker.blob(key), hashlib.sha256(maker.blob(authority)).digest()

    def made(self, *words):
        return Login(blob_of(self.maker.certificate(self.authority, self.key, *WINDOW, *words)), authorities=self.by)

    def put_together(self, users=b"alice", critical=None, extensions=None, key_id=b"id", line=""):
        """One that ssh-keygen makes for nobody, valid now."""
        users = users if isinstance(users, list) else [users]
        made = certificate(self.maker, self.authority, line or self.maker.read(f"{self.key}.pub"), b"".join(map(string, users)), critical or {}, extensions or {}, key_id)
        return Login(blob_of(made), authorities=self.by, second=int(time.time()))


def turned(blob):
    """With a bit turned in its nonce, behind its name, so that it is not signed, and all else is as it was."""
    at = 4 + int.from_bytes(blob[:4], "big") + 4
    return blob[:at] + bytes([blob[at] ^ 1]) + blob[at + 1 :]


def cases(maker):
    """Names, logins, and what is wanted."""
    certificates = Certificates(maker)
    good, strange = certificates.made("-n", "alice,bob", "-z", "5"), hashlib.sha256(maker.blob("authority1")).digest()
    five, broken = Terms(serial=5), replace(good, blob=turned(good.blob))
    hosts, own = certificates.made("-h", "-n", "alice").blob, certificates.held
    for name, changes, wanted in (
        ("its user", {}, five), ("the other user", {"user": b"bob"}, five), ("the second of two authorities", {"authorities": strange + good.authorities}, five),
        ("another user", {"user": b"eve"}, "USER_NOT_LISTED"), ("a beginning of a user", {"user": b"alic"}, "USER_NOT_LISTED"),
        ("a user, and a zero byte", {"user": b"alice\0"}, "USER_NOT_LISTED"), ("no user", {"user": b""}, "USER_NOT_LISTED"),
        ("a user that is no text", {"user": b"\xff"}, "TEXT"), ("that, and no certificate", {"user": b"\xff", "blob": b""}, "TEXT"),
        ("a host that is no text", {"host": b"\xff"}, "TEXT"), ("a name of the host", {"host": b"a.example"}, five),
        ("another authority", {"authorities": strange}, "USER_NOT_LISTED"), ("no authority", {"authorities": b""}, "USER_NOT_LISTED"),
        ("the first second", {"second": 1704067200}, five), ("a second too early", {"second": 1704067199}, "OUT_OF_WINDOW"),
        ("the last second", {"second": 1706745599}, five), ("a second too late", {"second": 1706745600}, "OUT_OF_WINDOW"),
        ("no time", {"second": 2**63}, "INVALID_TIME"), ("nothing", {"blob": b""}, "LENGTH"),
        # its name is one of private use, after which a key has a string alone
        ("no certificate", {"blob": good.blob[:-1]}, "TRAILING_DATA"),
        ("the key in its place", {"blob": own}, "USER_NOT_LISTED"), ("more than the key", {"blob": own + b"!"}, "TRAILING_DATA"),
        ("more than a certificate", {"blob": good.blob + b"!"}, "TRAILING_DATA"), ("for hosts", {"blob": hosts}, "OTHER_TYPE"),
        ("for hosts, and another user", {"blob": hosts, "user": b"eve"}, "USER_NOT_LISTED"), ("for hosts, and too late", {"blob": hosts, "second": 1706745600}, "OTHER_TYPE"),
        ("another user, and too late", {"user": b"eve", "second": 1706745600}, "USER_NOT_LISTED"),
        ("its algorithm", {"algorithm": b"ssh-ed25519-cert-v01@openssh.com"}, five), ("that of its key", {"algorithm": b"ssh-ed25519"}, "OTHER_ALGORITHM"),
        ("another algorithm, and too late", {"algorithm": b"ssh-rsa", "second": 1706745600}, "OUT_OF_WINDOW"),
    ):  # fmt: skip
        yield name, replace(good, **changes), wanted
    for name, changes, wanted in (
        ("a turned bit", {}, "NOT_SIGNED"), ("a turned bit, and too late", {"second": 1706745600}, "OUT_OF_WINDOW"),
        ("a turned bit, and too early", {"second": 1704067199}, "OUT_OF_WINDOW"), ("a turned bit, and another user", {"user": b"eve"}, "USER_NOT_LISTED"),
        ("a turned bit, by another authority", {"authorities": strange}, "USER_NOT_LISTED"),
        ("a turned bit, and another algorithm", {"algorithm": b"ssh-ed25519"}, "OTHER_ALGORITHM"),
    ):  # fmt: skip
        yield name, replace(broken, **changes), wanted
    yield "nobody listed", certificates.made(), "USER_NOT_LISTED"
    yield "nobody listed, for hosts", certificates.made("-h"), "USER_NOT_LISTED"
    yield "no user, where the empty name is listed", replace(certificates.put_together(b""), user=b""), "VALID_PRINCIPALS"


def options(maker):
    """The same with what ssh-keygen writes of options."""
    certificates = Certificates(maker)

    def made(*names):
        return certificates.made("-n", "alice", *(it for name in ("clear", *names) for it in ("-O", name)))

    yield "no extension", made(), Terms(FREE)
    for name, number in PERMITS.items():
        if "-" in name:
            yield f"the extension {name}", made(name), Terms(FREE | number)
    yield "a command", made("force-command=echo 1, 2"), Terms(FREE - PERMITS["any command"], command=b"echo 1, 2")
    yield "a verified user", made("verify-required"), Terms(FREE - PERMITS["no verification"])
    yield "an option that is not known", made("critical:x@example.com=1"), "CRITICAL_OPTIONS"
    yield "an extension that is not known", made("extension:x@example.com=1"), Terms(FREE)
    bound, moved = made("source-address=192.0.2.0/24,2001:db8::/32", "force-command=ls"), Terms(FREE - PERMITS["any command"], command=b"ls")
    mapped, long = bytes(10) + b"\xff\xff" + INSIDE, ipaddress.ip_address("2001:db8::7").packed
    for name, client, wanted in (
        ("a client from there", INSIDE, moved), ("one by an IPv6 socket", mapped, moved), ("one by IPv6", long, moved), ("one from elsewhere", OUTSIDE, "ELSEWHERE"),
        ("one without an address", b"", "ELSEWHERE"), ("one with half an address", INSIDE[:2], "ELSEWHERE"), ("one with more", INSIDE + b"\0", "ELSEWHERE"),
    ):  # fmt: skip
        yield f"addresses, and {name}", replace(bound, client=client), wanted
        yield f"addresses, and {name}, which the caller checks", replace(bound, client=client, checks=1), moved
        yield f"no addresses, and {name}", replace(made(), client=client), Terms(FREE)
    for name, changes, wanted, judged in (
        ("another user", {"user": b"eve"}, "USER_NOT_LISTED", "USER_NOT_LISTED"), ("too late", {"second": 1706745600}, "OUT_OF_WINDOW", "OUT_OF_WINDOW"),
        ("a turned bit", {"blob": turned(bound.blob)}, "ELSEWHERE", "NOT_SIGNED"),
    ):  # fmt: skip
        yield f"from elsewhere, and {name}", replace(bound, client=OUTSIDE, **changes), wanted
        yield f"from where the caller checks, and {name}", replace(bound, client=OUTSIDE, checks=1, **changes), judged
    other = certificates.put_together(critical={"source-address": string(b"10.0.0.1/40")})
    yield "no list of addresses, which the caller checks", replace(other, checks=1), "CRITICAL_OPTIONS"


def rows(maker):
    """The rows of login_options.py, and what is wrong in two ways."""
    certificates, zero = Certificates(maker), string(b"a\0b")
    for name, critical, extensions, wanted, _ in CASES:
        yield name, certificates.put_together(critical=critical, extensions=extensions), wanted_of(wanted)
    for name, key_id, others, wanted, _ in TEXTS:
        yield name, certificates.put_together([*others, b"alice"], key_id=key_id), wanted_of(wanted, key_id)
    for kind in ("Ed25519", "ECDSA P-256"):
        for name, application, wanted, _ in APPLICATIONS:
            yield f"{name} ({kind})", certificates.put_together(line=SecurityKey(kind, application).line()), wanted_of(wanted)
    flag, command = {"permit-pty": string(b"1")}, {"force-command": string(b"true")}
    for name, given, wanted in (
        ("a zero byte in a principal after the user", {"users": [b"alice", b"a\0b"]}, PRINCIPALS), ("a zero byte for a principal", {"users": [b"alice", b"\0"]}, PRINCIPALS),
        ("the user among too many principals at first", {"users": [b"alice", *[b"x"] * MOST]}, PRINCIPALS), ("a zero byte for a key id", {"key_id": b"\0"}, KEY_ID),
        ("a zero byte in the second of two extensions", {"extensions": {"permit-pty": b"", "x\0y": b""}}, EXTENSIONS),
        ("a zero byte in the data of an extension that is not known", {"extensions": {"x@example.com": zero}}, "ok touch-required"),
        ("a zero byte in the key id, and data in a flag", {"key_id": b"a\0b", "extensions": flag}, EXTENSIONS),
        ("data in a flag, and an option that is not known", {"extensions": flag, "critical": {"x@example.com": b""}}, CRITICAL),
        ("a command, and an option that is not known", {"critical": {**command, "x@example.com": b""}}, CRITICAL),
        ("a zero byte after the name of an option", {"critical": {"source-address\0": string(b"::/0")}}, CRITICAL),
        ("a zero byte after addresses", {"critical": {"source-address": string(b"::/0\0")}}, CRITICAL),
    ):  # fmt: skip
        yield name, certificates.put_together(**given), wanted_of(wanted)


def keys(maker):
    """Keys of each kind and size, and certificates that do not stand as they were signed."""
    maker.write("user.pub", maker.read("user0.pub"))
    strange = hashlib.sha256(maker.blob("authority1")).digest()
    certificates, by_rsa = Certificates(maker), Certificates(maker, authority=RSA)
    for name, line, is_accepted, _ in judged_keys(maker):
        yield name, certificates.put_together(line=line), granted("ok touch-required") if is_accepted else "KEY_NOT_ACCEPTED"
        if "1024" in name or "2047" in name:
            size = 1024 if "1024" in name else 2047
            for bits in (size, size + 1):
                wanted = granted("ok touch-required") if bits == size else "KEY_NOT_ACCEPTED"
                yield f"{name}, of {bits} at least", replace(certificates.put_together(line=line), bits=bits), wanted
    for name, line, is_accepted, _ in judged_keys(maker):
        # nothing is signed, so of a key that may sign that is said
        made = certificate_by(line, lambda _, line=line: no_signature(line), maker.read("user0.pub"), string(b"alice"), {}, {})
        login = replace(certificates.put_together(), blob=blob_of(made), authorities=hashlib.sha256(blob_of(line)).digest())
        # RequiredRSASize is about users' keys
        yield f"an authority: {name}", replace(login, bits=4096), "NOT_SIGNED" if is_accepted else "KEY_NOT_ACCEPTED"
        wanted = "USER_NOT_LISTED" if is_accepted else "KEY_NOT_ACCEPTED"
        yield f"another authority: {name}", replace(login, authorities=strange), wanted
    signed = by_rsa.put_together(extensions={"permit-pty": b""})
    yield "by an RSA authority", signed, granted("ok touch-required permit-pty=")
    line = certificate(maker, RSA, maker.read("user0.pub"), string(b"alice"), {}, {"permit-pty": b""})
    for name, other in respelled(maker, line, RSA, {"permit-pty": b""}):
        yield f"a certificate with {name}", replace(signed, blob=blob_of(other)), "NOT_NORMAL_FORM"


def revocations(maker):
    """Revocation files, which are asked after the authority and before the signature: all that are given have to be read."""
    good = Certificates(maker).made("-n", "alice", "-z", "5")
    strange = hashlib.sha256(maker.blob("authority1")).digest()
    revoked, unlisted = (made_list(maker, "authority0", [f"serial: {it}"]) for it in (5, 6))
    five, cut, broken = Terms(serial=5), unlisted[:-1], b"ssh-ed25519\n"
    own, by, another = (maker.read(f"{it}.pub").encode() for it in ("user0", "authority0", "user1"))
    for name, files, wanted in (
        ("a list of nothing", [EMPTY], five), ("a list without it", [unlisted], five), ("a list that has its number", [revoked], "REVOKED"),
        ("a list that has its key", [made_list(maker, None, [own.decode()])], "REVOKED"), ("a list that has its authority", [made_list(maker, None, [by.decode()])], "REVOKED"),
        ("a file of no bytes", [b""], five), ("a text of another key", [another], five), ("a text of its key", [own], "REVOKED"), ("a text of its authority", [by], "REVOKED"),
        ("a list without its last byte", [cut], "UNREADABLE_REVOCATIONS"), ("a text with a line that is no key", [broken], "UNREADABLE_REVOCATIONS"),
        ("no file", [], "UNREADABLE_REVOCATIONS"), ("two files without it", [unlisted, another], five), ("the first of two has it", [revoked, another], "REVOKED"),
        ("the second of two has it", [another, revoked], "REVOKED"), ("the last of three has it", [EMPTY, b"", own], "REVOKED"),
        ("the second of two is cut off", [another, cut], "UNREADABLE_REVOCATIONS"), ("one has it, and one is none", [revoked, broken], "UNREADABLE_REVOCATIONS"),
    ):  # fmt: skip
        yield f"revoked is {name}", replace(good, revoked=tuple(files)), wanted
    for name, changes, wanted in (
        ("by another authority", {"authorities": strange}, "USER_NOT_LISTED"), ("a turned bit", {"blob": turned(good.blob)}, "REVOKED"),
        ("another user", {"user": b"eve"}, "USER_NOT_LISTED"), ("too late", {"second": 1706745600}, "REVOKED"),
    ):  # fmt: skip
        yield f"revoked, {name}", replace(good, revoked=(revoked,), **changes), wanted
    yield "a file that is none, by another authority", replace(good, revoked=(broken,), authorities=strange), "USER_NOT_LISTED"


def by_kinds(made):
    for number, kind in enumerate(made.kinds):
        login = Login(kind.blob, authorities=made.authority(number))
        yield f"by an authority of {kind.name}", login, Terms()
        yield f"by an authority of {kind.name}, turned", replace(login, blob=turned(kind.blob)), "NOT_SIGNED"


def all_cases(made):
    maker = made.maker
    return [*cases(maker), *options(maker), *rows(maker), *keys(maker), *revocations(maker), *by_kinds(made)]


def check_users(judge):
    """Logins by certificates in which one thing is wrong each, or two, of which the first is told. A verification is asked for only where
    nothing else is wrong, and packages check addresses."""
    rafendilo, asked = judge.made.rafendilo, []
    for name, login, wanted in all_cases(judge.made):
        if isinstance(wanted, Terms):
            wanted = wanted.words(login, rafendilo.certificate_contents(login.blob).key)
        else:
            wanted = refused(judge.number(wanted), int(wanted == "NOT_SIGNED"))
        asked.append((name, login, wanted))
    known = [(name, login.words(), wanted) for name, login, wanted in asked if not login.checks]
    judge.hold("a login by a certificate", known)
    if not judge.asker.is_package:
        judge.hold_alone("a login by a certificate", [(name, login.words(), wanted) for name, login, wanted in asked if login.checks])
