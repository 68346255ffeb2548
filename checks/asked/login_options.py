"""Certificates for logins with options that ssh-keygen writes for nobody, and logins by security keys without a device, for
checks/callers. A real sshd says of each whether it lets the user in, and why not."""
import base64
import os
import shlex
import subprocess
import time

from lib.harness import string, take
from lib.signatures import mpint, signed

from .issued_keys import issued_keys, of_bits
from .issued_keys import line as key_line
from .security_key_agent import Agent
from .security_key_calls import TOUCHED, VERIFIED, SecurityKey

CRITICAL, EXTENSIONS, KEY_ID, PRINCIPALS = (
    "refused: certificate field invalid: " + it
    for it in ("critical options", "extensions", "key id", "valid principals")
)
UNACCEPTED, NO_NORMAL_FORM = "unaccepted key", "no normal form"
FLAGS = [
    "no-touch-required", "permit-X11-forwarding", "permit-agent-forwarding", "permit-port-forwarding", "permit-pty", "permit-user-rc",
]  # fmt: skip
DATA, ADDRESSES, UNREAD = "corrupt (extra data)", "source-address contents invalid", 'parse "{}"'
NO_OPTIONS = "parse certificate options"
# how many principals OpenSSH reads
MOST = 256
# an RSA authority, and the names with a hash (RFC 8332)
RSA, HASHED = "authority4", ("rsa-sha2-256", "rsa-sha2-512")
# what sshd says where it lets the user in
LET_IN = "Accepted publickey"
# names, the critical options and the extensions with their data, what the program answers, and what sshd says
CASES = [
    ("an empty command", {"force-command": b""}, {}, CRITICAL, UNREAD.format("force-command")),
    ("empty addresses", {"source-address": b""}, {}, CRITICAL, UNREAD.format("source-address")),
    ("a zero byte in a command", {"force-command": string(b"a\0b")}, {}, CRITICAL, UNREAD.format("force-command")),
    ("a zero byte in addresses", {"source-address": string(b"a\0b")}, {}, CRITICAL, UNREAD.format("source-address")),
    ("data in verify-required", {"verify-required": string(b"1")}, {}, CRITICAL, DATA),
    ("an empty string in verify-required", {"verify-required": string(b"")}, {}, NO_NORMAL_FORM, DATA),
    *((f"data in {it}", {}, {it: string(b"1")}, EXTENSIONS, DATA) for it in FLAGS),
    ("an empty string in a flag", {}, {"permit-pty": string(b"")}, NO_NORMAL_FORM, DATA),
    ("a flag", {}, {"permit-pty": b""}, "ok touch-required permit-pty=", LET_IN),
    ("data in an extension that is not known", {}, {"x@example.com": string(b"1")}, "ok touch-required x@example.com=1", LET_IN),
    ("a zero byte in the name of an extension", {}, {"x\0y": b""}, EXTENSIONS, NO_OPTIONS),
    ("data after the name of a flag and a zero byte", {}, {"permit-pty\0": string(b"1")}, EXTENSIONS, DATA),
    # stricter here: a zero byte that ends a text is refused, and an empty value in either spelling
    ("a zero byte after the name of a flag", {}, {"permit-pty\0": b""}, EXTENSIONS, LET_IN),
    ("an empty string as a command", {"force-command": string(b"")}, {}, NO_NORMAL_FORM, LET_IN),
    ("a zero byte after a command", {"force-command": string(b"true\0")}, {}, CRITICAL, LET_IN),
    ("addresses that are none", {"source-address": string(b"nowhere")}, {}, CRITICAL, ADDRESSES),
    ("addresses, one of them none", {"source-address": string(b"0.0.0.0/0,x")}, {}, CRITICAL, ADDRESSES),
    ("addresses with bits beyond those that count", {"source-address": string(b"10.0.0.1/8")}, {}, CRITICAL, ADDRESSES),
]  # fmt: skip
# names, the key id, what stands before the user in the list, what the program answers, and the status of `ssh-keygen -L`
TEXTS = [
    (f"{MOST} principals", b"id", [b"x"] * (MOST - 1), "ok touch-required", 0),
    (f"{MOST + 1} principals", b"id", [b"x"] * MOST, PRINCIPALS, 1),
    ("an empty principal", b"id", [b""], "ok touch-required", 0),
    ("a zero byte in a principal", b"id", [b"a\0b"], PRINCIPALS, 1),
    ("a zero byte in the key id", b"a\0b", [], KEY_ID, 1),
    ("a line end in the key id", b"a\nb", [], "ok touch-required", 0),
    # stricter here
    ("a zero byte after a principal", b"id", [b"a\0"], PRINCIPALS, 0),
    ("a zero byte after the key id", b"a\0", [], KEY_ID, 0),
]  # fmt: skip
# of a security key: names, the application, what the program answers, and the status of `ssh-keygen -L`
APPLICATIONS = [
    ("another application", b"ssh:x", "ok touch-required", 0),
    ("a zero byte in the application", b"a\0b", UNACCEPTED, 1),
    # stricter here
    ("a zero byte after the application", b"ssh:\0", UNACCEPTED, 0),
]
# by a security key: names, ssh-keygen's words, the flags that the key signs with, and what the program answers
BY_DEVICE = [
    ("touched", [], TOUCHED, "ok touch-required"),
    ("untouched", [], 0, "ok touch-required"),
    ("verified, but untouched", [], VERIFIED, "ok touch-required"),
    ("untouched, which is let be", ["-O", "no-touch-required"], 0, "ok no-touch-required="),
    ("not verified", ["-O", "verify-required"], TOUCHED, "ok verify-required touch-required"),
    ("verified", ["-O", "verify-required"], TOUCHED | VERIFIED, "ok verify-required touch-required"),
    ("verified, and untouched", ["-O", "verify-required", "-O", "no-touch-required"], VERIFIED, "ok verify-required no-touch-required="),
]  # fmt: skip


def pairs_of(options):
    """The options, each with its data: a list may have one twice."""
    return [*options.items()] if isinstance(options, dict) else options


def pairs(options):
    return string(b"".join(string(name.encode()) + string(data) for name, data in pairs_of(options)))


def certified_name(name):
    """The name of a key's algorithm in certificates (PROTOCOL.certkeys)."""
    base, _, domain = name.partition(b"@")
    return base + b"-cert-v01@" + (domain or b"openssh.com")


def certificate(maker, authority, *given, **more):
    """The line of a certificate by the authority, of what certificate_by is given."""
    signer = maker.read(f"{authority}.pub")
    return certificate_by(signer, lambda message: signed(maker.path(authority), signer, message), *given, **more)


def certificate_by(signer, sign, key, users, critical, extensions, key_id=b"id", kind=1, serial=1, window=None):
    """The line of a certificate of that kind for these users, or hosts, with these options, valid in that window or now, put together
    here (PROTOCOL.certkeys) and signed so."""
    now = int(time.time())
    window = window or (now - 300, now + 300)
    name, body = take(base64.b64decode(key.split()[1]))
    fields = [string(certified_name(name)), string(os.urandom(16)), body]
    fields += [serial.to_bytes(8, "big"), kind.to_bytes(4, "big"), string(key_id), string(users)]
    fields += [*(it.to_bytes(8, "big") for it in window), pairs(critical), pairs(extensions), string(b"")]
    message = b"".join([*fields, string(base64.b64decode(signer.split()[1]))])
    blob = message + string(sign(message))
    return f"{certified_name(name).decode()} {base64.b64encode(blob).decode()}"


def judged_keys(maker):
    """Names, lines of keys, whether OpenSSH accepts them, and the status of `ssh-keygen -L` for their certificates."""
    for name, line, is_issued, status in issued_keys():
        # 2,047 bits are fewer than an authority certifies
        yield name, line, is_issued or "2047" in name, status
    yield "an RSA key of 1024 bits", key_line(b"ssh-rsa", mpint(3), of_bits(1024)), True, 0
    body = take(base64.b64decode(maker.read("user.pub").split()[1]))[1]
    yield "a key under a private-use name", key_line(b"key@example.com", body), False, 1


def no_signature(line):
    """The blob of a signature that has the form of those by the key in the line, and is of nothing."""
    name = take(base64.b64decode(line.split()[1]))[0]
    numbers = string(b"\1") * 2
    value = bytes(40) if name == b"ssh-dss" else numbers if b"ecdsa" in name else b"\1" * 64
    flags = bytes(5) if name.startswith(b"sk-") else b""
    return string(b"rsa-sha2-512" if name == b"ssh-rsa" else name) + string(value) + flags


def respelled(maker, line, authority, options):
    """Names, and lines of the certificate with other bytes than those that were signed: its RSA authority under a name with a hash,
    and options without a value that have the empty value as a string."""
    name, word = line.split()[:2]
    blob, signer = base64.b64decode(word), base64.b64decode(maker.read(f"{authority}.pub").split()[1])
    others = {f"the authority under the name {it}": (string(signer), string(string(it.encode()) + take(signer)[1])) for it in HASHED}
    others["an empty string for an empty value"] = pairs(options), pairs({it: string(b"") for it in options})
    for case, (old, new) in others.items():
        assert blob.count(old) == 1
        yield case, f"{name} {base64.b64encode(blob.replace(old, new)).decode()}"


def said(maker, sshd, user, key, line, agent="none"):
    """What sshd writes of a login by that key, which the agent may have, and that certificate."""
    log, shown = maker.path("option.log"), maker.path("option-cert.pub")
    with open(shown, "w", encoding="ascii") as file:
        file.write(line + "\n")
    if os.path.exists(log):
        os.remove(log)
    proxy = f"{sshd} -i -f {shlex.quote(maker.path('config'))} -E {shlex.quote(log)}"
    words = ["ssh", "-F", "none", "-T", "-o", f"ProxyCommand={proxy}", "-o", f"IdentityFile={maker.path(key)}"]
    for option in (
        "StrictHostKeyChecking=no", "UserKnownHostsFile=/dev/null", "BatchMode=yes", "IdentitiesOnly=yes", f"IdentityAgent={agent}",
        "LogLevel=ERROR", f"CertificateFile={shown}",
    ):  # fmt: skip
        words += ["-o", option]
    quiet = {"stdin": subprocess.DEVNULL, "stdout": subprocess.DEVNULL, "stderr": subprocess.DEVNULL}
    subprocess.run([*words, f"{user}@host", "true"], **quiet, timeout=60, check=False)
    with open(log, encoding="utf-8", errors="replace") as file:
        return file.read()


def compared(wanted, log, is_as_wanted):
    """The answer that is wanted, or what OpenSSH wrote instead."""
    return wanted if is_as_wanted else f"{wanted}, and OpenSSH writes {log}"


def read_as(maker, line, status, wanted):
    """The answer that is wanted, or what ssh-keygen wrote where it ends with another status than that."""
    shown = maker.run("-L", "-f", "-", input=f"{line}\n".encode(), check=False)
    return compared(wanted, shown, shown.returncode == status)


def judged(maker, user, authority, told_of_certificate):
    """The same by keys of each kind and size, and by certificates that do not stand as they were signed."""

    def case(name, line, answer, by=authority, signed_line=None, before=""):
        asked = ["login", user, str(int(time.time())), line, maker.fingerprint(by)]
        return f"login by {name}", [told_of_certificate(signed_line or line)], before + "\t".join(asked), answer

    for name, held, is_accepted, status in judged_keys(maker):
        line = certificate(maker, authority, held, string(user.encode()), {}, {})
        yield case(name, line, read_as(maker, line, status, "ok touch-required" if is_accepted else UNACCEPTED))
    for bits, wanted in ((0, "ok touch-required"), (2047, "ok touch-required"), (2048, UNACCEPTED), (2**32 - 1, UNACCEPTED)):
        held = key_line(b"ssh-rsa", mpint(3), of_bits(2047))
        line = certificate(maker, authority, held, string(user.encode()), {}, {})
        yield case(f"an RSA key of 2047 bits, of {bits} at least", line, wanted, before=f"bits\t{bits}\t")
    key, flag = maker.read("user.pub"), {"permit-pty": b""}
    signed_line = certificate(maker, RSA, key, string(user.encode()), {}, flag)
    for name, line in respelled(maker, signed_line, RSA, flag):
        yield case(f"a certificate with {name}", line, read_as(maker, line, 1, NO_NORMAL_FORM), RSA, signed_line)


def login_options(maker, sshd, user, authority, told_of_certificate):
    """Names, lines and answers: the configuration that trusts the authority stands in the folder."""
    trusted = maker.fingerprint(authority)

    def question(name, line, answer):
        asked = ["login", user, str(int(time.time())), line, trusted]
        return f"login of sshd: {name}", [told_of_certificate(line)], "\t".join(asked), answer

    key = maker.read("user.pub")
    for name, critical, extensions, wanted, says in CASES:
        line = certificate(maker, authority, key, string(user.encode()), critical, extensions)
        log = said(maker, sshd, user, "user", line)
        is_same = says in log and (says == LET_IN) == (LET_IN in log)
        yield question(name, line, compared(wanted, log, is_same))
    for name, key_id, others, wanted, status in TEXTS:
        users = b"".join(map(string, [*others, user.encode()]))
        line = certificate(maker, authority, key, users, {}, {}, key_id)
        yield question(name, line, read_as(maker, line, status, wanted))
    for kind in ("Ed25519", "ECDSA P-256"):
        for name, application, wanted, status in APPLICATIONS:
            held = SecurityKey(kind, application).line()
            line = certificate(maker, authority, held, string(user.encode()), {}, {})
            yield question(f"{name} ({kind})", line, read_as(maker, line, status, wanted))
    yield from judged(maker, user, authority, told_of_certificate)
    # sshd knows no such user, whom a certificate may list
    line = certificate(maker, authority, key, string(b""), {}, {})
    asked = "\t".join(["login", "", str(int(time.time())), line, trusted])
    yield "login of a user without a name", [told_of_certificate(line)], asked, PRINCIPALS
    for kind in ("Ed25519", "ECDSA P-256"):
        yield from (question(*it) for it in by_device(maker, sshd, user, authority, kind))


def by_device(maker, sshd, user, authority, kind):
    """The same by a security key. sshd lets the user in exactly where the signature's flags are what the grant asks for."""
    device = SecurityKey(kind, b"ssh:")
    with open(maker.path("device.pub"), "w", encoding="ascii") as file:
        file.write(device.line() + "\n")
    for number, (name, words, flags, wanted) in enumerate(BY_DEVICE):
        line = maker.certificate(authority, "device", "-n", user, "-V", "-5m:+5m", "-O", "clear", *words)
        agent = Agent(maker.path(f"{kind[:2]}{number}.agent"), device, flags)
        log = said(maker, sshd, user, "device", line, agent.path)
        agent.shutdown()
        agent.server_close()
        asks = TOUCHED * (" touch-required" in wanted) | VERIFIED * (" verify-required" in wanted)
        is_met = flags & asks == asks
        yield f"by a security key ({kind}), {name}", line, compared(wanted, log, (LET_IN in log) == is_met)
