"""Lines of authorities, keys under which a verifier may say yes, and files that may be believed."""
import hashlib

from cryptography.hazmat.primitives import serialization
from cryptography.hazmat.primitives.asymmetric import ec
from lib.harness import blob_of, line_of, ssh_keygen, string
from lib.signatures import mpint

from .host_rows import LATER
from .issued_keys import CURVES, FORMS, NEGATIVE, ZERO, of_bits
from .linked import word
from .newer_answers import Stored

# names of kinds that OpenSSH has or had, beside that of the key of 10.6 (PROTOCOL.u2f; sshkey.c and ssh-xmss.c of 10.0)
KINDS = [
    b"ssh-mldsa44-ed25519-cert", b"webauthn-sk-ecdsa-sha2-nistp256@openssh.com", b"webauthn-sk-ecdsa-sha2-nistp256-cert-v01@openssh.com",
    b"ssh-xmss@openssh.com", b"ssh-xmss-cert-v01@openssh.com",
]  # fmt: skip


def lines(key, certificate):
    """Names, lines of a file of authorities, and what they have: the key, or why none. OpenSSH takes spaces and tabs between fields."""
    name, digits = line_of(key).split()
    return [
        ("a key", f"{name} {digits}", "DONE"), ("a comment", f"{name} {digits} a comment", "DONE"), ("blanks", f" \t{name}\t  {digits}\tx", "DONE"),
        ("a Latin-1 comment", f"{name} {digits} Z\xfcrich", "DONE"), ("a zero byte in the comment", f"{name} {digits} a\0b", "DONE"),
        ("a later kind", f"{LATER['later']} x", "LATER_KEY"), ("a later kind under another name", LATER["misnamed"], "LABEL"),
        ("a later kind, cut", LATER["cut"], "BASE64"), ("a short name", LATER["short"], "LABEL"),
        ("no word", name, "LENGTH"), ("a character less", f"{name} {digits[:-1]}", "BASE64"), ("another name", f"ssh-rsa {digits}", "ALGORITHM_UNKNOWN"),
        ("a word that is cut", f"{name} {digits[:40]}", "LENGTH"), ("a certificate", certificate, "TRAILING_DATA"),
        ("options", f"no-pty {name} {digits}", "BASE64"), ("a byte that is no text", f"\xff {digits}", "TEXT"),
    ]  # fmt: skip


def check_lines(judge):
    maker = judge.made.maker
    key, certificate = blob_of(maker.read("user0.pub")), line_of(judge.made.kinds[0].blob)
    said = {"DONE": f"0 {hashlib.sha256(key).hexdigest()}"}
    cases, of_users = [], []
    for name, line, wanted in lines(key, certificate):
        wanted = said.get(wanted) or str(judge.number(wanted))
        cases.append((name, f"line-authority {line.encode('latin-1').hex()}", wanted))
        for users, is_listed in (("alice", True), ("bob,alice", True), ("alice,bob", True), ("alic,alicex", False), ("Alice", False), ("*", False), ("\xff", False)):
            asked = f"user-authority {f'{users} {line}'.encode('latin-1').hex()} {b'alice'.hex()}"
            of_users.append((f"{name}, for {users}", asked, wanted if is_listed else "3"))
    line = line_of(key)
    for name, given, user, is_listed in (
        ("nobody", f",alice, {line}", "", False), ("nobody before blanks", f" {line}", "", False), ("two names", f"a,b {line}", "a,b", False),
        ("no names", line, "alice", False), ("a name of an algorithm", f"{line} x", "ssh-ed25519", None), ("blanks in front", f"\t alice\t {line}", "alice", True),
    ):  # fmt: skip
        wanted = str(judge.number("BASE64")) if is_listed is None else said["DONE"] if is_listed else "3"
        of_users.append((name, f"user-authority {given.encode().hex()} {word(user.encode())}", wanted))
    judge.hold("the authority of a line", cases)
    judge.hold("the authority of a line", of_users)


def keys():
    """Names, blobs of keys, whether OpenSSH lets somebody in by them, and whether a verifier may say yes."""
    three, modulus, name = mpint(3), of_bits(2048), b"ssh-rsa"
    for bits, openssh_accepts_key, is_taken in (
        (1023, False, False), (1024, True, False), (2047, True, False), (2048, True, True), (16384, True, True), (16385, False, False),
    ):  # fmt: skip
        yield f"RSA of {bits} bits", string(name) + three + of_bits(bits), openssh_accepts_key, is_taken
    for which, numbers in (("no exponent", ZERO + modulus), ("a negative one", NEGATIVE + modulus), ("no modulus", three + ZERO), ("a negative one", three + NEGATIVE)):
        yield f"RSA with {which}", string(name) + numbers, None, False
    yield "DSA", string(b"ssh-dss") + of_bits(1024) + of_bits(160) + three + three, None, False
    yield "Ed25519", string(b"ssh-ed25519") + string(bytes(range(32))), True, True
    yield "a private-use name", string(b"key@example.org") + string(b"x"), False, False
    for curve, kind in CURVES.items():
        point = ec.generate_private_key(kind()).public_key()
        for form, how in FORMS.items():
            spelled = string(point.public_bytes(serialization.Encoding.X962, how))
            is_whole = form == "whole"
            yield f"{curve.decode()}, {form}", string(b"ecdsa-sha2-" + curve) + string(curve) + spelled, is_whole, is_whole


def check_kinds(judge):
    """Which bytes name a kind of key that is none here: a key of 10.6, certificates by it and of it, and other kinds' names."""
    held, own = Stored().held, judge.made.kinds[0].blob
    later = blob_of(held["later"])
    cases = [
        ("a key", later, True), ("a certificate by it", blob_of(held["by a later kind"]), True), ("its name alone", later[:23], True),
        ("its name behind a byte", b"x" + later[:23], True), ("its name but for a byte", later[:22], False), ("its name, and no length", later[4:], False),
        ("its name and another length", string(later[4:23] + b"x"), False), ("a certificate of another key", blob_of(held["of the host"]), False),
        ("another key", blob_of(held["key"]), False), ("nothing", b"", False), ("a length", string(b""), False), ("a certificate", own, False),
    ]  # fmt: skip
    for name in KINDS:
        cases += [(name.decode(), string(name) + b"x", True), (f"{name.decode()} in a certificate", own + string(name), True)]
        cases += [(f"{name.decode()}, with another byte", string(name[:-1] + b"x"), False)]
    judge.hold("a later kind of key", [(name, f"later-kind {word(data)}", "0" if named else "12") for name, data, named in cases])


def check_keys(judge):
    maker, cases = judge.made.maker, []
    for name, blob, openssh_accepts_key, is_taken in keys():
        cases.append((name, f"may-verify {blob.hex()}", "0" if is_taken else "59"))
        shown = ssh_keygen("-l", "-f", maker.write("taken.pub", f"{line_of(blob)}\n"), check=False)
        if openssh_accepts_key is not None:
            judge.check(f"ssh-keygen reads a key, {name}: {openssh_accepts_key}", (shown.returncode == 0) == openssh_accepts_key, shown.stderr)
    cases += [("no bytes", "may-verify -", str(judge.number("LENGTH")))]
    judge.hold("under a key a verifier may say yes", cases)


def check_modes(judge):
    """As sshd's StrictModes: the owner is root or the user, and neither group nor others write (chmod(2))."""
    cases = []
    for owner, user in ((0, 0), (0, 7), (7, 7), (8, 7), (7, 0), (2**32, 0), (2**64 - 1, 2**64 - 1)):
        for mode, is_closed in ((0o644, True), (0o100755, True), (0o7755, True), (0o664, False), (0o602, False), (0o40777, False), (0, True), (0o20, False), (0o2, False)):
            wanted = "0" if owner in (0, user) and is_closed else "62"
            cases.append((f"of {owner} for {user}, {mode:o}", f"safe-mode {owner} {user} {mode}", wanted))
    judge.hold("a file", cases)


def lines_of(key, other):
    """Names, lines of authorized_keys, and whether sshd may take them for one of the key: of white space within Base64, of zero bytes
    and of what is no entry asked/authorized_keys.py asks a real sshd."""
    name, digits = line_of(key).split()
    return [
        ("an entry", f"{name} {digits}", True), ("one with options", f'restrict,command="x y" {name} {digits} me', True),
        ("one with strange options", f"no-such-option {name} {digits}", True), ("options apart", f"no-pty no-user-rc {name} {digits}", True),
        ("a zero byte after it", f"{name} {digits} a\0b", True), ("a zero byte before it", f"\0 {name} {digits}", True),
        ("a CR within it", f"{name} {digits[:20]}\r{digits[20:]}", True), ("a form feed within it", f"{name} {digits[:-9]}\f{digits[-9:]}", True),
        ("another name", f"ssh-rsa {digits}", True), ("a byte that is no text", f"{name} {digits} caf\xe9", True),
        ("another key", line_of(other), False), ("junk", "hello world", False), ("a key that is cut", f"{name} {digits[:40]}", False), ("nothing", "", False),
    ]  # fmt: skip


def check_entries(judge):
    maker = judge.made.maker
    for kind, name in (("an Ed25519", "user0"), ("an RSA", "user4")):
        key, other = blob_of(maker.read(f"{name}.pub")), blob_of(maker.read("user1.pub"))
        asked = [(f"{it}, of {kind} key", f"for-key {word(line.encode('latin-1'))} {key.hex()}", "0" if may else "3") for it, line, may in lines_of(key, other)]
        judge.hold("a line that may be for a key", asked)
    kind = judge.made.kinds[0]
    authority, own = blob_of(maker.read(f"{kind.authority}.pub")), blob_of(maker.read("user0.pub"))
    cases = [(f"cert-authority {line_of(authority)}", "0"), (line_of(authority), "0"), (f"cert-authority {line_of(own)}", "3"), (line_of(kind.blob), "0")]
    asked = [(line[:30], f"for-certificate {line.encode().hex()} {kind.blob.hex()}", wanted) for line, wanted in cases]
    judge.hold("a line that may be for a certificate", asked)


def check_trust(judge):
    check_entries(judge)
    check_lines(judge)
    check_kinds(judge)
    check_keys(judge)
    check_modes(judge)
