"""SSH signatures by the digests of their messages: what ssh-keygen signs by each hash, and digests that Python's hashlib computes."""
import hashlib

from lib.harness import string, take
from lib.signatures import signed_data, ssh_signature_over

from .linked import turned, word
from .verdicts import status_of

HASHES = ("sha256", "sha512")
TEXT = b"text"


def signed(maker, key, name):
    """An SSH signature of the text by the hash of that name."""
    return maker.signature(key, TEXT.decode(), "file", "-O", f"hashalg={name}")


def cases(name):
    """Names, namespaces, digests, and what has to be said of a signature of the text in the namespace `file` by that hash."""
    right, other = hashlib.new(name, TEXT).digest(), next(it for it in HASHES if it != name)
    return [
        ("its digest", b"file", right, "DONE"), ("another text's", b"file", hashlib.new(name, b"texts").digest(), "NOT_SIGNED"),
        ("that of no text", b"file", hashlib.new(name).digest(), "NOT_SIGNED"),
        ("the digest's own", b"file", hashlib.new(name, right).digest(), "NOT_SIGNED"),
        ("with a bit turned", b"file", bytes([right[0] ^ 1]) + right[1:], "NOT_SIGNED"),
        ("by the other hash", b"file", hashlib.new(other, TEXT).digest(), "LENGTH"),
        ("a byte less", b"file", right[:-1], "LENGTH"), ("a byte more", b"file", right + bytes(1), "LENGTH"),
        ("31 bytes", b"file", right[:31], "LENGTH"), ("33 bytes", b"file", (right + bytes(1))[:33], "LENGTH"),
        ("twice", b"file", right * 2, "LENGTH"), ("no bytes", b"file", b"", "LENGTH"), ("the text", b"file", TEXT, "LENGTH"),
        ("in another namespace", b"git", right, "OTHER_NAMESPACE"), ("in no namespace", b"", right, "OTHER_NAMESPACE"),
        ("too short, in another namespace", b"git", right[:-1], "OTHER_NAMESPACE"),
    ]  # fmt: skip


def with_reserved(signature, reserved):
    """The SSH signature with these reserved bytes in place of none (PROTOCOL.sshsig)."""
    space, rest = take(take(signature[10:])[1])
    front = signature[: len(signature) - len(rest) - len(string(space))]
    return front + string(space) + string(reserved) + take(rest)[1]


def with_key(signature, key):
    return signature[:10] + string(key) + take(signature[10:])[1]


def questions_of(signature, namespace, digest, signers):
    """Of C the question alone, and of a package also whether the signature counts."""
    words = " ".join(map(word, (signature, namespace, digest)))
    return f"sshsig-of-digest {words}", f"is-sshsig-of-digest {words} {word(signers)}"


def check_signed(judge, name, key, signature, hashed):
    """What is said of each digest, and that the right one is asked about as the text is, over what PROTOCOL.sshsig has signed."""
    rafendilo, own = judge.made.rafendilo, judge.made.rafendilo.fingerprint(key)
    right, asked = hashlib.new(hashed, TEXT).digest(), []
    for reserved in (b"", b"reserved"):
        changed = with_reserved(signature, reserved)
        found = rafendilo.sshsig_question_of_digest(changed, "file", right)
        covered = signed_data(b"file", reserved, hashed.encode(), TEXT)
        same = found == rafendilo.sshsig_question(changed, "file", TEXT) and found[0].message == covered
        judge.check(f"{name}, {len(reserved)} bytes reserved: the digest is asked about as the text", same, found)
    for case, namespace, digest, wanted in cases(hashed):
        question, whole = questions_of(signature, namespace, digest, own)
        asked.append((case, question, "0" if wanted == "NOT_SIGNED" else str(judge.number(wanted))))
        status = status_of(rafendilo, rafendilo.check_sshsig_of_digest, signature, namespace, digest, {own})
        judge.check(f"{name} by a digest: {case}, by Python", status.name == wanted, status.name)
        asked += [(f"{case}, whether it counts", whole, str(judge.number(wanted)))] if judge.asker.is_package else []
    for case, given, wanted in (("cut", signature[:-1], "13"), ("lengthened", signature + b"!", "14"), ("no signature", b"", "13")):
        asked.append((case, questions_of(given, b"file", right, own)[0], wanted))
    if judge.asker.is_package:
        asked.append(("its hash", f"sshsig-hash {signature.hex()}", f"0 {hashed}"))
        asked.append(("the hash, cut", f"sshsig-hash {signature[:-1].hex()}", "13"))
        asked.append(("another signer", questions_of(signature, b"file", right, bytes(32))[1], str(judge.number("SIGNER_NOT_ALLOWED"))))
        asked.append(("by the text", f"is-sshsig {signature.hex()} {word(b'file')} {TEXT.hex()} {own.hex()}", "0"))
    judge.hold(f"{name} by a digest", asked)
    if not judge.asker.is_package:
        check_verifications(judge, name, signature, right, own)


def check_verifications(judge, name, signature, digest, own):
    """How often cryptography runs, in C and in Python: not at all over another signer's key."""
    asked, strange, wrong = [], bytes(32), turned(signature)[-1]
    for case, given, by, wanted, count in (
        ("its signer", signature, own, "DONE", 1), ("one of two signers", signature, strange + own, "DONE", 1),
        ("turned", wrong, own, "NOT_SIGNED", 1), ("over reserved bytes", with_reserved(signature, b"reserved"), own, "NOT_SIGNED", 1),
        ("another signer", signature, strange, "SIGNER_NOT_ALLOWED", 0), ("no signer", signature, b"", "SIGNER_NOT_ALLOWED", 0),
        ("another signer, turned", wrong, strange, "SIGNER_NOT_ALLOWED", 0),
    ):  # fmt: skip
        question = " ".join(["sshsig-by", *map(word, (given, b"file", digest, by))])
        asked.append((case, question, f"{judge.number(wanted)} {count}"))
    judge.hold(f"{name} by a digest, and its verifications", asked)


def check_reserved(judge, user, key):
    """A signature over reserved bytes verifies, and counts for nobody."""
    asked, own = [], judge.made.rafendilo.fingerprint(key)
    for reserved, wanted in ((b"", "0"), (b"reserved", str(judge.number("NOT_SIGNED")))):
        signature = ssh_signature_over(reserved, judge.made.maker.path(user), judge.made.maker.read(f"{user}.pub"), TEXT)
        by_digest = questions_of(signature, b"file", hashlib.sha512(TEXT).digest(), own)[1]
        by_text = f"is-sshsig {signature.hex()} {word(b'file')} {TEXT.hex()} {own.hex()}"
        # the signer is asked first
        by_other = questions_of(signature, b"file", hashlib.sha512(TEXT).digest(), bytes(32))[1]
        asked += [("by another signer", by_other, str(judge.number("SIGNER_NOT_ALLOWED")))]
        asked += [("what is reserved", f"sshsig-reserved {signature.hex()}", f"0 {word(reserved)}")]
        asked += [("cut", f"sshsig-reserved {signature[:-1].hex()}", "13"), ("by its text", by_text, wanted), ("by its digest", by_digest, wanted)]
    judge.hold(f"a signature by {user} over reserved bytes", asked)


def check_digests(judge):
    """What keys of each kind sign by each hash; and where key and signature do not go together, there is nothing to verify."""
    maker, kinds = judge.made.maker, judge.made.kinds
    keys = [judge.made.key(number) for number in range(len(kinds))]
    for number, (kind, key) in enumerate(zip(kinds, keys)):
        for hashed in HASHES:
            signature = signed(maker, f"user{number}", hashed)
            judge.check(f"a signature by {kind.name} names its hash {hashed}", judge.made.rafendilo.sshsig_hash(signature) == hashed)
            check_signed(judge, f"a signature by {kind.name} with {hashed}", key, signature, hashed)
        if judge.asker.is_package:
            check_reserved(judge, f"user{number}", key)
    strange = next(it for it in keys if take(it)[0] != take(keys[0])[0])
    question, _ = questions_of(with_key(signed(maker, "user0", "sha256"), strange), b"file", hashlib.sha256(TEXT).digest(), b"")
    judge.hold("a signature by a digest", [("under another kind of key", question, str(judge.number("UNSUPPORTED")))])
