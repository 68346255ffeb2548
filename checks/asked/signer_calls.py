"""What a text of allowed signers says of an SSH signature, against `ssh-keygen -Y verify`: the cases are those of signers.py."""
import hashlib
import os
import tempfile

from . import signers
from .linked import several, word
from .made import loaded
from .revoked_lists import list_of

WANTED = {
    signers.OK: "DONE", signers.NO: "SIGNER_NOT_ALLOWED", signers.REVOKED: "REVOKED", "not verified": "NOT_SIGNED",
    "no signature": "LENGTH", "no identity": "NO_IDENTITY",
}  # fmt: skip
# every how many-th case a package is asked about
SAMPLED = 5
# texts of revoked keys, which ssh-keygen takes in place of a list, and what is wanted; {broken} is no key
TEXTS = [
    ("her key in a text", "{key}\n", "REVOKED"), ("her key after another", "# x\n\n \t{other}\r\n{key} x", "REVOKED"),
    ("another key in a text", "{other}\n", "DONE"), ("a comment", "# {key}\n", "DONE"), ("an empty file", "", "DONE"),
    ("a line that is no key", "{other}\nssh-ed25519 AAAA\n", "UNREADABLE_REVOCATIONS"),
    ("a text that is not UTF-8", "\xff", "UNREADABLE_REVOCATIONS"),
]  # fmt: skip
# the identity in place of hers, the text of signers, and what is wanted, as bytes
OTHERS = [
    ("a line that is not UTF-8", b"\xff", None, "SIGNER_NOT_ALLOWED"), ("an identity that is not UTF-8", None, b"\xff", "TEXT"),
    ("an identity of no bytes", None, b"", "NO_IDENTITY"),
]  # fmt: skip


def question(text, who, namespace, blob, revoked, at, yes):
    return " ".join(["signer", *map(word, (text, who, namespace, blob)), several(revoked), str(at), str(int(yes))])


def is_verified(made, blob, namespace, message):
    """Whether the signature raises a question as one of the message in the namespace, and the example verifies it."""
    try:
        return made.rafendilo.is_signature(made.rafendilo.sshsig_question(blob, namespace, message)[0])
    except made.rafendilo.Refused:
        return False


def asked_twice(name, given, yes, wanted):
    """The question before the verification, of which nothing else is said, and the one after it."""
    first = "NOT_SIGNED" if wanted == "DONE" else wanted
    return [(f"{name}, before it is verified", question(*given, 0), first), (name, question(*given, yes), wanted)]


def cases(made, maker):
    """Names, what a question is asked with, the message, whether it is verified, and what is wanted."""
    for name, verified, asked, wanted in signers.signers(maker):
        ask, *words = asked.split("\t")
        if ask != signers.ASK:
            continue
        text, who, namespace, at, message, blob, *revoked = words
        text, message, blob, revoked = map(bytes.fromhex, (text, message, blob, "".join(revoked)))
        # a signature that nobody verified is one that the caller's library refuses
        yes = bool(verified) and is_verified(made, blob, namespace, message)
        wanted = "UNREADABLE_REVOCATIONS" if name.endswith("a list that breaks off") else WANTED.get(wanted, wanted)
        yield name, (text, who.encode(), namespace.encode(), blob, [revoked], at), message, yes, wanted


def revocations(maker):
    """The same of files of revoked keys that are texts."""
    keys, message = {it: maker.read(f"{name}.pub") for it, name in (("key", "signer"), ("other", "another-signer"))}, b"a commit\n"
    blob, text = signers.made_by(maker, "signer", message), f"{signers.WHO} {keys['key']}\n".encode()
    given = (text, signers.WHO.encode(), signers.NAMESPACE.encode(), blob)
    for name, lines, wanted in TEXTS:
        revoked = lines.format(**keys).encode("latin-1")
        # ssh-keygen takes one file
        if signers.says(maker, text, blob, message, signers.WHO, signers.NAMESPACE, signers.NOON, revoked) != (wanted == "DONE"):
            wanted = f"{wanted}, and ssh-keygen says otherwise"
        yield f"revoked is {name}", (*given, [revoked], signers.NOON), message, True, wanted
        yield f"another file, and revoked is {name}", (*given, [list_of(maker, keys["other"]), revoked], signers.NOON), message, True, wanted
    yield "no file of what is revoked", (*given, [], signers.NOON), message, True, "UNREADABLE_REVOCATIONS"


def no_texts(maker):
    """The same of texts that are none."""
    key, message = maker.read("signer.pub"), b"a commit\n"
    blob, text = signers.made_by(maker, "signer", message), f"{signers.WHO} {key}\n".encode()
    for name, other, who, wanted in OTHERS:
        asked = (text if other is None else other, signers.WHO.encode() if who is None else who)
        yield name, (*asked, signers.NAMESPACE.encode(), blob, [list_of(maker, key)], signers.NOON), message, True, wanted


def asked_whole(made, found):
    """Names, the words of questions about the call that verifies, which says the same, what is wanted, and how often it verifies."""
    for name, (*front, revoked, at), message, _, wanted in found:
        hashed, said = said_by_verifying(made, *front[2:], message)
        status = said if wanted in ("DONE", "NOT_SIGNED") else wanted
        words = [*map(word, front), several(revoked), str(at), word(hashlib.new(hashed, message).digest())]
        yield name, " ".join(words), status, "" if status == "NOT_SIGNED" else f" {int(status == 'DONE')}"


def said_by_verifying(made, namespace, blob, message):
    """The hash of a signature by a key that may sign, and what is to be said of it."""
    try:
        is_one = is_verified(made, blob, namespace, message) and not made.rafendilo.sshsig_reserved(blob)
        made.rafendilo.sshsig_question(blob, namespace, message)
        return made.rafendilo.sshsig_hash(blob), "DONE" if is_one else "NOT_SIGNED"
    except made.rafendilo.Refused as refused:
        return "sha256", refused.status.name


def check_signers(judge):
    with tempfile.TemporaryDirectory() as folder:
        maker = loaded("callers").Maker(folder)
        found, others = [*cases(judge.made, maker), *revocations(maker)], list(no_texts(maker))
    every = SAMPLED if judge.asker.is_package else 1
    asked = [it for name, given, _, yes, wanted in found[::every] for it in asked_twice(name, given, yes, wanted)]
    asked += [(name, question(*given, True), wanted) for name, given, _, _, wanted in others[::every]]
    # what ssh-keygen says otherwise has no number
    numbers = {it: str(judge.number(it)) for it in (*WANTED.values(), "UNREADABLE_REVOCATIONS", "OTHER_NAMESPACE", "TEXT")}
    judge.hold("an allowed signer", [(name, it, numbers.get(wanted, wanted)) for name, it, wanted in asked])
    is_package = judge.asker.is_package
    asked = list(asked_whole(judge.made, [*found, *others]))[::every]
    said = [(name, f"{'is-signer' if is_package else 'signer-by'} {words}", wanted, "" if is_package else count) for name, words, wanted, count in asked]
    judge.hold("an allowed signer, verified", [(name, it, numbers.get(wanted, wanted) + count) for name, it, wanted, count in said])
