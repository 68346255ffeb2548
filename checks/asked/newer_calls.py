"""What a newer OpenSSH than need be installed answered, as it is stored (newer_answers.py), asked of the library in each language: keys
of hosts and their certificates beside keys of a later kind, and allowed signers with times without a zone."""
import hashlib

from lib.harness import blob_of

from .host_calls import NUMBERED, Shown, answer_to
from .host_rows import BY_KEY, HOST, KEYS_AND_LATER, field
from .linked import word
from .newer_answers import HOST_CERTIFICATES, MESSAGE, SIGNERS, UNREAD, Stored, filled
from .revocation_calls import EMPTY
from .signers import NAMESPACE, NO, NOON, OK, WHO, ZONES

# what the library says in place of what the program callers answers
NUMBERS = {**NUMBERED, UNREAD: "LABEL", OK: "DONE", NO: "SIGNER_NOT_ALLOWED"}
# a certificate that lists nobody, and one whose names have not the host's
BY_NAMES = {"of no host": "VALID_PRINCIPALS", "of a pattern": "UNLISTED_PRINCIPAL"}
# what refuses, whatever OpenSSH decides: a line that is none, a certificate for a pattern or for nobody, a time that is another elsewhere
STRICTER = {"HOST_UNREADABLE", "SIGNER_NOT_ALLOWED", *BY_NAMES.values()}


def cases(stored, is_package):
    """Names, questions, what is wanted, and the answers of OpenSSH."""
    held = stored.held
    for name, lines, port, wanted in KEYS_AND_LATER:
        shown = Shown(blob_of(held["key"]), (filled(lines, held),), port)
        yield f"a host's key, {name}", shown.question(), NUMBERS[wanted], [stored.answer("host-key", lines, port)]
    for lines, port, name, wanted in HOST_CERTIFICATES:
        shown = Shown(blob_of(held[name]), (filled(lines, held),), port, second=NOON)
        number = BY_NAMES[name] if wanted == field("valid principals") else NUMBERS[wanted]
        yield f"a host's certificate {name}, by {lines}", shown.question(), number, [stored.answer("host-certificate", lines, port, name)]
    signature, digest = bytes.fromhex(held["signature"]), hashlib.sha512(MESSAGE).digest()
    for text, at, wanted in SIGNERS:
        words = [*map(word, (text.format(**held).encode(), WHO.encode(), NAMESPACE.encode(), signature, EMPTY)), str(at), digest.hex()]
        question = " ".join(["is-signer" if is_package else "signer-by", *words])
        theirs = [stored.answer("allowed-signer", text, at, it) for it in ZONES]
        yield f"an allowed signer at {at}: {text!r}", question, NUMBERS[wanted], theirs


def check_newer(judge):
    """Each is answered as is wanted, and where that lets in, OpenSSH does so too."""
    stored = Stored()
    found = list(cases(stored, judge.asker.is_package))
    judge.hold(f"as {stored.version} has it", [(name, question, answer_to(judge, question, wanted)) for name, question, wanted, _ in found])
    wrong = [it for it in found if None in it[3] or (it[2] in ("DONE", BY_KEY)) != all(it[3]) and it[2] not in STRICTER]
    judge.check(f"{len(found)} of these let in whom {stored.version} lets in, or refuse", found and not wrong, *wrong[:3])
