"""All that is asked of the library in each language: check_calls, for checks/foreign and checks/bindings."""
from dataclasses import replace

from lib.harness import string

from .address_calls import check_addresses
from .certificate_calls import check_certificates
from .destination_calls import check_destinations
from .digest_calls import check_digests
from .entry_calls import check_entry_calls
from .host_calls import check_hosts
from .key_calls import check_keys
from .linked import data_of, word
from .login_calls import check_users
from .made import MIDDLE
from .memory_calls import question_of
from .newer_calls import check_newer
from .publickey import REQUEST, TRANSPORT, Login
from .publickey_calls import check_publickeys
from .revocation_calls import EMPTY, check_revocations
from .security_key_calls import check_signatures
from .signer_calls import check_signers
from .text_calls import check_texts
from .time_calls import check_times
from .trust_calls import check_trust
from .user_key_calls import check_user_keys
from .userauth_calls import check_userauths
from .verified_calls import check_verified

# of how many hostile byte strings a package is asked about one
SAMPLED = 12
# and of how many of all kinds one by the calls for other bytes
OTHERS = 25 * SAMPLED
# the calls that read the bytes of each kind
FILE, DIGEST, ALICE, HOST, NONE = b"file".hex(), "a5" * 64, b"alice".hex(), b"h.example".hex(), EMPTY.hex()
KEY = word(string(b"ssh-ed25519") + string(bytes(32)))
# a login that is offered what stands for `{}`, seen by a transport and asked about here
OFFERED = Login(b"{}", authorities=bytes.fromhex(DIGEST[:64]), how=TRANSPORT).words().replace(b"{}".hex(), "{}")
SIGNED = Login(bytes.fromhex(KEY), algorithm=b"ssh-ed25519", keys=(b"{}",), how=REQUEST, signature=b"{}").words().replace(b"{}".hex(), "{0}")
OF_KINDS = {
    "certificate": [
        "certificate {}", "fields {}", "lists {}", "normal certificate {}", f"unrevoked-certificate-by-krl {NONE} {{}}", "unrevoked-certificate - {}",
        OFFERED, f"host-certificate - {HOST} {{}} {NONE} 22 0 {MIDDLE}",
    ],
    "key": ["key {}", "normal key {}", f"unrevoked-key-by-krl {NONE} {{}}", "unrevoked-key - {}", f"host-key - {HOST} {{}} {NONE} 22 0", OFFERED],
    "ssh-signature": [f"sshsig {{}} {FILE} {b'message'.hex()}", "normal sshsig {}", f"signer - {FILE} {FILE} {{}} - {MIDDLE} 1"],
}  # fmt: skip
OF_OTHERS = [
    "normal signature {}", "lines {}", "entry {}", "host {}", "options {}", "line {}", "unrevoked-key-by-krl {} -", "unrevoked-key {} -", "other-key-line {}", "later-kind {}", "time {}", "armour {}",
    "may-verify {}", f"for-key {{}} {KEY}", f"for-key {KEY} {{}}", f"for-certificate {KEY} {{}}",
    f"unreadable-line {{}} {HOST} 22", f"host-key {{}} {HOST} {KEY} {NONE} 22 0", SIGNED,
]  # fmt: skip
# those that a package is asked too
OF_PACKAGES = {
    "certificate": [f"validate {{}} {MIDDLE} * {'00' * 32} 1"], "others": ["strings {}", "certificate-options {}"],
    "ssh-signature": [f"sshsig-of-digest {{}} {FILE} {DIGEST}", "sshsig-hash {}"],
}  # fmt: skip


def is_as_wanted(judge, wanted, answer, is_offered):
    """Whether the answer is one that is wanted of bytes of checks/hostile. What is offered may be a key, too: that of a name of private use
    and a string is not accepted."""
    number = int(answer.split()[0]) if answer[:1].isdigit() else -1
    if is_offered and wanted in ("trailing", "length", "refused"):
        return 10 <= number < 30 or number == judge.number("KEY_NOT_ACCEPTED")
    if wanted in ("trailing", "length"):
        return number == judge.number({"trailing": "TRAILING_DATA", "length": "LENGTH"}[wanted])
    if wanted == "refused":
        return 10 <= number < 30
    # what is read lets nobody in, nor is that host known
    others = ("UNSUPPORTED", "OTHER_NAMESPACE", "SIGNER_NOT_ALLOWED", "NOT_NORMAL_FORM", "OTHER_TYPE", "OTHER_KEY", "HOST_UNKNOWN", "KEY_NOT_ACCEPTED", "KEY_ID", "VALID_PRINCIPALS", "USER_NOT_LISTED")
    read = map(judge.number, ("DONE", *others))
    return number in read or wanted != "read" and 10 <= number < 30


def check_hostile(judge, is_short):
    """Byte strings of checks/hostile, by each call that reads their kind, and by the others."""
    every, more = SAMPLED if judge.asker.is_package or is_short else 1, OF_PACKAGES if judge.asker.is_package else {}
    hostile = judge.made.hostile
    for kind, calls in OF_KINDS.items():
        some = [it for it in hostile if it[0] == kind][::every]
        for call in calls:
            said = judge.ask(f"hostile byte strings for `{call}`", [call.format(word(data)) for _, data, _ in some])
            wrong = [(*it, answer) for it, answer in zip(some, said) if not is_as_wanted(judge, it[2], answer, call == OFFERED)]
            judge.check(f"each {kind} of {len(some):,} is answered as it has to be by `{call}`", some and not wrong, *wrong[:3])
        if kind in more:
            judge.ask(f"byte strings for a {kind} of a package", [it.format(word(data)) for _, data, _ in some for it in more[kind]])
    calls = [*OF_OTHERS, *more.get("others", [])]
    judge.ask("byte strings of another kind", [it.format(word(data)) for _, data, _ in hostile[::OTHERS] for it in calls])
    asked = [it for _, data, _ in hostile[::OTHERS] for it in logins_with(judge.made, data)]
    said = judge.ask("logins in which byte strings stand in each place in turn", asked)
    let_in = [it for it in zip(asked, said) if it[0].startswith("log-in ") and it[1].startswith("0 ")]
    judge.check("and by none of these is anybody let in", not let_in, *let_in[:3])


def logins_with(made, data):
    """Questions about a login for which nobody has signed, by a certificate of which a text of principals has the user, with these bytes
    in each place in turn."""
    name, signature = b"ssh-ed25519-cert-v01@openssh.com", string(b"ssh-ed25519") + string(bytes(64))
    login = Login(made.kinds[0].blob, algorithm=name, session=b"session", signature=signature, how=REQUEST, authorities=made.authority(), principals=(b"alice\n",))
    asked = [replace(login, **{place: data}) for place in ("user", "algorithm", "blob", "session", "host_key", "signature", "client", "host")]
    asked += [replace(login, keys=(b"# a comment\n", data)), replace(login, principals=(b"eve\n", data)), replace(login, revoked=(EMPTY, data))]
    # no authority lets in before what a command wrote
    asked.append(replace(login, principals=(), command=(b"# a comment\n", data)))
    for it in asked:
        yield from (it.words(), it.words("log-in-questions"), it.query())


def validations(own):
    """Names, seconds, principals (* for any), authorities, what a verification said, and what is wanted of a certificate for alice
    and bob by the authority with that fingerprint."""
    other, most, alice = bytes(32), 2**64 - 1, b"alice".hex()
    return [
        ("any principal", MIDDLE, "*", own, 1, "DONE"), ("not verified", MIDDLE, "*", own, 0, "NOT_SIGNED"),
        ("no authority", MIDDLE, "*", b"", 1, "UNTRUSTED_AUTHORITY"), ("the second of two", MIDDLE, "*", other + own, 1, "DONE"),
        ("two others", MIDDLE, "*", other + other, 1, "UNTRUSTED_AUTHORITY"), ("no time", 2**63, "*", own, 1, "INVALID_TIME"),
        ("the last time", 2**63 - 1, "*", own, 1, "OUT_OF_WINDOW"), ("the greatest number", most, alice, own, 1, "INVALID_TIME"),
        ("nobody", MIDDLE, "-", own, 1, "UNLISTED_PRINCIPAL"), ("no text", MIDDLE, "ff", own, 1, "TEXT"),
        ("alice", MIDDLE, alice, own, 1, "DONE"), ("alice, at 0", 0, alice, own, 1, "OUT_OF_WINDOW"),
        ("all is wrong", most, b"eve".hex(), other, 0, "NOT_SIGNED"),
    ]  # fmt: skip


def check_validations(judge):
    """Validation by what it is given, of one certificate: times, numbers of authorities, principals that are none."""
    blob, own = judge.made.kinds[0].blob, judge.made.authority()
    if judge.asker.is_package:
        asked = []
        for name, second, whom, by, yes, wanted in validations(own):
            # no question is asked about another authority's certificate
            is_own = own in judge.answers.digests(word(by))
            number = judge.number(wanted if is_own else "UNTRUSTED_AUTHORITY")
            asked.append((name, f"validate {blob.hex()} {second} {whom} {word(by)} {yes}", f"{number} {int(is_own)}"))
        judge.hold("a validation", asked)
        return
    asked = [*validations(own), *((f"verified by {it}", MIDDLE, "*", own, it, "NOT_SIGNED") for it in (2, 2**32 - 1))]
    questions = []
    for _, second, whom, by, yes, _ in asked:
        call, name = ("check_certificate", b"") if whom == "*" else ("check_certificate_for", data_of(whom))
        questions.append(question_of("call", call, [blob, name, by], [second, yes]))
    said = judge.said("validations", questions)
    for (name, *_, wanted), answer in zip(asked, said):
        judge.check(f"validation: {name}", answer == str(judge.number(wanted)), answer, wanted)


def check_calls(judge, is_short=False):
    """Where it is to be short, of the hostile byte strings those that a package is asked about, and no logins at a real sshd."""
    check_hostile(judge, is_short)
    check_certificates(judge)
    check_validations(judge)
    check_keys(judge)
    check_signatures(judge)
    check_digests(judge)
    check_revocations(judge)
    check_entry_calls(judge)
    check_users(judge)
    check_user_keys(judge)
    check_publickeys(judge, is_short)
    check_hosts(judge)
    check_userauths(judge)
    check_signers(judge)
    check_trust(judge)
    check_addresses(judge)
    check_times(judge)
    check_destinations(judge)
    check_texts(judge)
    check_newer(judge)
    check_verified(judge)
