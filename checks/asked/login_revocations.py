"""Logins by a certificate that lists of ssh-keygen revoke or do not, for checks/callers. `ssh-keygen -Q` and a real sshd
(sshd_config(5), RevokedKeys) say of each list whether it does."""
import time

from .login_options import compared
from .revoked_lists import list_of, saved

SERIAL, KEY_ID = 7, "jump"
LET_IN, REVOKED = "ok touch-required", "revoked"
OWN, OTHER, ALL = "authority1", "authority4", "none"
# names, whose certificates a list is about, its lines (ssh-keygen(1), "KEY REVOCATION LISTS"), and what the program answers
LISTS = [
    ("nothing", OWN, [], LET_IN),
    ("the serial number", OWN, [f"serial: {SERIAL}"], REVOKED),
    ("the serial number in a range", OWN, [f"serial: 5-{SERIAL}"], REVOKED),
    ("another serial number", OWN, [f"serial: {SERIAL + 1}"], LET_IN),
    ("the serial number of another authority", OTHER, [f"serial: {SERIAL}"], LET_IN),
    ("the serial number of all authorities", ALL, [f"serial: {SERIAL}"], REVOKED),
    ("the key id", OWN, [f"id: {KEY_ID}"], REVOKED),
    ("another key id", OWN, [f"id: {KEY_ID}s"], LET_IN),
    ("the key id of another authority", OTHER, [f"id: {KEY_ID}"], LET_IN),
    ("the key", OWN, ["key: {user}"], REVOKED),
    ("the digest of the key", OWN, ["sha256: {user}"], REVOKED),
    ("another key", OWN, ["key: {other}"], LET_IN),
    ("the authority's key", OWN, ["key: {authority1}"], REVOKED),
    ("another authority's key", OWN, ["key: {authority4}"], LET_IN),
]


def login_revocations(maker, user, lets_in, told_of_certificate):
    """Names, lines and answers: the configuration that trusts both authorities stands in the folder."""
    line = maker.certificate(OWN, "user", "-n", user, "-z", str(SERIAL), "-V", "-5m:+5m", "-O", "clear", "-I", KEY_ID)
    told, trusted = [told_of_certificate(line)], maker.fingerprint(OWN)

    def asked(*lists, by=trusted, question="login"):
        return "\t".join([question, user, str(int(time.time())), line, by, *(it.hex() for it in lists)])

    def said(path, answer):
        """The answer that is wanted, or what OpenSSH says of the list instead."""
        query = maker.run("-Q", "-f", path, maker.path("user-cert.pub"), check=False)
        by_both = [query.returncode == 0, lets_in(maker, user, f"-oRevokedKeys={path}")]
        return compared(answer, [query, by_both], by_both == [answer == LET_IN] * 2)

    made, keys = {}, {name: maker.read(f"{name}.pub") for name in ("user", "other", OWN, OTHER)}
    for name, authority, lines, answer in LISTS:
        made[name] = list_of(maker, "\n".join(lines).format(**keys), authority)
        yield f"login where a list has {name}", told, asked(made[name]), said(saved(maker, made[name]), answer)
    nothing, revoked = made["nothing"], made["the serial number"]
    for name, text in (("cut off", revoked[:-1]), ("none", b"ssh-ed25519 AAAA\n")):
        yield f"login where a list is {name}", told, asked(text), said(saved(maker, text), REVOKED)
    yield "login where the second list revokes", told, asked(nothing, revoked), REVOKED
    yield "login where one of two lists is cut off", told, asked(nothing, revoked[:-1]), REVOKED
    # the authority is asked first, and the verifier not at all
    yield "login where a certificate by another authority is revoked", told, asked(revoked, by=""), "another authority"
    yield "login where a certificate that nobody verified is revoked", [], asked(revoked), REVOKED
    yield "how often the verifier is asked about a revoked certificate", told, asked(revoked, question="questions\tlogin"), "0"
