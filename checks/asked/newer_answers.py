"""What is asked of a newer OpenSSH than need be installed, for checks/newer and checks/foreign. Its answers stand in
`checks/asked/newer`, with the keys and certificates that they are about and with the version that gave them."""
import getpass
import itertools
import json
import subprocess

from lib.harness import ROOT, SSHD

from .host_rows import BY_KEY, CERTIFICATES_AND_LATER, HOST, KEYS_AND_LATER, LATER, LATER_NAME, field, salted
from .hosts import knows
from .linked import run
from .principals import CONFIGURATION, logs_in
from .signers import NAMESPACE, NO, NOON, OK, WHO, ZONELESS, ZONES, made_by, says

STORED = f"{ROOT}/checks/asked/newer"
MESSAGE = b"a commit\n"
# the certificates: whose they are, whose key they are for, and the words that make them
CERTIFICATES = {
    "of the host": ("authority", "host-key", ["-h", "-n", HOST]), "of no host": ("authority", "host-key", ["-h"]),
    "of a pattern": ("authority", "host-key", ["-h", "-n", "*.example"]), "by a later kind": ("later", "host-key", ["-h", "-n", HOST]),
    "of the user": ("authority", "user", ["-n", "{user}"]), "of no user": ("authority", "user", []),
    "of the user, by a later kind": ("later", "user", ["-n", "{user}"]),
}  # fmt: skip
# a certificate by an authority whose key is not read
UNREAD = "refused: label invalid"
BY_AUTHORITY, BY_LATER = "@cert-authority h.example {authority}", "@cert-authority h.example {later}"
# the lines of known_hosts, the port, the certificate that the host shows, and the answer
HOST_CERTIFICATES = [
    *((lines, port, "of the host", wanted) for _, lines, port, _, wanted in CERTIFICATES_AND_LATER),
    ([BY_AUTHORITY], 22, "of the host", "ok"), ([BY_AUTHORITY], 22, "of no host", field("valid principals")),
    ([BY_AUTHORITY], 22, "of a pattern", field("valid principals")), ([BY_AUTHORITY], 22, "by a later kind", UNREAD),
    ([BY_LATER], 22, "by a later kind", UNREAD), ([BY_LATER], 22, "of the host", "unknown"),
    *(([*lines, f"{HOST} {{key}}"], 22, shown, BY_KEY) for lines in ([], [BY_LATER]) for shown in ("of the host", "of no host", "of a pattern")),
    ([BY_AUTHORITY, f"{HOST} {{key}}"], 22, "of no host", BY_KEY), ([BY_AUTHORITY, f"{HOST} {{key}}"], 22, "of a pattern", BY_KEY),
    ([f"{HOST} {{key}}", f"@revoked * {{key}}"], 22, "of the host", "revoked"), ([f"{HOST} {{key}}", f"@revoked * {{authority}}"], 22, "of the host", "revoked"),
    ([f"{HOST} {{later}}"], 22, "of the host", "changed"),
]  # fmt: skip
# the text of allowed signers, the second, and the answer
SIGNERS = [
    *((text, at, wanted) for _, text, wanted, at, _ in ZONELESS),
    ("{who} {later}\n{who} {key}\n", NOON, OK), ("{who} {key}\nbob@example.com {later}\n", NOON, OK), ("{who} {later}\n", NOON, NO),
]  # fmt: skip
# lines of authorities (TrustedUserCAKeys), and whether sshkey-principals lets the user in by the first of these certificates; by the
# others it never does
AUTHORITIES = [
    (["{authority}"], True), (["{later}", "{authority}"], True), (["{authority}", "{later}"], True), (["{later}"], False),
    (["{later} a comment", "{other}", "{authority}"], True), (["{other}", "{later}"], False), (["{cut}", "{authority}"], False),
    (["{authority}", "{cut}"], False), (["{misnamed}", "{authority}"], False), (["{short}", "{authority}"], False),
]  # fmt: skip
SHOWN = ["of the user", "of the user, by a later kind", "of no user"]
# sshd reads no further than to such a line, and here it lets nobody in
BROKEN_OFF = "{cut}"


# ---- the stored answers


class Stored:
    """The version, the keys and certificates by their names, and the answers by their questions."""

    def __init__(self):
        with open(STORED, encoding="ascii") as file:
            version, held, *rows = file.read().splitlines()
        self.version, self.held = version.removeprefix("# "), json.loads(held)
        self.answers = {json.dumps(question): answer for question, answer in map(json.loads, rows)}

    def answer(self, *question):
        """What was answered, or None where it was not asked."""
        return self.answers.get(json.dumps(question))


def filled(lines, held):
    """The bytes of the lines with the keys that they name, and with the host's name hashed in place of a `#`."""
    made = [it.replace(f"#{HOST}", salted(20)).format(**held) for it in lines]
    return "".join(f"{it}\n" for it in made).encode()


# ---- asking OpenSSH


def store(maker):
    """Makes them anew, by the programs that are first in PATH; the version, and how many there are."""
    said = subprocess.run([SSHD, "-V"], capture_output=True, encoding="utf-8", check=True).stderr
    version, held = said.replace("_", " ").partition(",")[0].lower(), made(maker)
    rows = [json.dumps(it) for it in answers(maker, held)]
    with open(STORED, "w", encoding="ascii") as file:
        file.write("\n".join([f"# {version}", json.dumps(held), *rows, ""]))
    return version, len(rows)


def made(maker):
    """The lines of keys and certificates by their names. Of a later kind it has a real key, and else the lines of LATER."""
    for name in ("host", "host-key", "authority", "other", "user"):
        maker.key(name)
    maker.key("later", LATER_NAME.decode().removeprefix("ssh-"))
    held = {**LATER, **{it: maker.read(f"{it}.pub") for it in ("authority", "other", "later")}}
    held.update(key=maker.read("host-key.pub"), who=WHO, user=getpass.getuser(), signature=made_by(maker, "host-key", MESSAGE).hex())
    for name, (authority, key, words) in CERTIFICATES.items():
        held[name] = maker.certificate(authority, key, *(it.format(**held) for it in words), "-V", "always:forever")
    return held


def answers(maker, held):
    """Questions, each with its answer."""

    def shows(name):
        """Has the host, or the user, show that certificate."""
        key = CERTIFICATES[name][1]
        with open(maker.path(f"{key}-cert.pub"), "w", encoding="ascii") as file:
            file.write(held[name] + "\n")

    for _, lines, port, _ in KEYS_AND_LATER:
        yield ["host-key", lines, port], knows(maker, [filled(lines, held)], port)
    for lines, port, shown, _ in HOST_CERTIFICATES:
        shows(shown)
        yield ["host-certificate", lines, port, shown], knows(maker, [filled(lines, held)], port, is_certified=True)
    signature = bytes.fromhex(held["signature"])
    for text, at, _ in SIGNERS:
        for zone in ZONES:
            allowed = text.format(**held).encode()
            verified = says(maker, allowed, signature, MESSAGE, WHO, NAMESPACE, at, None, zone)
            yield ["allowed-signer", text, at, zone], verified
    for number, (shown, (lines, _)) in enumerate(itertools.product(SHOWN, AUTHORITIES)):
        shows(shown)
        with open(maker.path("trusted"), "wb") as file:
            file.write(filled(lines, held))
        # a configuration has a log of its own
        with open(maker.path(f"config{number}"), "w", encoding="ascii") as file:
            file.write(CONFIGURATION.format(maker.folder))
        yield ["authorities", lines, shown], logs_in(maker, f"config{number}", held["user"], "user")


# ---- asking sshkey-principals


def check_principals(count, built, maker):
    """By the same authorities, all of them the user's, it lets in whom sshd does."""
    stored = Stored()
    for shown, (lines, by_first) in itertools.product(SHOWN, AUTHORITIES):
        user, wanted = stored.held["user"], by_first and shown == SHOWN[0]
        authorities = maker.write("authorities", filled([f"{user} {it}" for it in lines], stored.held).decode())
        offered = stored.held[shown].split()[:2]
        ran = run([f"{built.plain}/sshkey-principals", "--insecure-modes", authorities, user, *offered])
        theirs = stored.answer("authorities", lines, shown)
        is_same = theirs == wanted or theirs and BROKEN_OFF in lines
        name = f"principals by {lines}, a certificate {shown}, as {stored.version} has it"
        count.check(name, ran.stdout == f"{user}\n" * wanted and is_same, ran, theirs)
