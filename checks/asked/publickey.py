"""Logins by public key as the library takes them, and what it grants, for checks/foreign and checks/bindings: the words of `log-in`
(answers.py), and what the calls are given in C."""
import hashlib
from dataclasses import dataclass

from .linked import several, word
from .made import MIDDLE
from .revocation_calls import EMPTY

# who has seen the client's signature (RAF_SIGNED_*)
REQUEST, TRANSPORT, WITH_FLAGS, SSHD = 1, 2, 3, 4
# whom authorities let in (RAF_PRINCIPALS_*)
IN_CERTIFICATE, IN_FILES = 1, 2
# by what a login is let in (RAF_SOURCE_*)
KEYS, AUTHORITY, PRINCIPALS, COMMAND = 1, 2, 3, 4
# a text that could not be read
UNREADABLE = None
FOREVER = 2**64 - 1
# the host and the port that are written where ports may be forwarded anywhere
ANYWHERE = (b"*", b"")


def texts(many):
    """Texts as a question spells them."""
    return ",".join("?" if it is UNREADABLE else word(it) for it in many) or "none"


@dataclass(frozen=True)
class Login:
    """A login that is asked for, where sshd has seen the signature if nobody else is named. `principals` are texts, or None for those in
    the certificate."""

    blob: bytes
    user: bytes = b"alice"
    algorithm: bytes = b""
    session: bytes = b""
    host_key: bytes | None = None
    signature: bytes = b""
    how: int = SSHD
    flags: int = 0
    keys: tuple = ()
    authorities: bytes = b""
    principals: tuple | None = None
    command: tuple = ()
    revoked: tuple = (EMPTY,)
    bits: int = 0
    touch: bool = False
    verification: bool = False
    client: bytes = b""
    host: bytes = b""
    second: int = MIDDLE
    # 1 where the caller checks the address, which is asked of C alone
    checks: int = 0

    def offered(self):
        return [*map(word, (self.user, self.algorithm, self.blob))]

    def signed(self):
        parts = [*map(word, (self.session, self.host_key or b"", self.signature))]
        return [*parts, str(self.how), str(int(self.host_key is not None)), str(self.flags)]

    def trusted(self):
        numbers = (IN_CERTIFICATE if self.principals is None else IN_FILES, self.bits, int(self.touch), int(self.verification))
        lists = [texts(self.keys), word(self.authorities), texts(self.principals or ()), texts(self.command), several(self.revoked)]
        return [*lists, *map(str, numbers)]

    def placed(self):
        return [word(self.client), word(self.host), str(self.second)]

    def words(self, *what):
        """A question about it: `log-in`, or what else takes its words."""
        checks = [str(self.checks)] * bool(self.checks)
        return " ".join([*(what or ["log-in"]), *self.offered(), *self.signed(), *self.trusted(), *self.placed(), *checks])

    def query(self):
        """The question whether it may be offered."""
        return " ".join(["may-offer", *self.offered(), *self.trusted(), *self.placed()])

    def call(self, answers=0, ticket=b""):
        """What the calls are given in C, bytes and numbers; without a ticket that of its questions."""
        offered, signed, trusted, placed = self.offered(), self.signed(), self.trusted(), self.placed()
        spans = [*offered, *signed[:3], *trusted[:5], *placed[:2], word(ticket)]
        return spans, [*signed[3:], *trusted[5:], placed[2], str(self.checks), str(answers)]


def refused(number, asked=0, source=0, text=0, line=0):
    """What is wanted where a login is refused with that number, and by which line of which text."""
    return f"{number} {asked} {source} {text} {line}"


def refused_by(number, source, line, text=0):
    """What is wanted where nothing lets in, and the first line that is for what is offered refuses for that, from 91 to 95."""
    return refused(number, 0, source, text, line)


@dataclass(frozen=True)
class Granted:
    """What is wanted where a login is let in: by a certificate alone, if no line is named. Of a certificate the key stands beside the
    fingerprint of its authority."""

    permits: int
    key: bytes
    source: int = AUTHORITY
    text: int = 0
    line: int = 0
    command: bytes = b""
    key_id: bytes = b""
    opened: tuple = ANYWHERE
    listened: tuple = ANYWHERE
    environment: tuple = ()
    serial: int = 0
    expires: int = FOREVER
    authority: bytes = bytes(32)
    tunnel: int = 0
    # how often the verifier is asked
    asked: int = 0

    def words(self):
        def strings(many):
            return word(b"".join(len(it).to_bytes(4, "big") + it for it in many))

        texts_ = [word(self.command), word(self.key_id), strings(self.opened), strings(self.listened), strings(self.environment)]
        front = ["0", self.asked, self.source, self.text, self.line, *texts_, self.serial, self.expires, self.expires]
        digest = hashlib.sha256(self.key).hexdigest()
        return " ".join(map(str, [*front, self.authority.hex(), digest, self.permits, self.tunnel]))
