"""What calls answer: values that nobody changes."""
from __future__ import annotations

import enum
from collections.abc import Mapping
from dataclasses import dataclass
from typing import Any, Final, Union

from ._header import WORDS, Algorithm, CertificateType, Marker, Source, Status

# what a call takes for bytes
BytesLike = Union[bytes, bytearray, memoryview]
# what Trusted calls the texts of each source
TEXTS = {Source.AUTHORIZED_KEYS: "authorized_keys", Source.PRINCIPALS: "principals", Source.COMMAND: "command_keys"}


class AllPrincipals(enum.Enum):
    """The type of ALL_PRINCIPALS."""

    ALL_PRINCIPALS = enum.auto()


# in place of a list of principals: the certificate lists none, and so is for everybody
ALL_PRINCIPALS: Final = AllPrincipals.ALL_PRINCIPALS
# in place of what revocation files have, where none is asked: one file, a key revocation list that revokes nothing (PROTOCOL.krl)
NO_REVOCATIONS: Final = (b"SSHKRL\n\0\0\0\0\1" + bytes(32),)


class Unreadable(enum.Enum):
    """The type of UNREADABLE."""

    UNREADABLE = enum.auto()


class InCertificate(enum.Enum):
    """The type of IN_CERTIFICATE."""

    IN_CERTIFICATE = enum.auto()


# in place of the text of a file that is there and could not be read: no text after it is asked, nor any other source
UNREADABLE: Final = Unreadable.UNREADABLE
# in place of texts of principals: no AuthorizedPrincipalsFile is configured, and an authority lets in whom the certificate lists
IN_CERTIFICATE: Final = InCertificate.IN_CERTIFICATE
# the text of a file that the server's configuration names: of one that is not there it is empty
Text = Union[bytes, bytearray, memoryview, Unreadable]


class Refused(ValueError):
    """What was given is not what it has to be: `status` says what is wrong first, and the text is its words and its number. Of a login
    `line` is the number, from 1, of the line that refuses, `text` the number, from 0, of its text, and `source` which texts these are:
    0, 0 and None where none does. `hint` names an argument that is a line in place of a blob, or of a later kind of key, and is empty where
    none is."""

    def __init__(self, status: int, line: int = 0, text: int = 0, source: int | None = None, hint: str = "") -> None:
        self.status, self.line, self.text, self.hint = Status(status), line, text, hint
        self.source = Source(source) if source else None
        place = [f"line {line}"] if line else []
        place += [f"{TEXTS[self.source]}[{text}]"] if self.source in TEXTS else []
        said = [f" in {' of '.join(place)}"] if place else []
        super().__init__("".join([f"{WORDS[self.status]} ({self.status:d})", *said, *([f": {hint}"] if hint else [])]))

    def __reduce__(self) -> tuple[Any, ...]:
        return type(self), (self.status, self.line, self.text, self.source, self.hint)


@dataclass(frozen=True)
class Question:
    """What has to be verified: that the signature is one of the message under the key, made as the algorithm says. The key is
    its blob, so strings (`strings` takes them apart); for a security key it is the plain key within."""

    algorithm: Algorithm
    key: bytes
    message: bytes
    signature: bytes


@dataclass(frozen=True)
class Line:
    """What stands in a line: the blob of a certificate or of a key, and the comment."""

    blob: bytes
    comment: str
    is_certificate: bool


@dataclass(frozen=True)
class CertificateFields:
    """What a policy asks of a certificate.

    serial: its number
    valid_after: the first second of its window
    valid_before: the first second after its window, FOREVER if it has no end
    certificate_type: whom it is for
    lists_principals: one that lists none is for everybody
    has_critical_options: refuse one that has some unless you know each
    """

    serial: int
    valid_after: int
    valid_before: int
    certificate_type: CertificateType
    lists_principals: bool
    has_critical_options: bool


@dataclass(frozen=True)
class Contents:
    """What a certificate lists: its key id, principals, critical options and extensions (names and values, which are read and
    not written), the blob of the key that is certified, and that of the key that signed."""

    key_id: str
    principals: tuple[str, ...]
    critical_options: Mapping[str, str]
    extensions: Mapping[str, str]
    key: bytes
    authority: bytes


@dataclass(frozen=True)
class AuthorizedEntry:
    """An entry of authorized_keys: its options as they stand in the line (`line_options` takes them apart), its key's blob in its
    normal form, and its comment."""

    options: bytes
    key: bytes
    comment: bytes


@dataclass(frozen=True)
class KnownHost:
    """An entry of known_hosts: its marker, its hosts, its key's blob in its normal form, and its comment."""

    marker: Marker
    hosts: bytes
    key: bytes
    comment: bytes
